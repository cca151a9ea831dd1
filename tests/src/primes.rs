//! Primes, by a sieve as far as it goes, and beyond it by Miller and Rabin's test.

use std::sync::LazyLock;

const SIEVED: usize = 1 << 22;

pub static PRIMES: LazyLock<Primes> = LazyLock::new(Primes::new);

/// The primes below 2^16, rising.
pub static HALVES: LazyLock<Vec<u32>> = LazyLock::new(|| PRIMES.below(1 << 16));

pub struct Primes {
    sieve: Vec<bool>,
}

impl Primes {
    fn new() -> Self {
        let mut sieve = vec![true; SIEVED];
        sieve[..2].fill(false);
        for n in 2..SIEVED {
            if sieve[n] {
                (2 * n..SIEVED).step_by(n).for_each(|multiple| sieve[multiple] = false);
            }
        }
        Primes { sieve }
    }

    pub fn has(&self, n: u32) -> bool {
        match self.sieve.get(n as usize) {
            Some(&answer) => answer,
            None => passes_for_all_bases(n),
        }
    }

    pub fn sieved(&self, n: u32) -> bool {
        (n as usize) < self.sieve.len()
    }

    /// The primes below a bound of at most 2^22, rising.
    pub fn below(&self, bound: u32) -> Vec<u32> {
        (0..bound).filter(|&n| self.sieve[n as usize]).collect()
    }
}

/// No composite number below 4,759,123,141 passes for these three bases (Jaeschke).
fn passes_for_all_bases(n: u32) -> bool {
    !n.is_multiple_of(2) && [2, 7, 61].into_iter().all(|base| passes(n, base))
}

/// base^d is 1, or one of base^d, base^2d, base^4d .. below base^(n-1) is -1: n - 1 is d doubled.
fn passes(n: u32, base: u32) -> bool {
    let doublings = (n - 1).trailing_zeros();
    let mut power = power(base, (n - 1) >> doublings, n);
    if power == 1 {
        return true;
    }
    for _ in 0..doublings {
        if power == n - 1 {
            return true;
        }
        power = times(power, power, n);
    }
    false
}

pub fn power(base: u32, exponent: u32, m: u32) -> u32 {
    let mut power = 1 % m;
    for place in (0..u32::BITS - exponent.leading_zeros()).rev() {
        power = times(power, power, m);
        if exponent >> place & 1 == 1 {
            power = times(power, base, m);
        }
    }
    power
}

pub fn times(a: u32, b: u32, m: u32) -> u32 {
    (u64::from(a) * u64::from(b) % u64::from(m)) as u32
}
