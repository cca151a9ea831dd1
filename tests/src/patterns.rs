//! Draws patterns: modulo a prime, many of them singular; and units and singular ones modulo m.

use crate::calls::mix::product;
use crate::circulant::shadow;
use crate::draw::{divisors, ring};
use crate::factors::List;
use crate::primes::power;
use crate::random::Random;

#[derive(Clone, Debug)]
pub struct Pattern {
    pub f: Vec<u32>,
    pub p: u32,
}

/// A pattern of n coefficients: of any sort, a unit c x^k, or a product with something that shares a
/// factor with x^n - 1.
pub fn draw(n: usize, p: u32, random: &mut Random) -> Pattern {
    let any = ring(n, p, random);
    let d = random.one_of(&divisors(n as u32, 1)) as usize;
    let times = |factor: Vec<u32>| product(&any, &factor, p);
    let f = match random.below(12) {
        0 => monomial(n, random.below(n), random.between(1, p - 1)),
        1 => vec![random.between(0, p - 1); n],
        2 => times(difference(n, d, 1, p)),
        3 => difference(n, d, 1, p),
        4 => times(ones(n, d, n / d)),
        5 => times(ones(n, 1, d)),
        6 => ones(n, 1, d),
        7 => times(difference(n, 1, root_of_unity(n, p, random), p)),
        8 => many_roots(any, p, random),
        _ => any,
    };
    Pattern { f, p }
}

/// One coefficient, at this place.
pub fn monomial(n: usize, place: usize, coefficient: u32) -> Vec<u32> {
    let mut f = vec![0; n];
    f[place] = coefficient;
    f
}

/// x^d - r modulo x^n - 1.
pub fn difference(n: usize, d: usize, r: u32, p: u32) -> Vec<u32> {
    let mut f = monomial(n, 0, (p - r) % p);
    f[d % n] = (f[d % n] + 1) % p;
    f
}

/// 1 + x^step + x^(2 step) + .., so many terms, at most n / step.
pub fn ones(n: usize, step: usize, terms: usize) -> Vec<u32> {
    let mut f = vec![0; n];
    (0..terms).for_each(|term| f[term * step] = 1);
    f
}

/// A number whose power n is 1.
fn root_of_unity(n: usize, p: u32, random: &mut Random) -> u32 {
    let common = divisors(p - 1, 1).into_iter().filter(|d| n.is_multiple_of(*d as usize)).max();
    power(random.between(1, p - 1), (p - 1) / common.unwrap(), p)
}

/// Times a few factors x - r with roots of unity r, equal ones too.
fn many_roots(mut f: Vec<u32>, p: u32, random: &mut Random) -> Vec<u32> {
    let n = f.len();
    for _ in 0..1 + random.below(4) {
        f = product(&f, &difference(n, 1, root_of_unity(n, p, random), p), p);
    }
    f
}

/// A pattern that has an inverse modulo m.
pub fn unit(n: usize, m: u32, random: &mut Random) -> Vec<u32> {
    let mut f = ring(n, m, random);
    for p in List::of(m).primes {
        while shadow(&f, p).is_some() {
            f = replaced(&f, p, &any(n, p, random), m);
        }
    }
    f
}

/// A pattern for which one prime of m is singular, or several, or all.
pub fn singular(n: usize, m: u32, random: &mut Random) -> Vec<u32> {
    let mut f = if random.below(4) == 0 { ring(n, m, random) } else { unit(n, m, random) };
    let primes = List::of(m).primes;
    let certain = random.below(primes.len());
    for (place, &p) in primes.iter().enumerate() {
        if place == certain || random.below(3) == 0 {
            while shadow(&f, p).is_none() {
                f = replaced(&f, p, &draw(n, p, random).f, m);
            }
        }
    }
    f
}

/// The ring that is `other` modulo the prime p of m, and f modulo the other primes of m.
pub fn replaced(f: &[u32], p: u32, other: &[u32], m: u32) -> Vec<u32> {
    let rest: u32 = List::of(m).primes.iter().filter(|&&q| q != p).product();
    let only_here = u64::from(rest) * u64::from(power(rest % p, p - 2, p));
    let entry = |(&old, &new): (&u32, &u32)| {
        let step = u64::from(new + p - old % p);
        ((u64::from(old) + step * only_here) % u64::from(m)) as u32
    };
    f.iter().zip(other).map(entry).collect()
}

/// n entries below m, all equally likely.
pub fn any(n: usize, m: u32, random: &mut Random) -> Vec<u32> {
    (0..n).map(|_| random.between(0, m - 1)).collect()
}
