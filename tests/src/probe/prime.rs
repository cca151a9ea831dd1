use super::door;
use crate::counts::Counts;
use crate::parts::Part;
use crate::primes::{Primes, HALVES, PRIMES};
use crate::random::Random;

pub const PART: Part = Part {
    name: "prime",
    kinds: &[
        ("prime, sieved", 80_000),
        ("not prime, sieved", 900_000),
        ("prime, beyond the sieve", 1_500),
        ("not prime, beyond the sieve", 40_000),
        ("square of a prime", 6_542),
        ("Carmichael number beyond the sieve", 100),
        ("above 2^32 - 2,000", 1_999),
    ],
    compare,
};

const EXHAUSTIVE: u32 = 1 << 20;
const WORDS: usize = 30_000;

fn compare(counts: &mut Counts, random: &mut Random) -> Result<(), String> {
    let (primes, halves) = (&*PRIMES, &*HALVES);
    let numbers = (0..=EXHAUSTIVE)
        .chain((2..32).flat_map(|i| (1 << i) - 3..=(1u32 << i) + 3))
        .chain(u32::MAX - 1_998..=u32::MAX)
        .chain(around_squares(halves))
        .chain(neighbours_multiplied(halves))
        .chain(liars(halves, primes));
    for n in numbers {
        agree(n, primes, counts)?;
    }
    for _ in 0..WORDS {
        agree(random.between(0, u32::MAX), primes, counts)?;
        agree(random.between(EXHAUSTIVE, 4 * EXHAUSTIVE + 10_000), primes, counts)?;
    }
    for p in halves {
        counts.meet("square of a prime");
        agree(p * p, primes, counts)?;
    }
    for n in carmichael_numbers(primes) {
        counts.meet_if(!primes.sieved(n), "Carmichael number beyond the sieve");
        agree(n, primes, counts)?;
    }
    Ok(())
}

fn agree(n: u32, primes: &Primes, counts: &mut Counts) -> Result<(), String> {
    let (expected, observed) = (primes.has(n), door::is_prime(n));
    if observed != expected {
        return Err(format!("{n} is {}a prime", if expected { "" } else { "not " }));
    }
    counts.answers += 1;
    counts.meet_if(n > u32::MAX - 1_999, "above 2^32 - 2,000");
    counts.meet(match (expected, primes.sieved(n)) {
        (true, true) => "prime, sieved",
        (false, true) => "not prime, sieved",
        (true, false) => "prime, beyond the sieve",
        (false, false) => "not prime, beyond the sieve",
    });
    Ok(())
}

/// Every fifth prime's square, and two numbers on each side of it.
fn around_squares(halves: &[u32]) -> impl Iterator<Item = u32> + '_ {
    halves.iter().step_by(5).flat_map(|p| p * p - 2..=p * p + 2)
}

/// Products of two primes that follow each other.
fn neighbours_multiplied(halves: &[u32]) -> impl Iterator<Item = u32> + '_ {
    halves.windows(2).step_by(3).map(|pair| pair[0] * pair[1])
}

/// Products p (2p - 1) of two primes, on which tests by powers fail most often.
fn liars<'a>(halves: &'a [u32], primes: &'a Primes) -> impl Iterator<Item = u32> + 'a {
    let pairs = halves.iter().filter(|&&p| primes.has(2 * p - 1));
    pairs.filter_map(|p| p.checked_mul(2 * p - 1))
}

/// Products of three primes, each of which less 1 divides the product less 1.
fn carmichael_numbers(primes: &Primes) -> Vec<u32> {
    let mut numbers = vec![];
    for p in primes.below(200) {
        for q in primes.below(3_000).into_iter().filter(|&q| q > p) {
            let pairs = (2..p).filter(|h| (p * q - 1).is_multiple_of(*h));
            let thirds = pairs.map(|h| (p * q - 1) / h + 1).filter(|&r| r > q && primes.has(r));
            let products = thirds.filter_map(|r| (p * q).checked_mul(r));
            numbers
                .extend(products.filter(|n| [p, q].iter().all(|p| (n - 1).is_multiple_of(p - 1))));
        }
    }
    numbers
}
