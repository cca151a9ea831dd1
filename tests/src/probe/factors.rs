use super::door;
use crate::counts::Counts;
use crate::factors::draw::{with_faults, with_many_primes, Lists};
use crate::factors::figures::{figures, Figure};
use crate::factors::{kinds, reply, List};
use crate::numbers::Number;
use crate::parts::Part;
use crate::primes::{HALVES, PRIMES};
use crate::random::Random;

/// Lists of large numbers, and products that wrap.
pub const PART: Part = Part {
    name: "factors",
    kinds: &[
        ("the factor list of m", 50_000),
        ("a prime above 2^31 in the list of m", 2_000),
        ("m 0 or 1", 2_000),
        ("11 for a number above 2^31", 2_000),
        ("13 with a prime above 2^31", 2_000),
        ("13 with an exponent of 255", 2_000),
        ("13, the product m modulo 2^32", 2_000),
        ("13, the product m modulo 2^64", 2_000),
    ],
    compare,
};

/// Lists with every fault.
pub const LISTS: Part = Part { name: "lists", kinds: &kinds::KINDS, compare: compare_lists };

const EXHAUSTIVE: u32 = 20_000;
const HIGHEST: u32 = 40_000;
const ROUNDS: usize = 30_000;
const TRIED: usize = 600_000;

fn compare(counts: &mut Counts, random: &mut Random) -> Result<(), String> {
    for (list, written) in figures().into_iter().chain(figures_beyond_the_calls()) {
        judge(&list, random)?;
        if list.refusal() != written {
            return Err(format!("{list:?} is written down otherwise"));
        }
    }
    for m in 0..EXHAUSTIVE {
        counted(&List::of(m), counts, random)?;
    }
    for m in u32::MAX - HIGHEST..=u32::MAX {
        counted(&List { primes: vec![m], exponents: vec![1], m }, counts, random)?;
    }
    for _ in 0..TRIED {
        if let Some(list) = list_that_wraps_at_64_bits(random) {
            counted(&list, counts, random)?;
        }
    }
    let lists = Lists::new();
    for _ in 0..ROUNDS {
        let m = modulus(random);
        counted(&List::of(m), counts, random)?;
        counted(&list_that_wraps_at_32_bits(m, random), counts, random)?;
        counted(&lists.any(random.one_of(&[0, 1, m, u32::MAX]), random), counts, random)?;
    }
    Ok(())
}

/// Of moduli that no call takes.
fn figures_beyond_the_calls() -> [Figure; 4] {
    [
        (List { primes: vec![], exponents: vec![], m: 1 }, Some((Number::Factors, 0))),
        (List { primes: vec![0], exponents: vec![1], m: 0 }, Some((Number::Prime, 0))),
        // The eight smallest primes.
        (List::of(9_699_690), Some((Number::Factors, 0))),
        (List::of(u32::MAX), None),
    ]
}

fn compare_lists(counts: &mut Counts, random: &mut Random) -> Result<(), String> {
    let lists = Lists::new();
    kinds::compare(|random| lists.any(modulus(random), random), judge, counts, random)
}

fn judge(list: &List, random: &mut Random) -> Result<(), String> {
    let expected = reply(list.refusal());
    let observed = door::factors(list, random)?;
    if observed != expected {
        return Err(format!("{observed:?}, not {expected:?}\n{list:?}"));
    }
    Ok(())
}

fn counted(list: &List, counts: &mut Counts, random: &mut Random) -> Result<(), String> {
    judge(list, random)?;
    counts.answers += 1;
    let large = list.primes.iter().any(|&p| p > 1 << 31);
    counts.meet_if(list.m < 2, "m 0 or 1");
    match list.faults()[..] {
        [] => {
            counts.meet("the factor list of m");
            counts.meet_if(large, "a prime above 2^31 in the list of m");
        }
        [(Number::Prime, place), ..] => {
            counts.meet_if(list.primes[place] > 1 << 31, "11 for a number above 2^31");
        }
        [(Number::Product, _)] => {
            counts.meet_if(large, "13 with a prime above 2^31");
            counts.meet_if(list.exponents.contains(&255), "13 with an exponent of 255");
            kinds::count_wrapping(list, counts);
        }
        _ => (),
    }
    Ok(())
}

/// Small ones, large ones, primes, and ones with many factors.
fn modulus(random: &mut Random) -> u32 {
    let (any, near_the_end) = (random.between(1, u32::MAX), u32::MAX - random.between(0, 100));
    match random.below(8) {
        0 => random.between(1, 1_000_000),
        1 => random.one_of(&[any, near_the_end]),
        2 | 3 => with_many_primes(1_000_000, random),
        4 => with_many_primes(u32::MAX, random),
        5 => random.one_of(&[u32::MAX - 4, 999_983, 510_510, 1 << 19, 1 << 31, 65_521 * 65_521]),
        _ => {
            let most = random.one_of(&[3, 6, 50, HALVES.len()]);
            let mut m = 1u32;
            while let Some(product) = m.checked_mul(HALVES[random.below(most)]) {
                m = product;
            }
            m
        }
    }
}

/// Beside what 32 bits leave of its product, if that is larger.
fn list_that_wraps_at_32_bits(m: u32, random: &mut Random) -> List {
    let list = with_faults(m, &[Number::Product], random);
    List { m: list.product_at_64_bits() as u32, ..list }
}

/// Three primes, and one that brings their product just above a multiple of 2^64, if there is one.
fn list_that_wraps_at_64_bits(random: &mut Random) -> Option<List> {
    let multiple = u128::from(random.between(1, 4)) << 64;
    let mut primes =
        vec![random.one_of(&HALVES[..20]), random.one_of(&HALVES), random.one_of(&HALVES)];
    let product: u128 = primes.iter().map(|&p| u128::from(p)).product();
    let last = multiple.div_ceil(product);
    let m = u32::try_from(last * product - multiple).ok()?;
    primes.push(u32::try_from(last).ok().filter(|&last| PRIMES.has(last))?);
    primes.sort_unstable();
    Some(List { primes, exponents: vec![1; 4], m })
}
