use super::door::{self, Kind, Number};
use crate::counts::Counts;
use crate::parts::Part;
use crate::primes::times;
use crate::random::Random;

pub const PART: Part = Part {
    name: "inverse",
    kinds: &[
        ("inverse", 1_000_000),
        ("shares", 500_000),
        ("refused", 1_000),
        ("inverse, m above 2^31", 20_000),
        ("shares, m above 2^31", 20_000),
        ("y a multiple of m", 2_000),
        ("y above m", 100_000),
    ],
    compare,
};

const SEARCHED: u32 = 128;
const EXHAUSTIVE: u32 = 2_000;
const WORDS: usize = 200_000;

fn compare(counts: &mut Counts, random: &mut Random) -> Result<(), String> {
    for m in 0..=SEARCHED {
        for y in 0..=4 * SEARCHED {
            let (expected, observed) = (search(y, m), door::inverse(y, m));
            if observed != expected {
                return Err(format!("of {y} modulo {m}: {observed:?}, not {expected:?}"));
            }
            agree(y, m, counts)?;
        }
    }
    for m in SEARCHED..=EXHAUSTIVE {
        (0..m).try_for_each(|y| agree(y, m, counts))?;
    }
    for (y, m) in telling_pairs() {
        agree(y, m, counts)?;
    }
    for _ in 0..WORDS {
        let (y, m) = draw(random);
        agree(y, m, counts)?;
    }
    Ok(())
}

/// The answer by trying every number.
fn search(y: u32, m: u32) -> Number {
    if m < 2 {
        return Number { kind: Kind::Refused as u32, value: 0 };
    }
    match (0..m).find(|&z| times(y, z, m) == 1) {
        Some(value) => Number { kind: Kind::Inverse as u32, value },
        None => {
            let divides_both = |&d: &u32| y.is_multiple_of(d) && m.is_multiple_of(d);
            let value = (2..=m).rev().find(divides_both).unwrap();
            Number { kind: Kind::Shares as u32, value }
        }
    }
}

/// There is no more than one z below m with y z = 1 modulo m, and none if y and m share a divisor.
fn agree(y: u32, m: u32, counts: &mut Counts) -> Result<(), String> {
    let Number { kind, value } = door::inverse(y, m);
    let refused = kind == Kind::Refused as u32;
    let inverse = kind == Kind::Inverse as u32;
    let shares = kind == Kind::Shares as u32;
    let right = match m {
        0 | 1 => refused && value == 0,
        _ if inverse => value < m && times(y, value, m) == 1,
        _ => shares && value > 1 && value == greatest_common_divisor(y, m),
    };
    if !right {
        return Err(format!("of {y} modulo {m}: kind {kind}, value {value}"));
    }
    counts.answers += 1;
    counts.meet(["inverse", "shares", "refused"][kind as usize]);
    counts.meet_if(inverse && m > 1 << 31, "inverse, m above 2^31");
    counts.meet_if(shares && m > 1 << 31, "shares, m above 2^31");
    counts.meet_if(m > 1 && y.is_multiple_of(m), "y a multiple of m");
    counts.meet_if(y > m, "y above m");
    Ok(())
}

/// By halving and subtracting; m is not 0.
fn greatest_common_divisor(y: u32, m: u32) -> u32 {
    let (mut a, mut b, mut doubled) = (y, m, 0);
    while a != 0 {
        match (a % 2, b % 2) {
            (0, 0) => (a, b, doubled) = (a / 2, b / 2, doubled + 1),
            (0, _) => a /= 2,
            (_, 0) => b /= 2,
            _ if a >= b => a = (a - b) / 2,
            _ => b = (b - a) / 2,
        }
    }
    b << doubled
}

/// The ends of the range, and Fibonacci numbers, for which Euclid takes longest.
fn telling_pairs() -> Vec<(u32, u32)> {
    let mut numbers = vec![0, 1, 2, 3, 999_983, 1_000_000, 1 << 16, (1 << 31) - 1, 1 << 31];
    numbers.extend([(1 << 31) + 1, 3_215_031_751, u32::MAX - 4, u32::MAX - 1, u32::MAX]);
    let (mut last, mut next) = (1u32, 2u32);
    while let Some(sum) = last.checked_add(next) {
        (last, next) = (next, sum);
        numbers.push(sum);
    }
    numbers.iter().flat_map(|&y| numbers.iter().map(move |&m| (y, m))).collect()
}

/// Any two words, one of them short, two with a common factor, or y around a multiple of m.
fn draw(random: &mut Random) -> (u32, u32) {
    let (y, m) = (random.word() as u32, random.word() as u32);
    let short = m >> random.below(32);
    match random.below(5) {
        0 => (y, m),
        1 => (y, short),
        2 => (short, y),
        3 => {
            let largest = random.one_of(&[10, 1_000, 1_000_000]);
            let factor = random.between(1, largest);
            let most = u32::MAX / factor;
            (factor * random.between(0, most), factor * random.between(most / 2, most))
        }
        _ => {
            let most = u32::MAX / short.max(1);
            let multiple = short * random.between(0, most);
            let around = [multiple, multiple.saturating_add(1), multiple.saturating_sub(1)];
            (random.one_of(&around), short)
        }
    }
}
