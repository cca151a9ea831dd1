//! Draws a call's inputs: legal ones, with just the faults asked for.

use crate::calls::Call;
use crate::case::Case;
use crate::factors::draw::with_faults;
use crate::factors::List;
use crate::numbers::Number;
use crate::patterns;
use crate::random::Random;

/// Every set of one, two or three faults that one case of the call can have.
pub fn fault_sets(call: &Call) -> Vec<Vec<Number>> {
    sets(call.order(), |earlier, later| call.can_meet(earlier, later)).split_off(1)
}

/// Every set of at most three of the faults, beginning with none, of which any two can meet.
pub fn sets(
    faults: impl Iterator<Item = Number>,
    can_meet: impl Fn(Number, Number) -> bool,
) -> Vec<Vec<Number>> {
    let mut sets = vec![vec![]];
    for fault in faults {
        for index in 0..sets.len() {
            let set: &Vec<Number> = &sets[index];
            if set.len() < 3 && set.iter().all(|&earlier| can_meet(earlier, fault)) {
                sets.push([&set[..], &[fault]].concat());
            }
        }
    }
    sets
}

pub fn case(call: &Call, faults: &[Number], random: &mut Random) -> Case {
    let n = length(call, faults, random);
    case_of_length(n, call, faults, random)
}

pub fn case_of_length(n: usize, call: &Call, faults: &[Number], random: &mut Random) -> Case {
    let m = modulus(faults, random);
    let rings = (0..call.rings).map(|_| ring(n, m, random)).collect();
    let mut case = Case { rings, m, ..Case::default() };
    if !call.patterns.is_empty() {
        draw_patterns(call, &mut case, faults, random);
        case = case.with_list(with_faults(m, faults, random));
    }
    if faults.contains(&Number::Mismatch) {
        spoil_lengths(&mut case, random);
    }
    if faults.contains(&Number::Coefficient) {
        spoil_entries(&mut case, random);
    }
    (call.complete)(&mut case, faults, random);
    case
}

/// A short case with this modulus and this factor list, all else being legal.
pub fn case_with_list(list: &List, call: &Call, random: &mut Random) -> Case {
    let n = 1 + random.below(4);
    let rings = (0..call.rings).map(|_| ring(n, list.m, random)).collect();
    let mut case = Case { rings, m: list.m, ..Case::default() }.with_list(list.clone());
    (call.complete)(&mut case, &[], random);
    case
}

fn length(call: &Call, faults: &[Number], random: &mut Random) -> usize {
    if faults.contains(&Number::Empty) {
        return 0;
    }
    if faults.contains(&Number::Large) {
        return random.one_of(&[1_025, 1_026, 1_088, 1_280, 2_048]);
    }
    if !call.patterns.is_empty() {
        let few = refused(faults) && random.below(8) > 0;
        return if few { 1 + random.below(8) } else { short_length(random) };
    }
    match random.below(100) {
        0 => random.one_of(&[1_024, 1_023, 1_021, 1_008, 720, 512, 257]),
        1 => 1 + random.below(1_024),
        _ => 1 + random.below(64),
    }
}

/// Whether a check refuses: then nothing is inverted, and few entries show as much as many.
fn refused(faults: &[Number]) -> bool {
    faults.iter().any(|&fault| fault != Number::Singular)
}

/// 1 to 64, mostly such that elimination takes no time.
pub fn short_length(random: &mut Random) -> usize {
    match random.below(100) {
        0..4 => 33 + random.below(32),
        4..20 => 17 + random.below(16),
        _ => 1 + random.below(16),
    }
}

fn modulus(faults: &[Number], random: &mut Random) -> u32 {
    if faults.contains(&Number::Modulus) {
        // Fewer below 2: those have no factor list.
        let (below, above) = (random.between(0, 1), random.between(1_000_001, u32::MAX));
        return random.one_of(&[below, 1_000_001, 1_000_001, 1_000_002, u32::MAX, u32::MAX, above]);
    }
    legal_modulus(random)
}

/// Primes, prime powers, and products of many primes and of few.
pub const TELLING: [u32; 16] = [
    2, 3, 4, 8, 9, 10, 524_288, 531_441, 823_543, 994_009, 510_510, 720_720, 999_983, 999_999,
    999_958, 1_000_000,
];

pub fn legal_modulus(random: &mut Random) -> u32 {
    match random.below(4) {
        0 => random.between(2, 60),
        1 => random.between(2, 1_000_000),
        _ => random.one_of(&TELLING),
    }
}

/// Patterns in their places: of any sort if no fault is asked for, else singular only if that is.
fn draw_patterns(call: &Call, case: &mut Case, faults: &[Number], random: &mut Random) {
    let (n, m) = (case.n(), case.m);
    if !(1..=64).contains(&n) || !(2..=1_000_000).contains(&m) {
        return;
    }
    let certain = random.one_of(call.patterns);
    let singular = faults.contains(&Number::Singular);
    for &index in call.patterns {
        case.rings[index] = match random.below(8) {
            _ if singular && index == certain => patterns::singular(n, m, random),
            _ if !faults.is_empty() => patterns::unit(n, m, random),
            0..5 => patterns::unit(n, m, random),
            5 | 6 => patterns::singular(n, m, random),
            _ => ring(n, m, random),
        };
    }
}

/// n entries below m: all sorts, mostly 0, near the ends, or all the largest. In a ring that is too
/// long they are all the same, since to draw them would take longer than the call.
pub fn ring(n: usize, m: u32, random: &mut Random) -> Vec<u32> {
    let top = m.saturating_sub(1);
    if n > 1_024 {
        return vec![random.between(0, top); n];
    }
    let kind = random.below(8);
    let entry = |_| match kind {
        0 => [0, 0, 0, random.between(0, top)][random.below(4)],
        1 => random.one_of(&[0, 1.min(top), top]),
        2 => top,
        _ => random.between(0, top),
    };
    (0..n).map(entry).collect()
}

/// Gives at least one ring but the first another length.
fn spoil_lengths(case: &mut Case, random: &mut Random) {
    let n = case.n();
    let certain = 1 + random.below(case.rings.len() - 1);
    for index in 1..case.rings.len() {
        if index == certain || random.below(2) == 0 {
            case.rings[index] = ring(other_length(n, random), case.m, random);
        }
    }
}

/// Makes one to three entries m or more, if there are any.
fn spoil_entries(case: &mut Case, random: &mut Random) {
    let mut filled: Vec<&mut Vec<u32>> =
        case.rings.iter_mut().filter(|ring| !ring.is_empty()).collect();
    if filled.is_empty() {
        return;
    }
    for _ in 0..1 + random.below(3) {
        let index = random.below(filled.len());
        let ring = &mut filled[index];
        let anywhere = random.below(ring.len());
        let place = random.one_of(&[0, ring.len() - 1, anywhere, anywhere]);
        let above = random.between(case.m, u32::MAX);
        let same = ring[place].saturating_add(case.m);
        ring[place] = random.one_of(&[case.m, same, same, same, above, u32::MAX]);
    }
}

/// A length that is not n.
pub fn other_length(n: usize, random: &mut Random) -> usize {
    let longer = n + 1 + random.below(80);
    let shorter = random.below(n.max(1));
    let length = random.one_of(&[0, n.saturating_sub(1), shorter, n + 1, longer, 1_024, 1_025]);
    if length == n {
        n + 1
    } else {
        length
    }
}

/// A lent output as it comes: any words at all.
pub fn any_words(length: usize, random: &mut Random) -> Vec<u32> {
    (0..length).map(|_| random.word() as u32).collect()
}

/// An output with room for n entries, or the fault ROOM.
pub fn output(case: &mut Case, faults: &[Number], random: &mut Random) {
    let n = case.n();
    let room = faults.contains(&Number::Room);
    let length = if room { other_length(n, random) } else { n };
    case.out = any_words(length, random);
}

/// A divisor of `whole` from `least` up, or the fault DIVISOR: a number that is not one.
pub fn divisor(whole: u32, least: u32, faults: &[Number], random: &mut Random) -> u32 {
    if !faults.contains(&Number::Divisor) {
        return random.one_of(&divisors(whole, least));
    }
    loop {
        let (below, above) = (whole.saturating_sub(1), whole.saturating_add(1));
        let anything = random.between(0, above);
        let double = whole.wrapping_mul(2);
        let wrong = random.one_of(&[0, 1, below, above, double, whole / 2, anything, anything]);
        if wrong < least || !whole.is_multiple_of(wrong) {
            return wrong;
        }
    }
}

/// Divisors of `whole` from `least` up: all of them if `whole` is at most 1,000,000. Where there is
/// none, `least`.
pub fn divisors(whole: u32, least: u32) -> Vec<u32> {
    if whole == 0 {
        return (least..least + 8).collect();
    }
    let small = (1..=1_000.min(whole)).filter(|&d| whole.is_multiple_of(d));
    let found: Vec<u32> = small.flat_map(|d| [d, whole / d]).filter(|&d| d >= least).collect();
    if found.is_empty() {
        vec![least]
    } else {
        found
    }
}
