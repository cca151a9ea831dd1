//! What is counted of factor lists, wherever they are judged: the size, the entry told, each refusal
//! alone, and each that was given while another applied too.

use super::draw::WRAPPING;
use super::{Fault, List};
use crate::counts::Counts;
use crate::numbers::{Number, OF_AN_ENTRY};
use crate::random::Random;
use std::collections::BTreeSet;

/// Each with how often it must be met at least. Those of lists that no sheet can hold come first.
pub const KINDS: [(&str, usize); 51] = [
    ("5 alone", 2_000),
    ("5 while 10", 2_000),
    ("5 while 11", 2_000),
    ("5 while 12", 2_000),
    ("entries: unequally many", 1_000),
    ("entries: 8", 1_000),
    ("entries: 9", 1_000),
    ("entries: more than 9", 1_000),
    ("entries: 1,000", 200),
    ("5 while 13", 2_000),
    ("10 alone", 2_000),
    ("10 while 10 at a later entry", 2_000),
    ("10 while 11 at its entry", 2_000),
    ("10 while 11 at a later entry", 2_000),
    ("10 while 12 at its entry", 2_000),
    ("10 while 12 at a later entry", 2_000),
    ("10 while 13", 2_000),
    ("11 alone", 2_000),
    ("11 while 10 at a later entry", 2_000),
    ("11 while 11 at a later entry", 2_000),
    ("11 while 12 at its entry", 2_000),
    ("11 while 12 at a later entry", 2_000),
    ("11 while 13", 2_000),
    ("11 for 0", 1_000),
    ("11 for 1", 1_000),
    ("12 alone", 2_000),
    ("12 while 10 at a later entry", 2_000),
    ("12 while 11 at a later entry", 2_000),
    ("12 while 12 at a later entry", 2_000),
    ("12 while 13", 2_000),
    ("12 for an equal prime", 1_000),
    ("12 for a lower prime", 1_000),
    ("13 alone", 2_000),
    ("13, the product m modulo 2^32", 300),
    ("13, the product m modulo 2^64", 20),
    ("the factor list of m", 2_000),
    ("entries: 0", 1_000),
    ("entries: 1", 1_000),
    ("entries: 2", 1_000),
    ("entries: 3", 1_000),
    ("entries: 4", 1_000),
    ("entries: 5", 1_000),
    ("entries: 6", 1_000),
    ("entries: 7", 1_000),
    ("entry 0 told", 1_000),
    ("entry 1 told", 1_000),
    ("entry 2 told", 1_000),
    ("entry 3 told", 1_000),
    ("entry 4 told", 1_000),
    ("entry 5 told", 1_000),
    ("entry 6 told", 1_000),
];

const IN_NO_SHEET: usize = 9;

pub const IN_A_SHEET: &[(&str, usize)] = KINDS.split_at(IN_NO_SHEET).1;

const LISTS: usize = 100_000;

/// Has lists judged that wrap, and drawn ones, and counts them.
pub fn compare(
    draw: impl Fn(&mut Random) -> List,
    judge: impl Fn(&List, &mut Random) -> Result<(), String>,
    counts: &mut Counts,
    random: &mut Random,
) -> Result<(), String> {
    let mut counted = |list: &List, random: &mut Random| {
        judge(list, random)?;
        count(list, counts);
        Ok(())
    };
    WRAPPING.iter().try_for_each(|list| counted(list, random))?;
    (0..LISTS).try_for_each(|_| counted(&draw(random), random))
}

fn count(list: &List, counts: &mut Counts) {
    counts.answers += 1;
    counts.meet(&size(list));
    counts.meet_if(list.primes.len() == 1_000, "entries: 1,000");
    match &list.faults()[..] {
        [] => counts.meet("the factor list of m"),
        [first, others @ ..] => {
            count_given(list, first, counts);
            count_others(first, others, counts);
        }
    }
}

fn size(list: &List) -> String {
    match (list.primes.len(), list.exponents.len()) {
        (primes, exponents) if primes != exponents => "entries: unequally many".into(),
        (size @ 0..10, _) => format!("entries: {size}"),
        _ => "entries: more than 9".into(),
    }
}

fn count_others(first: &Fault, others: &[Fault], counts: &mut Counts) {
    let given = first.0 as u32;
    counts.meet_if(others.is_empty(), &format!("{given} alone"));
    let kinds = others.iter().map(|other| (other.0 as u32, entry_of(other, first)));
    for (number, entry) in kinds.collect::<BTreeSet<(u32, &str)>>() {
        counts.meet(&format!("{given} while {number}{entry}"));
    }
}

/// Where the other is, if both are faults of entries.
fn entry_of(&(other, place): &Fault, &(first, given): &Fault) -> &'static str {
    if !OF_AN_ENTRY.contains(&first) || !OF_AN_ENTRY.contains(&other) {
        ""
    } else if place == given {
        " at its entry"
    } else {
        " at a later entry"
    }
}

fn count_given(list: &List, &(given, place): &Fault, counts: &mut Counts) {
    if OF_AN_ENTRY.contains(&given) {
        counts.meet(&format!("entry {place} told"));
    }
    match given {
        Number::Prime => {
            counts.meet_if(list.primes[place] == 0, "11 for 0");
            counts.meet_if(list.primes[place] == 1, "11 for 1");
        }
        Number::Order => {
            let equal = list.primes[place] == list.primes[place - 1];
            counts.meet(if equal { "12 for an equal prime" } else { "12 for a lower prime" });
        }
        Number::Product => count_wrapping(list, counts),
        _ => (),
    }
}

/// Of a list with nothing wrong but its product.
pub fn count_wrapping(list: &List, counts: &mut Counts) {
    let left = list.product_at_64_bits();
    counts.meet_if(left as u32 == list.m, "13, the product m modulo 2^32");
    counts.meet_if(left == list.m.into(), "13, the product m modulo 2^64");
}
