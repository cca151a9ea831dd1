//! Factor lists in each of the calls that take one.

use super::{invert, same_feeding, unmix, Call};
use crate::case::Answer;
use crate::compare;
use crate::counts::Counts;
use crate::draw::case_with_list;
use crate::factors::draw::{legal_modulus, Lists};
use crate::factors::{kinds, List};
use crate::parts::Part;
use crate::random::Random;

pub const ALL: [Part; 3] = [
    Part {
        name: invert::CALL.name,
        kinds: &kinds::KINDS,
        compare: |counts, random| compare_in(&invert::CALL, counts, random),
    },
    Part {
        name: unmix::CALL.name,
        kinds: &kinds::KINDS,
        compare: |counts, random| compare_in(&unmix::CALL, counts, random),
    },
    Part {
        name: same_feeding::CALL.name,
        kinds: &kinds::KINDS,
        compare: |counts, random| compare_in(&same_feeding::CALL, counts, random),
    },
];

fn compare_in(call: &Call, counts: &mut Counts, random: &mut Random) -> Result<(), String> {
    let lists = Lists::new();
    let draw = |random: &mut Random| lists.any(legal_modulus(random), random);
    kinds::compare(draw, |list, random| judge(call, list, random), counts, random)
}

fn judge(call: &Call, list: &List, random: &mut Random) -> Result<(), String> {
    let case = case_with_list(list, call, random);
    let expected = match list.refusal() {
        Some((number, place)) => Answer::refused(number.at(place), &case),
        None => (call.answer)(&case),
    };
    compare::demand(call, &case, &expected, random)
}
