//! Factor lists in sheets.

use super::agree::agree;
use super::door::Rooms;
use super::figures::sheet_of;
use crate::calls::{invert, unmix, Call};
use crate::counts::Counts;
use crate::draw::case_with_list;
use crate::factors::draw::{legal_modulus, Lists};
use crate::factors::{kinds, List};
use crate::parts::Part;
use crate::random::Random;

pub const PART: Part = Part { name: "lists", kinds: kinds::IN_A_SHEET, compare };

const CALLS: [Call; 2] = [invert::CALL, unmix::CALL];

fn compare(counts: &mut Counts, random: &mut Random) -> Result<(), String> {
    let (rooms, lists) = (Rooms::new(random), Lists::new());
    let judge = |list: &List, random: &mut Random| {
        let case = case_with_list(list, &CALLS[random.below(2)], random);
        agree(&sheet_of(&case), &rooms, random).map(drop)
    };
    kinds::compare(|random| lists.in_a_sheet(legal_modulus(random), random), judge, counts, random)
}
