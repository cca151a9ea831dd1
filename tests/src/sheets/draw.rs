//! Draws sheets: right and wrong values, with and without readings, and faults of the sheet besides.

use super::draft::{self, written, Draft};
use super::faults::spoilt;
use crate::calls::{invert, unmix, Call};
use crate::case::Case;
use crate::draw;
use crate::factors::draw::Lists;
use crate::numbers::{Number, Number::*};
use crate::random::Random;

/// What can be wrong with the values of a sheet. FACTORS stands for all that can be with its list.
const FAULTS: &[&[Number]] = &[&[Empty, Modulus, Factors, Coefficient, Singular]];

/// A sheet without readings holds what invert takes, and one with readings what unmix does.
const CALLS: [Call; 2] =
    [Call { gives: FAULTS, ..invert::CALL }, Call { gives: FAULTS, ..unmix::CALL }];

const SPOILT: usize = 2;

pub struct Contents {
    /// Every set of the faults, without and with readings.
    fault_sets: [Vec<Vec<Number>>; 2],
    lists: Lists,
}

impl Contents {
    pub fn new() -> Self {
        let fault_sets = [0, 1].map(|readings| draw::fault_sets(&CALLS[readings]));
        Contents { fault_sets, lists: Lists::new() }
    }

    /// One sheet with all fields right, and some with faults made of it.
    pub fn family(&self, random: &mut Random) -> Vec<Vec<u8>> {
        let draft = if random.below(16) == 0 { self.long(random) } else { self.short(random) };
        let mut sheets = vec![written(&draft)];
        sheets.extend((0..SPOILT).map(|_| spoilt(&draft, random)));
        sheets
    }

    /// A third of them without fault; patterns are mostly short, so that elimination takes no time.
    fn short(&self, random: &mut Random) -> Draft {
        let readings = random.below(2);
        let sets = &self.fault_sets[readings];
        let faults = match random.below(3) {
            0 => &[],
            _ => &sets[random.below(sets.len())][..],
        };
        let case = draw::case(&CALLS[readings], faults, random);
        self.drafted(case, faults, random)
    }

    /// A pattern of up to 1,024 entries, with a fault that spares elimination.
    fn long(&self, random: &mut Random) -> Draft {
        let (any, shorter) = (65 + random.below(960), 65 + random.below(64));
        let n = random.one_of(&[any, shorter, 1_023, 1_024]);
        let faults = [random.one_of(&[Modulus, Factors, Coefficient])];
        let case = draw::case_of_length(n, &CALLS[random.below(2)], &faults, random);
        self.drafted(case, &faults, random)
    }

    /// With any list that a sheet can hold, if something is to be wrong with it.
    fn drafted(&self, case: Case, faults: &[Number], random: &mut Random) -> Draft {
        if faults.contains(&Factors) {
            let list = self.lists.in_a_sheet(case.m, random);
            return draft::of(&case.with_list(list));
        }
        draft::of(&case)
    }
}
