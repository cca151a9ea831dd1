//! Document 01's figures: cases whose answer is written down.

use crate::case::Case;
use crate::door::{Reply, Verdict, DONE};
use crate::factors;
use crate::numbers::Number::*;
use crate::patterns::ones;

/// A case, its answer, and where it is written down the output's content.
pub type Figure = (Case, Verdict, Option<Vec<u32>>);

pub fn worked(case: Case, content: Vec<u32>) -> Figure {
    (case, DONE.into(), Some(content))
}

/// The limits, for a call that `simplest` makes of a ring and a modulus, with all else legal.
pub fn limits(simplest: fn(Vec<u32>, u32) -> Case) -> Vec<Figure> {
    let third_entry = Reply { number: Coefficient as u32, ring: 1, place: 2, prime: 0 };
    let one = |n| ones(n, 1, 1);
    let figures = [
        (vec![], 10, Empty.bare()),
        (vec![1], 10, DONE),
        (one(1_024), 10, DONE),
        (one(1_025), 10, Large.bare()),
        (vec![0; 3], 0, Modulus.bare()),
        (vec![0; 3], 1, Modulus.bare()),
        (one(3), 2, DONE),
        (one(3), 1_000_000, DONE),
        (one(3), 1_000_001, Modulus.bare()),
        (one(3), u32::MAX, Modulus.bare()),
        (vec![0, 0, 9], 10, DONE),
        (vec![0, 0, 10], 10, third_entry),
        (vec![0, 0, 999_999], 1_000_000, DONE),
        (vec![0, 0, 1_000_000], 1_000_000, third_entry),
    ];
    figures.into_iter().map(|(ring, m, reply)| (simplest(ring, m), reply.into(), None)).collect()
}

/// Factor lists, for a call that `simplest` makes of a ring and a modulus, with all else legal.
pub fn lists(simplest: fn(Vec<u32>, u32) -> Case) -> Vec<Figure> {
    let figures = factors::figures::figures().into_iter();
    let of_call = |(list, refusal): factors::figures::Figure| {
        let case = simplest(ones(3, 1, 1), list.m).with_list(list);
        (case, factors::reply(refusal).into(), None)
    };
    figures.map(of_call).collect()
}
