use super::Call;
use crate::case::{Answer, Case};
use crate::door::{Reply, Verdict};
use crate::draw;
use crate::figures::{limits, worked, Figure};
use crate::lent::Loan;
use crate::numbers::{Number, Number::*};
use crate::random::Random;

pub const CALL: Call = Call {
    name: "fold",
    rings: 1,
    gives: &[&[Empty, Large, Modulus, Coefficient, Divisor]],
    patterns: &[],
    complete,
    ask,
    answer,
    figures,
};

extern "C" {
    fn dowelbrook_fold(a: *const u32, a_len: usize, m: u32, out: *mut u32, out_len: usize)
        -> Reply;
}

fn ask(loan: &mut Loan) -> Verdict {
    let a = loan.rings[0].content();
    let out = loan.out.content_mut();
    // Each pointer goes with its slice's length, and the output is a buffer of its own.
    unsafe { dowelbrook_fold(a.as_ptr(), a.len(), loan.m, out.as_mut_ptr(), out.len()) }.into()
}

fn complete(case: &mut Case, faults: &[Number], random: &mut Random) {
    let length = draw::divisor(case.n() as u32, 1, faults, random);
    case.out = draw::any_words(length as usize, random);
}

/// "entry k is the sum modulo m of all entries whose place is k modulo n'"
fn answer(case: &Case) -> Answer {
    let entry = |k: usize| -> u32 {
        let there = |&(place, _): &(usize, &u32)| place % case.out.len() == k;
        let sum: u128 =
            case.rings[0].iter().enumerate().filter(there).map(|(_, &entry)| entry as u128).sum();
        (sum % case.m as u128) as u32
    };
    Answer::done((0..case.out.len()).map(entry).collect())
}

fn onto(length: usize, ring: Vec<u32>, m: u32) -> Case {
    Case { rings: vec![ring], m, out: vec![7; length], ..Case::default() }
}

fn figures() -> Vec<Figure> {
    let mut figures = limits(|ring, m| onto(ring.len(), ring, m));
    figures.push(worked(onto(2, vec![1, 2, 3, 4], 10), vec![4, 6]));
    figures.push(worked(onto(1, vec![1, 2, 3, 4], 10), vec![0]));
    figures.push(worked(onto(4, vec![1, 2, 3, 4], 10), vec![1, 2, 3, 4]));
    // The largest sum there is: m - 1 is -1 modulo m.
    figures.push(worked(onto(1, vec![999_999; 1_024], 1_000_000), vec![1_000_000 - 1_024]));
    for length in [0, 3, 5, 8] {
        figures.push((onto(length, vec![1, 2, 3, 4], 10), Divisor.bare().into(), None));
    }
    figures
}
