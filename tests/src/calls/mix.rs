use super::Call;
use crate::case::{Answer, Case};
use crate::door::{Reply, Verdict};
use crate::draw;
use crate::figures::{limits, worked, Figure};
use crate::lent::Loan;
use crate::numbers::Number::*;

pub const CALL: Call = Call {
    name: "mix",
    rings: 2,
    gives: &[&[Empty, Large, Mismatch, Modulus, Coefficient, Room]],
    patterns: &[],
    complete: draw::output,
    ask,
    answer,
    figures,
};

extern "C" {
    fn dowelbrook_mix(
        a: *const u32,
        a_len: usize,
        b: *const u32,
        b_len: usize,
        m: u32,
        out: *mut u32,
        out_len: usize,
    ) -> Reply;
}

fn ask(loan: &mut Loan) -> Verdict {
    let (a, b) = (loan.rings[0].content(), loan.rings[1].content());
    let out = loan.out.content_mut();
    // Each pointer goes with its slice's length, and the output is a buffer of its own.
    unsafe {
        dowelbrook_mix(
            a.as_ptr(),
            a.len(),
            b.as_ptr(),
            b.len(),
            loan.m,
            out.as_mut_ptr(),
            out.len(),
        )
    }
    .into()
}

fn answer(case: &Case) -> Answer {
    Answer::done(product(&case.rings[0], &case.rings[1], case.m))
}

/// "entry k of the product of a and b is the sum over i of a_i times b_((k-i) mod n), modulo m"
pub fn product(a: &[u32], b: &[u32], m: u32) -> Vec<u32> {
    let n = a.len();
    let entry = |k: usize| -> u32 {
        let term = |i: usize| a[i] as u128 * b[(k + n - i) % n] as u128;
        let sum: u128 = (0..n).map(term).sum();
        (sum % m as u128) as u32
    };
    (0..n).map(entry).collect()
}

fn squared(ring: Vec<u32>, m: u32) -> Case {
    let out = vec![7; ring.len()];
    Case { rings: vec![ring.clone(), ring], m, out, ..Case::default() }
}

fn figures() -> Vec<Figure> {
    let rings = vec![vec![1, 2, 0], vec![1, 0, 5]];
    let pattern_and_counts = Case { rings, m: 10, out: vec![7; 3], ..Case::default() };
    let mut figures = limits(squared);
    // The matrix applied to a column would give [1, 0, 7].
    figures.push(worked(pattern_and_counts, vec![1, 2, 5]));
    // The largest sum there is: (m - 1) squared is 1 modulo m.
    figures.push(worked(squared(vec![999_999; 1_024], 1_000_000), vec![1_024; 1_024]));
    figures
}
