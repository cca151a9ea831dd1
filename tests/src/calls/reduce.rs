use super::Call;
use crate::case::{Answer, Case};
use crate::door::{Reply, Verdict};
use crate::draw;
use crate::figures::{limits, worked, Figure};
use crate::lent::Loan;
use crate::numbers::{Number, Number::*};
use crate::random::Random;

pub const CALL: Call = Call {
    name: "reduce",
    rings: 1,
    gives: &[&[Empty, Large, Modulus, Coefficient, Room, Divisor]],
    patterns: &[],
    complete,
    ask,
    answer,
    figures,
};

extern "C" {
    fn dowelbrook_reduce(
        a: *const u32,
        a_len: usize,
        m: u32,
        divisor: u32,
        out: *mut u32,
        out_len: usize,
    ) -> Reply;
}

fn ask(loan: &mut Loan) -> Verdict {
    let (a, divisor) = (loan.rings[0].content(), loan.divisor.unwrap());
    let out = loan.out.content_mut();
    // Each pointer goes with its slice's length, and the output is a buffer of its own.
    unsafe { dowelbrook_reduce(a.as_ptr(), a.len(), loan.m, divisor, out.as_mut_ptr(), out.len()) }
        .into()
}

fn complete(case: &mut Case, faults: &[Number], random: &mut Random) {
    draw::output(case, faults, random);
    case.divisor = Some(draw::divisor(case.m, 2, faults, random));
}

/// "each entry becomes its remainder by m'"
fn answer(case: &Case) -> Answer {
    let divisor = case.divisor.unwrap();
    Answer::done(case.rings[0].iter().map(|entry| entry % divisor).collect())
}

fn to(divisor: u32, ring: Vec<u32>, m: u32) -> Case {
    let out = vec![7; ring.len()];
    Case { rings: vec![ring], m, divisor: Some(divisor), out, ..Case::default() }
}

fn figures() -> Vec<Figure> {
    let mut figures = limits(|ring, m| to(m, ring, m));
    figures.push(worked(to(4, vec![0, 3, 4, 7, 11], 12), vec![0, 3, 0, 3, 3]));
    figures.push(worked(to(12, vec![0, 3, 4, 7, 11], 12), vec![0, 3, 4, 7, 11]));
    for divisor in [0, 1, 5, 8, 24] {
        figures.push((to(divisor, vec![0, 3, 11], 12), Divisor.bare().into(), None));
    }
    figures
}
