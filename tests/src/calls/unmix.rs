use super::mix::product;
use super::Call;
use crate::case::{Answer, Case};
use crate::circulant;
use crate::door::{Reply, Verdict};
use crate::draw;
use crate::factors::List;
use crate::figures::{limits, lists, worked, Figure};
use crate::lent::Loan;
use crate::numbers::{singular, Number, Number::*, OF_A_LIST};
use crate::random::Random;

pub const CALL: Call = Call {
    name: "unmix",
    rings: 2,
    gives: &[&[Empty, Large, Mismatch, Modulus], &OF_A_LIST, &[Coefficient, Room, Singular]],
    patterns: &[0],
    complete,
    ask,
    answer,
    figures,
};

extern "C" {
    fn dowelbrook_unmix(
        f: *const u32,
        f_len: usize,
        y: *const u32,
        y_len: usize,
        m: u32,
        primes: *const u32,
        primes_len: usize,
        exponents: *const u8,
        exponents_len: usize,
        out: *mut u32,
        out_len: usize,
    ) -> Reply;
}

fn ask(loan: &mut Loan) -> Verdict {
    let (f, y) = (loan.rings[0].content(), loan.rings[1].content());
    let (primes, exponents) = (loan.primes.content(), loan.exponents.content());
    let out = loan.out.content_mut();
    // Each pointer goes with its slice's length, and the output is a buffer of its own.
    unsafe {
        dowelbrook_unmix(
            f.as_ptr(),
            f.len(),
            y.as_ptr(),
            y.len(),
            loan.m,
            primes.as_ptr(),
            primes.len(),
            exponents.as_ptr(),
            exponents.len(),
            out.as_mut_ptr(),
            out.len(),
        )
    }
    .into()
}

/// Half of the legal readings are those of drawn counts; a singular pattern then has some behind them.
fn complete(case: &mut Case, faults: &[Number], random: &mut Random) {
    draw::output(case, faults, random);
    if faults.is_empty() && random.below(2) == 0 {
        case.rings[1] = product(&case.rings[0], &case.rings[1], case.m);
    }
}

/// The counts behind the readings; SINGULAR leaves the output as it came.
fn answer(case: &Case) -> Answer {
    let (f, y, m) = (&case.rings[0], &case.rings[1], case.m);
    match circulant::counts(f, y, m) {
        Some(counts) => Answer::done(counts),
        None => Answer::refused(singular(1, circulant::ghost(f, m).unwrap().0), case),
    }
}

pub fn of(f: Vec<u32>, y: Vec<u32>, m: u32) -> Case {
    let List { primes, exponents, .. } = List::of(m);
    let out = vec![7; f.len()];
    Case { rings: vec![f, y], m, primes, exponents, out, ..Case::default() }
}

fn figures() -> Vec<Figure> {
    let squared = |ring: Vec<u32>, m| of(ring.clone(), ring, m);
    let mut figures = [limits(squared), lists(squared)].concat();
    figures.push(worked(of(vec![1, 2, 0], vec![1, 2, 5], 10), vec![1, 0, 5]));
    figures.push(worked(of(vec![1, 2], vec![1, 0], 8), vec![5, 6]));
    let dark = of(vec![1, 1], vec![2, 2], 10);
    figures.push((dark.clone(), singular(1, 2).into(), Some(vec![7, 7])));
    // 7 comes before 9, and 6 before 7.
    let short = Case { out: vec![7], ..dark };
    figures.push((short.clone(), Room.bare().into(), Some(vec![7])));
    let high = Case { rings: vec![vec![1, 1], vec![2, 10]], ..short };
    let told = Reply { number: Coefficient as u32, prime: 0, ring: 2, place: 1 };
    figures.push((high, told.into(), Some(vec![7])));
    figures
}
