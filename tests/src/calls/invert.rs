use super::Call;
use crate::case::{Answer, Case};
use crate::circulant;
use crate::door::{Reply, Verdict};
use crate::draw;
use crate::factors::List;
use crate::figures::{limits, lists, worked, Figure};
use crate::lent::Loan;
use crate::numbers::{singular, Number::*, OF_A_LIST};

pub const CALL: Call = Call {
    name: "invert",
    rings: 1,
    gives: &[&[Empty, Large, Modulus], &OF_A_LIST, &[Coefficient, Room, Singular]],
    patterns: &[0],
    complete: draw::output,
    ask,
    answer,
    figures,
};

extern "C" {
    fn dowelbrook_invert(
        f: *const u32,
        f_len: usize,
        m: u32,
        primes: *const u32,
        primes_len: usize,
        exponents: *const u8,
        exponents_len: usize,
        out: *mut u32,
        out_len: usize,
    ) -> Reply;
}

fn ask(loan: &mut Loan) -> Verdict {
    let f = loan.rings[0].content();
    let (primes, exponents) = (loan.primes.content(), loan.exponents.content());
    let out = loan.out.content_mut();
    // Each pointer goes with its slice's length, and the output is a buffer of its own.
    unsafe {
        dowelbrook_invert(
            f.as_ptr(),
            f.len(),
            loan.m,
            primes.as_ptr(),
            primes.len(),
            exponents.as_ptr(),
            exponents.len(),
            out.as_mut_ptr(),
            out.len(),
        )
    }
    .into()
}

/// The inverse, or "the ghost with its prime".
fn answer(case: &Case) -> Answer {
    let (f, m) = (&case.rings[0], case.m);
    match circulant::inverse(f, m) {
        Some(inverse) => Answer::done(inverse),
        None => {
            let (prime, ghost) = circulant::ghost(f, m).unwrap();
            Answer { verdict: singular(1, prime).into(), out: ghost }
        }
    }
}

pub fn of(f: Vec<u32>, m: u32) -> Case {
    let List { primes, exponents, .. } = List::of(m);
    let out = vec![7; f.len()];
    Case { rings: vec![f], m, primes, exponents, out, ..Case::default() }
}

fn figures() -> Vec<Figure> {
    let mut figures = [limits(of), lists(of)].concat();
    figures.extend(inverses().map(|(m, f, g)| worked(of(f, m), g)));
    figures.extend(ghosts().map(|(m, f, p, ghost)| {
        let told = singular(1, p).into();
        (of(f, m), told, Some(ghost))
    }));
    // 7 comes before 9.
    figures.push((Case { out: vec![7], ..of(vec![1, 1], 10) }, Room.bare().into(), Some(vec![7])));
    figures
}

/// m, pattern and inverse. One round too few would give [1, 6] for m 8.
pub fn inverses() -> impl Iterator<Item = (u32, Vec<u32>, Vec<u32>)> {
    [
        (4, vec![1, 2, 0], vec![1, 2, 0]),
        (8, vec![1, 2], vec![5, 6]),
        (9, vec![2, 3], vec![5, 6]),
        (5, vec![1, 1, 0], vec![3, 2, 3]),
        (6, vec![0, 1, 0], vec![0, 0, 1]),
        (1_000, vec![3], vec![667]),
        (10, vec![1, 2, 0], vec![9, 2, 6]),
    ]
    .into_iter()
}

/// m, pattern, prime and ghost.
pub fn ghosts() -> impl Iterator<Item = (u32, Vec<u32>, u32, Vec<u32>)> {
    [
        (10, vec![1, 1], 2, vec![5, 5]),
        (5, vec![1, 1], 5, vec![4, 1]),
        (6, vec![1, 1, 0], 2, vec![3, 3, 3]),
        (1_000, vec![1, 1, 1], 2, vec![500, 500, 0]),
        (1_000, vec![3, 2, 0], 5, vec![200, 200, 200]),
        (1_000, vec![0], 2, vec![500]),
        (1_000, vec![0, 0, 0], 2, vec![500, 0, 0]),
    ]
    .into_iter()
}
