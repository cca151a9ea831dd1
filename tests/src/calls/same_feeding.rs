use super::mix::product;
use super::Call;
use crate::case::{Answer, Case};
use crate::circulant::{counts, ghost};
use crate::door::{Verdict, DONE};
use crate::factors::List;
use crate::figures::{limits, lists, Figure};
use crate::lent::Loan;
use crate::numbers::{singular, Number, Number::*, OF_A_LIST};
use crate::random::Random;

pub const CALL: Call = Call {
    name: "same feeding",
    rings: 4,
    gives: &[&[Empty, Large, Mismatch, Modulus], &OF_A_LIST, &[Coefficient, Singular]],
    patterns: &[0, 2],
    complete,
    ask,
    answer,
    figures,
};

extern "C" {
    fn dowelbrook_same_feeding(
        f1: *const u32,
        f1_len: usize,
        y1: *const u32,
        y1_len: usize,
        f2: *const u32,
        f2_len: usize,
        y2: *const u32,
        y2_len: usize,
        m: u32,
        primes: *const u32,
        primes_len: usize,
        exponents: *const u8,
        exponents_len: usize,
    ) -> Verdict;
}

fn ask(loan: &mut Loan) -> Verdict {
    let [f1, y1, f2, y2] = [0, 1, 2, 3].map(|index| loan.rings[index].content());
    let (primes, exponents) = (loan.primes.content(), loan.exponents.content());
    // Each pointer goes with its slice's length.
    unsafe {
        dowelbrook_same_feeding(
            f1.as_ptr(),
            f1.len(),
            y1.as_ptr(),
            y1.len(),
            f2.as_ptr(),
            f2.len(),
            y2.as_ptr(),
            y2.len(),
            loan.m,
            primes.as_ptr(),
            primes.len(),
            exponents.as_ptr(),
            exponents.len(),
        )
    }
}

/// Most legal readings are those of two feedings that are the same, or nearly so; some have the second
/// side word for word like the first, and some have a side without a reading, or both.
fn complete(case: &mut Case, faults: &[Number], random: &mut Random) {
    if !faults.is_empty() {
        return;
    }
    match random.below(10) {
        0 => (),
        1 => {
            let (f, y) = (case.rings[0].clone(), case.rings[1].clone());
            (case.rings[2], case.rings[3]) = (f, y);
        }
        8 => {
            let side = random.one_of(&[1, 3]);
            case.rings[side].fill(0);
        }
        9 => [1, 3].into_iter().for_each(|side| case.rings[side].fill(0)),
        kind => {
            let counts = case.rings[1].clone();
            let others = if kind < 5 { nearly(&counts, case.m, random) } else { counts.clone() };
            case.rings[1] = product(&case.rings[0], &counts, case.m);
            case.rings[3] = product(&case.rings[2], &others, case.m);
        }
    }
}

/// The counts but for one, which may agree modulo all primes of m but one.
pub fn nearly(counts: &[u32], m: u32, random: &mut Random) -> Vec<u32> {
    let anywhere = random.below(counts.len());
    let place = random.one_of(&[0, anywhere, counts.len() - 1]);
    let (any, p) = (random.between(1, m - 1), random.one_of(&List::of(m).primes));
    let step = random.one_of(&[1, m - 1, any, m / p]);
    let mut others = counts.to_vec();
    others[place] = (others[place] + step) % m;
    others
}

/// "Two count rings shall be the same feeding when they agree and at least one entry isn't zero."
pub fn same(first: &[u32], second: &[u32]) -> bool {
    first == second && first.iter().any(|&count| count != 0)
}

/// Of the two unmixed count rings, unless there is none.
fn answer(case: &Case) -> Answer {
    let m = case.m;
    let behind = |index: usize| {
        let (f, y) = (&case.rings[index], &case.rings[index + 1]);
        counts(f, y, m).ok_or_else(|| singular(index + 1, ghost(f, m).unwrap().0))
    };
    let verdict = match (behind(0), behind(2)) {
        (Err(reply), _) | (_, Err(reply)) => reply.into(),
        (Ok(first), Ok(second)) => said(same(&first, &second)),
    };
    Answer { verdict, out: vec![] }
}

pub fn said(same: bool) -> Verdict {
    Verdict { reply: DONE, same: same.into() }
}

pub fn of(rings: [&[u32]; 4], m: u32) -> Case {
    let List { primes, exponents, .. } = List::of(m);
    let rings = rings.map(|ring| ring.to_vec()).to_vec();
    Case { rings, m, primes, exponents, ..Case::default() }
}

fn figures() -> Vec<Figure> {
    let alike = |ring: Vec<u32>, m| of([&ring; 4], m);
    let mut figures = [limits(alike), lists(alike)].concat();
    for (_, verdict, _) in &mut figures {
        // Each is compared with itself.
        verdict.same = usize::from(verdict.reply == DONE);
    }
    let (f, dark, idle) = (&[1, 2, 0], &[1, 1, 0], &[0, 0, 0]);
    let more = [
        (of([f, &[1, 2, 5], &[1, 0, 0], &[1, 0, 5]], 10), said(true)),
        (of([f, &[1, 2, 5], &[1, 0, 0], &[1, 0, 4]], 10), said(false)),
        (of([f, &[1, 2, 5], &[1, 0, 0], &[1, 0, 0]], 10), said(false)),
        (of([&[1, 2], &[1, 0], &[1, 0], &[5, 6]], 8), said(true)),
        // One lifting round too few.
        (of([&[1, 2], &[1, 0], &[1, 0], &[1, 6]], 8), said(false)),
        // An idle tank is no feeding, not even with itself; one count is enough for one, at any place.
        (of([f, idle, &[1, 0, 0], idle], 10), said(false)),
        (of([f, idle, f, idle], 10), said(false)),
        (of([f, idle, &[1, 0, 0], &[0, 0, 1]], 10), said(false)),
        (of([f, &[2, 0, 1], &[1, 0, 0], idle], 10), said(false)),
        (of([f, &[1, 2, 0], &[1, 0, 0], &[1, 0, 0]], 10), said(true)),
        (of([f, &[0, 1, 2], &[1, 0, 0], &[0, 1, 0]], 10), said(true)),
        (of([f, &[2, 0, 1], &[1, 0, 0], &[0, 0, 1]], 10), said(true)),
        // Never yes or no, even where both sides are word for word the same.
        (of([dark, idle, dark, idle], 6), singular(1, 2).into()),
        (of([f, &[1, 2, 5], &[3, 2, 0], &[1, 2, 5]], 10), singular(3, 5).into()),
        (of([&[3, 2, 0], &[1, 2, 5], dark, &[1, 2, 5]], 10), singular(1, 5).into()),
    ];
    figures.extend(more.map(|(case, verdict)| (case, verdict, None)));
    figures
}
