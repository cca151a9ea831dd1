//! What the program prints for a sheet, as document 01 and document 02's first request tell it.

use super::fields::{self, number, Parts, Refusal};
use crate::case::Case;
use crate::circulant;
use crate::door::Reply;
use crate::numbers::{Number, Told, OF_A_LIST};
use crate::refusals;

/// What a sheet holds can meet these: it is never LARGE, and its rings never MISMATCH.
const GIVEN: &[&[Number]] =
    &[&[Number::Empty, Number::Modulus], &OF_A_LIST, &[Number::Coefficient]];

/// Elimination takes too long for a pattern with more entries.
const MOST_ELIMINATED: usize = 64;

pub enum Outcome<'a> {
    Unreadable(Refusal<'a>),
    /// The sheet's rings are the pattern and, if they are present, the readings.
    Read(Case, Finding),
}

pub enum Finding {
    /// All refusals that apply, the one given first.
    Refused(Vec<(Number, Reply)>),
    /// The prime and the ghost.
    Singular(u32, Vec<u32>),
    /// The inverse and, with readings, the counts.
    Inverse(Vec<u32>, Option<Vec<u32>>),
    /// Nothing refuses the pattern, and it is too long to be solved here.
    Unsolved,
}

impl Outcome<'_> {
    pub fn of(sheet: &[u8]) -> Outcome<'_> {
        match fields::read(sheet) {
            Ok(parts) => {
                let case = case_of(&parts);
                let finding = find(&case);
                Outcome::Read(case, finding)
            }
            Err(refusal) => Outcome::Unreadable(refusal),
        }
    }

    /// The text, if the pattern was solved.
    pub fn text(&self) -> Option<String> {
        match self {
            Outcome::Read(case, finding) => printed(case, finding),
            Outcome::Unreadable(refusal) => Some(refused(refusal.number(), &refusal.reply())),
        }
    }
}

fn case_of(parts: &Parts) -> Case {
    let words = |value: &[u8]| value.chunks(4).map(number).collect();
    let pattern = words(parts.pattern.value());
    let readings = parts.readings.map(|readings| words(readings.value()));
    let rings = [pattern].into_iter().chain(readings).collect();
    let factors = parts.factors.value().chunks(5);
    let (primes, exponents) = factors.map(|entry| (number(&entry[..4]), entry[4])).unzip();
    Case { rings, m: parts.modulus, primes, exponents, ..Case::default() }
}

fn find(case: &Case) -> Finding {
    let refusals = refusals::all(GIVEN, case);
    if !refusals.is_empty() {
        return Finding::Refused(refusals);
    }
    if case.n() > MOST_ELIMINATED {
        return Finding::Unsolved;
    }
    let (f, m) = (&case.rings[0], case.m);
    match circulant::inverse(f, m) {
        Some(inverse) => {
            let counts = case.rings.get(1).map(|y| circulant::counts(f, y, m).unwrap());
            Finding::Inverse(inverse, counts)
        }
        None => {
            let (prime, ghost) = circulant::ghost(f, m).unwrap();
            Finding::Singular(prime, ghost)
        }
    }
}

pub fn printed(case: &Case, finding: &Finding) -> Option<String> {
    let head = format!("ring {} modulus {}\n", case.n(), case.m);
    match finding {
        Finding::Refused(refusals) => Some(refused(refusals[0].0, &refusals[0].1)),
        Finding::Singular(prime, ghost) => {
            Some(head + &line(&format!("singular {prime} ghost"), ghost))
        }
        Finding::Inverse(inverse, None) => Some(head + &line("inverse", inverse)),
        Finding::Inverse(inverse, Some(counts)) => {
            Some(head + &line("inverse", inverse) + &line("counts", counts))
        }
        Finding::Unsolved => None,
    }
}

/// A refusal with what it tells: "for 6 then `ring r at k`", and a place alone after `at`.
fn refused(number: Number, reply: &Reply) -> String {
    let tells = |told| number.tells().contains(&told);
    let ring = if tells(Told::Ring) { format!(" ring {}", reply.ring) } else { String::new() };
    let place = if tells(Told::Place) { format!(" at {}", reply.place) } else { String::new() };
    format!("refused {}{ring}{place}\n", reply.number)
}

fn line(word: &str, entries: &[u32]) -> String {
    let items = [word.to_string()].into_iter().chain(entries.iter().map(u32::to_string));
    items.collect::<Vec<String>>().join(" ") + "\n"
}
