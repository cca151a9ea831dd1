//! The refusals of document 01 and of document 02's first request, each by itself and with no regard to
//! the others.

use crate::calls::Call;
use crate::case::Case;
use crate::circulant;
use crate::door::Reply;
use crate::factors::List;
use crate::numbers::{in_order, Number};

/// The refusal with this number, if it applies to the case, or to its list: there at the first place
/// that has the fault. SINGULAR is the business of the call's answer, and a sheet's refusals are that
/// of its fields.
fn examine(number: Number, case: &Case, list: &List) -> Option<Reply> {
    match number {
        Number::Empty => bare(number, case.n() == 0),
        Number::Large => bare(number, case.n() > 1_024),
        Number::Mismatch => mismatch(case),
        Number::Modulus => bare(number, !(2..=1_000_000).contains(&case.m)),
        Number::Coefficient => coefficient(case),
        Number::Room => bare(number, case.out.len() != case.n()),
        Number::Divisor => bare(number, !divides(case)),
        _ => list.places(number).next().map(|place| number.at(place)),
    }
}

/// Every refusal but SINGULAR that applies, of those that the call has, the one given first.
pub fn all(gives: &[&[Number]], case: &Case) -> Vec<(Number, Reply)> {
    let list = list(case);
    let applies = |number| examine(number, case, &list).map(|reply| (number, reply));
    let mut refusals: Vec<(Number, Reply)> = in_order(gives).filter_map(applies).collect();
    refusals.sort_by_key(|(number, reply)| number.turn(reply.place));
    refusals
}

/// Whether besides a refusal a pattern is singular, as far as that can be said and is soon seen.
pub fn singular_too(call: &Call, case: &Case) -> bool {
    let speaks = (2..=1_000_000).contains(&case.m) && (1..=64).contains(&case.n());
    let mut patterns = call.patterns.iter().map(|&index| &case.rings[index]);
    speaks && patterns.any(|f| f.len() == case.n() && circulant::ghost(f, case.m).is_some())
}

fn list(case: &Case) -> List {
    List { primes: case.primes.clone(), exponents: case.exponents.clone(), m: case.m }
}

fn bare(number: Number, applies: bool) -> Option<Reply> {
    applies.then(|| number.bare())
}

fn mismatch(case: &Case) -> Option<Reply> {
    let index = case.rings.iter().position(|ring| ring.len() != case.n())?;
    Some(Number::Mismatch.reply(index + 1, 0, 0))
}

fn coefficient(case: &Case) -> Option<Reply> {
    for (index, ring) in case.rings.iter().enumerate() {
        if let Some(place) = ring.iter().position(|&entry| entry >= case.m) {
            return Some(Number::Coefficient.reply(index + 1, place, 0));
        }
    }
    None
}

fn divides(case: &Case) -> bool {
    match case.divisor {
        Some(divisor) => divisor >= 2 && case.m.is_multiple_of(divisor),
        None => !case.out.is_empty() && case.n().is_multiple_of(case.out.len()),
    }
}
