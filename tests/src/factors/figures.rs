//! Lists whose refusal is written down.

use super::{Fault, List};
use crate::numbers::Number::*;

pub type Figure = (List, Option<Fault>);

/// Document 01's figures as document 02's first request has them read, and what else it says.
pub fn figures() -> Vec<Figure> {
    let twelve: [(&[u32], &[u8], Option<Fault>); 24] = [
        (&[2, 3], &[2, 1], None),
        (&[4, 3], &[1, 1], Some((Prime, 0))),
        (&[3, 2], &[1, 2], Some((Order, 1))),
        (&[2, 3], &[255, 1], Some((Product, 0))),
        (&[], &[], Some((Factors, 0))),
        (&[2, 3], &[2], Some((Factors, 0))),
        (&[2], &[2, 1], Some((Factors, 0))),
        (&[2, 3], &[2, 1, 0], Some((Factors, 0))),
        (&[2, 3, 5, 7, 11, 13, 17, 19], &[2, 1, 0, 0, 0, 0, 0, 0], Some((Factors, 0))),
        (&[2, 3, 5, 7, 11, 13, 17], &[2, 1, 0, 0, 0, 0, 0], Some((Exponent, 2))),
        (&[2, 3, 5], &[2, 1, 0], Some((Exponent, 2))),
        (&[3, 4], &[1, 1], Some((Prime, 1))),
        (&[0, 2, 3], &[1, 2, 1], Some((Prime, 0))),
        (&[1, 2, 3], &[1, 2, 1], Some((Prime, 0))),
        (&[2, 2, 3], &[1, 1, 1], Some((Order, 1))),
        (&[2, 3], &[1, 1], Some((Product, 0))),
        (&[2, 3, 5], &[2, 1, 1], Some((Product, 0))),
        // Two at one entry.
        (&[2, 3, 4], &[2, 1, 0], Some((Exponent, 2))),
        (&[3, 2], &[1, 0], Some((Exponent, 1))),
        (&[2, 3, 1], &[2, 1, 1], Some((Prime, 2))),
        // Two at different entries, the first with the higher number.
        (&[1, 2, 3], &[1, 0, 1], Some((Prime, 0))),
        (&[3, 2, 5], &[1, 2, 0], Some((Order, 1))),
        (&[3, 2, 4], &[1, 2, 1], Some((Order, 1))),
        // And with the lower one.
        (&[2, 3, 4], &[0, 1, 1], Some((Exponent, 0))),
    ];
    let of_twelve = twelve.into_iter().map(|(primes, exponents, refusal)| {
        let (primes, exponents) = (primes.to_vec(), exponents.to_vec());
        (List { primes, exponents, m: 12 }, refusal)
    });
    let right = [2, 510_510, 524_288, 999_983, 1_000_000].map(|m| (List::of(m), None));
    of_twelve.chain(right).collect()
}
