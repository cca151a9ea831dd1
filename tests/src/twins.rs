//! Twins: one feeding heard through two patterns is the same feeding, and not when one count differs or
//! when there is none.
//! Nothing is solved here, so it holds at any length.

use crate::calls::mix::product;
use crate::calls::same_feeding::{nearly, of, said, same, CALL};
use crate::case::Answer;
use crate::compare;
use crate::draw::{legal_modulus, ring, short_length};
use crate::patterns::unit;
use crate::random::Random;

const PAIRS: usize = 5_000;

/// Hands back how many cases agree.
pub fn run(random: &mut Random) -> Result<usize, String> {
    for _ in 0..PAIRS {
        let (n, m) = (short_length(random), legal_modulus(random));
        let (f1, f2) = (unit(n, m, random), unit(n, m, random));
        agree(&f1, &f2, m, random)?;
    }
    Ok(2 * PAIRS)
}

/// One feeding, then two that differ in one count, through two patterns that have an inverse.
pub fn agree(f1: &[u32], f2: &[u32], m: u32, random: &mut Random) -> Result<(), String> {
    let counts = ring(f1.len(), m, random);
    for others in [counts.clone(), nearly(&counts, m, random)] {
        let (y1, y2) = (product(f1, &counts, m), product(f2, &others, m));
        let verdict = said(same(&counts, &others));
        compare::demand(
            &CALL,
            &of([f1, &y1, f2, &y2], m),
            &Answer { verdict, out: vec![] },
            random,
        )?;
    }
    Ok(())
}
