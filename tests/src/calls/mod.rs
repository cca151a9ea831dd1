//! The calls. A new call is a new module with a `CALL`, and a line in `ALL`; one that takes a factor
//! list has a part in `lists` too.

use crate::case::{Answer, Case};
use crate::door::Verdict;
use crate::figures::Figure;
use crate::lent::Loan;
use crate::numbers::{in_order, Number};
use crate::random::Random;

mod fold;
pub mod invert;
pub mod lists;
pub mod mix;
mod reduce;
pub mod same_feeding;
pub mod unmix;

pub struct Call {
    pub name: &'static str,
    pub rings: usize,
    /// Which of the rings are patterns to be inverted. A call that has some has a factor list.
    pub patterns: &'static [usize],
    /// Its refusals by groups, in any order.
    pub gives: &'static [&'static [Number]],
    /// Draws what lies beyond rings and modulus, with the faults asked for.
    pub complete: fn(&mut Case, &[Number], &mut Random),
    /// Asks the C door.
    pub ask: fn(&mut Loan) -> Verdict,
    /// What document 01 says of a case that no check refuses.
    pub answer: fn(&Case) -> Answer,
    pub figures: fn() -> Vec<Figure>,
}

impl Call {
    /// Its refusals, in their order.
    pub fn order(&self) -> impl Iterator<Item = Number> {
        in_order(self.gives)
    }

    /// Whether one case can have both faults, `first` standing before `second` in the order.
    pub fn can_meet(&self, first: Number, second: Number) -> bool {
        match (first, second) {
            (Number::Empty, Number::Large) => false,
            (Number::Empty, Number::Coefficient) => self.rings > 1,
            // There is no pattern, it is too long to look at, or m has no primes to speak of.
            (Number::Empty | Number::Large | Number::Modulus, Number::Singular) => false,
            _ => true,
        }
    }
}

pub const ALL: [Call; 6] =
    [mix::CALL, reduce::CALL, fold::CALL, invert::CALL, unmix::CALL, same_feeding::CALL];
