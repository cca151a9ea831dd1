//! How often each answer was met, and whether that is often enough.

use crate::calls::Call;
use crate::numbers::{Number, ORDER};
use std::fmt;

const LEAST_GIVEN: usize = 500;
const LEAST_ALONE: usize = 500;
const LEAST_PAIRED: usize = 500;
const RANKS: usize = ORDER.len();

pub struct Tally<'a> {
    call: &'a Call,
    pub cases: usize,
    done: usize,
    /// Each by its rank in the order.
    given: [usize; RANKS],
    alone: [usize; RANKS],
    paired: [[usize; RANKS]; RANKS],
}

impl<'a> Tally<'a> {
    pub fn new(call: &'a Call) -> Self {
        let (given, alone, paired) = ([0; RANKS], [0; RANKS], [[0; RANKS]; RANKS]);
        Tally { call, cases: 0, done: 0, given, alone, paired }
    }

    /// Counts a case to which these refusals apply, the one given first.
    pub fn count(&mut self, applying: &[Number]) {
        self.cases += 1;
        match applying {
            [] => self.done += 1,
            [only] => self.alone[only.rank()] += 1,
            [first, others @ ..] => {
                others.iter().for_each(|other| self.paired[first.rank()][other.rank()] += 1)
            }
        }
        if let Some(first) = applying.first() {
            self.given[first.rank()] += 1;
        }
    }

    pub fn enough(&self) -> bool {
        self.often_enough() && self.dark_enough()
    }

    /// At least a quarter of the answers that take an inversion is SINGULAR, and many are not.
    fn dark_enough(&self) -> bool {
        let singular = self.given[Number::Singular.rank()];
        self.call.patterns.is_empty() || (singular * 3 >= self.done && singular <= self.done * 3)
    }

    fn often_enough(&self) -> bool {
        self.call.order().all(|number| {
            self.given[number.rank()] >= LEAST_GIVEN
                && self.alone[number.rank()] >= LEAST_ALONE
                && self.rarest_pair(number).is_none_or(|count| count >= LEAST_PAIRED)
        })
    }

    /// How often this refusal was given while a later one applied too, for the rarest later one.
    fn rarest_pair(&self, number: Number) -> Option<usize> {
        let later = self.call.order().filter(|other| other.rank() > number.rank());
        let possible = later.filter(|&other| self.call.can_meet(number, other));
        possible.map(|other| self.paired[number.rank()][other.rank()]).min()
    }

    pub fn head() -> String {
        format!("{:<14}{:<16}{:>8}{:>8}{:>8}\n", "call", "answer", "given", "alone", "paired")
    }
}

impl fmt::Display for Tally<'_> {
    fn fmt(&self, to: &mut fmt::Formatter) -> fmt::Result {
        writeln!(to, "{:<14}{:<16}{:>8}", self.call.name, "0 DONE", self.done)?;
        for number in self.call.order() {
            let name = format!("{} {}", number as u32, number.name());
            let (given, alone) = (self.given[number.rank()], self.alone[number.rank()]);
            let paired = self.rarest_pair(number).map_or("-".into(), |count| count.to_string());
            writeln!(to, "{:<14}{name:<16}{given:>8}{alone:>8}{paired:>8}", "")?;
        }
        Ok(())
    }
}
