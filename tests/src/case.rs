//! One call's inputs, and its output as it comes.

use crate::door::{Reply, Verdict, DONE};
use crate::factors::List;

#[derive(Clone, Debug, Default)]
pub struct Case {
    pub rings: Vec<Vec<u32>>,
    pub m: u32,
    /// The new modulus, in the call that has one.
    pub divisor: Option<u32>,
    /// The factor list, in the calls that have one.
    pub primes: Vec<u32>,
    pub exponents: Vec<u8>,
    pub out: Vec<u32>,
}

impl Case {
    /// The length of ring 1.
    pub fn n(&self) -> usize {
        self.rings[0].len()
    }

    /// With another factor list.
    pub fn with_list(self, list: List) -> Self {
        Case { primes: list.primes, exponents: list.exponents, ..self }
    }
}

#[derive(Clone, Debug, PartialEq, Eq)]
pub struct Answer {
    pub verdict: Verdict,
    /// The whole content of the output afterwards.
    pub out: Vec<u32>,
}

impl Answer {
    pub fn done(out: Vec<u32>) -> Self {
        Answer { verdict: DONE.into(), out }
    }

    /// A refusal that leaves the output as it came.
    pub fn refused(reply: Reply, case: &Case) -> Self {
        Answer { verdict: reply.into(), out: case.out.clone() }
    }
}
