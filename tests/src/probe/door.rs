//! The inner functions as probe.h declares them. Every buffer is lent with canaries.

use crate::door::Reply;
use crate::factors::List;
use crate::lent::Lent;
use crate::random::Random;

#[derive(Clone, Copy, Debug, PartialEq, Eq)]
pub enum Kind {
    Inverse = 0,
    Shares = 1,
    Refused = 2,
}

#[repr(C)]
#[derive(Clone, Copy, Debug, PartialEq, Eq)]
pub struct Number {
    pub kind: u32,
    pub value: u32,
}

#[repr(C)]
#[derive(Clone, Copy, Debug, PartialEq, Eq)]
pub struct Outcome {
    pub kind: u32,
    pub zero: u32,
    pub degree: usize,
}

impl Outcome {
    pub fn new(kind: Kind, degree: usize) -> Self {
        Outcome { kind: kind as u32, zero: 0, degree }
    }
}

extern "C" {
    fn probe_is_prime(p: u32) -> bool;

    fn probe_factors(
        primes: *const u32,
        primes_len: usize,
        exponents: *const u8,
        exponents_len: usize,
        m: u32,
    ) -> Reply;

    fn probe_inverse(y: u32, m: u32) -> Number;

    fn probe_rounds(k: u32) -> u32;

    fn probe_euclid(f: *const u32, n: usize, p: u32, out: *mut u32, out_len: usize) -> Outcome;
}

pub fn is_prime(p: u32) -> bool {
    unsafe { probe_is_prime(p) }
}

pub fn inverse(y: u32, m: u32) -> Number {
    unsafe { probe_inverse(y, m) }
}

pub fn rounds(k: u32) -> u32 {
    unsafe { probe_rounds(k) }
}

pub fn factors(list: &List, random: &mut Random) -> Result<Reply, String> {
    let lent = (Lent::new(&list.primes, random), Lent::new(&list.exponents, random));
    let before = lent.clone();
    let (ps, es) = (lent.0.content(), lent.1.content());
    // Each pointer goes with its slice's length.
    let reply = unsafe { probe_factors(ps.as_ptr(), ps.len(), es.as_ptr(), es.len(), list.m) };
    if lent != before {
        return Err("an input was changed".into());
    }
    Ok(reply)
}

/// The outcome, and the whole content of the output afterwards.
pub fn euclid(
    f: &[u32],
    p: u32,
    out: &[u32],
    random: &mut Random,
) -> Result<(Outcome, Vec<u32>), String> {
    let (f, mut out) = (Lent::new(f, random), Lent::new(out, random));
    let (f_before, out_before) = (f.clone(), out.clone());
    let (pattern, room) = (f.content(), out.content_mut());
    // Each pointer goes with its slice's length, and the output is a buffer of its own.
    let outcome =
        unsafe { probe_euclid(pattern.as_ptr(), pattern.len(), p, room.as_mut_ptr(), room.len()) };
    if f != f_before {
        return Err("the input was changed".into());
    }
    if out.canaries() != out_before.canaries() {
        return Err("written outside the output".into());
    }
    Ok((outcome, out.content().to_vec()))
}
