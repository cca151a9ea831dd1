//! Factor lists, and what is wrong with them by document 02's first request: each fault by itself.

use crate::door::{Reply, DONE};
use crate::numbers::{Number, Number::*, OF_A_LIST};
use crate::primes::{HALVES, PRIMES};

pub mod draw;
pub mod figures;
pub mod kinds;

/// A list has no more entries.
const MOST: usize = 7;

#[derive(Clone, Debug)]
pub struct List {
    pub primes: Vec<u32>,
    pub exponents: Vec<u8>,
    pub m: u32,
}

/// A number and the place of the entry. What is wrong with the whole list is at place 0.
pub type Fault = (Number, usize);

/// What a list is answered with that is refused for this fault, or for none.
pub fn reply(refusal: Option<Fault>) -> Reply {
    refusal.map_or(DONE, |(number, place)| number.at(place))
}

impl List {
    /// The factor list of m. For 0, which has none, it is that of 1.
    pub fn of(m: u32) -> List {
        List::with_product(m.max(1).into(), m).unwrap()
    }

    /// The factor list of a product beside any m, by trial division: if primes below 2^16 and at most
    /// one more below 2^32 make the product.
    pub fn with_product(product: u128, m: u32) -> Option<List> {
        let mut list = List { primes: vec![], exponents: vec![], m };
        let mut rest = product;
        for &p in HALVES.iter() {
            if u128::from(p).pow(2) > rest {
                break;
            }
            let mut exponent = 0;
            while divides(p, rest) {
                rest /= u128::from(p);
                exponent += 1;
            }
            if exponent > 0 {
                list.insert(p, exponent);
            }
        }
        if rest > 1 {
            list.insert(rest.try_into().ok()?, 1);
        }
        Some(list)
    }

    /// The fault that is given.
    pub fn refusal(&self) -> Option<Fault> {
        self.faults().first().copied()
    }

    /// All of its faults, the one given first.
    pub fn faults(&self) -> Vec<Fault> {
        let each = |number| self.places(number).map(move |place| (number, place));
        let mut faults: Vec<Fault> = OF_A_LIST.into_iter().flat_map(each).collect();
        faults.sort_by_key(|(number, place)| number.turn(*place));
        faults
    }

    /// The places that have the fault with this number, from the first.
    pub fn places(&self, number: Number) -> impl Iterator<Item = usize> + '_ {
        let longer = self.primes.len().max(self.exponents.len());
        (0..longer.max(1)).filter(move |&place| self.has(number, place))
    }

    fn has(&self, number: Number, place: usize) -> bool {
        let prime = self.primes.get(place);
        match number {
            Factors => place == 0 && self.has_wrong_size(),
            Exponent => self.exponents.get(place) == Some(&0),
            Prime => prime.is_some_and(|&prime| !PRIMES.has(prime)),
            Order => place > 0 && prime.is_some_and(|&prime| prime <= self.primes[place - 1]),
            Product => place == 0 && self.product() != self.m.into(),
            _ => false,
        }
    }

    /// "lists of unequal length, no entries, or more than seven"
    fn has_wrong_size(&self) -> bool {
        let size = self.primes.len();
        size != self.exponents.len() || size == 0 || size > MOST
    }

    /// A sheet's list has at most seven entries, and as many exponents as primes.
    pub fn fits_a_sheet(&self) -> bool {
        self.primes.len() == self.exponents.len() && self.primes.len() <= MOST
    }

    /// The powers' product, or the largest word if it is larger than that.
    fn product(&self) -> u128 {
        let powers = self.entries().map(|(p, e)| u128::from(p).saturating_pow(e.into()));
        powers.fold(1, u128::saturating_mul)
    }

    /// What is left of the product in 64 bits.
    pub fn product_at_64_bits(&self) -> u64 {
        let powers = self.entries().map(|(p, e)| u64::from(p).wrapping_pow(e.into()));
        powers.fold(1, u64::wrapping_mul)
    }

    fn entries(&self) -> impl Iterator<Item = (u32, u8)> + '_ {
        self.primes.iter().copied().zip(self.exponents.iter().copied())
    }

    /// Puts an entry in its place by the size of the prime.
    fn insert(&mut self, prime: u32, exponent: u8) {
        self.insert_at(self.primes.partition_point(|&p| p < prime), prime, exponent);
    }

    fn insert_at(&mut self, place: usize, prime: u32, exponent: u8) {
        self.primes.insert(place, prime);
        self.exponents.insert(place, exponent);
    }

    fn remove(&mut self, place: usize) -> (u32, u8) {
        (self.primes.remove(place), self.exponents.remove(place))
    }

    fn swap(&mut self, one: usize, other: usize) {
        self.primes.swap(one, other);
        self.exponents.swap(one, other);
    }
}

/// With 64 bits where they are enough, which takes half the time.
fn divides(p: u32, number: u128) -> bool {
    match u64::try_from(number) {
        Ok(number) => number.is_multiple_of(p.into()),
        Err(_) => number.is_multiple_of(p.into()),
    }
}
