//! The numbers of document 01 and of document 02's first request: what each is called, what it tells,
//! and which of two comes first.

use crate::door::Reply;
use Number::*;

#[derive(Clone, Copy, Debug, PartialEq, Eq)]
pub enum Number {
    Empty = 1,
    Large = 2,
    Mismatch = 3,
    Modulus = 4,
    Factors = 5,
    Coefficient = 6,
    Room = 7,
    Divisor = 8,
    Singular = 9,
    Exponent = 10,
    Prime = 11,
    Order = 12,
    Product = 13,
    Cut = 20,
    Tag = 21,
    Length = 22,
    Missing = 23,
    Version = 24,
}

/// "Checks run in this order, each where the call has the thing checked": the one list that says which
/// of two refusals comes first, but for those of a factor entry. A number's size says nothing of it.
pub const ORDER: [Number; 13] = [
    Empty,
    Large,
    Mismatch,
    Modulus,
    Factors,
    Exponent,
    Prime,
    Order,
    Product,
    Coefficient,
    Room,
    Divisor,
    Singular,
];

/// The refusals of a factor list.
pub const OF_A_LIST: [Number; 5] = [Factors, Exponent, Prime, Order, Product];

/// Those of one of its entries. They are given "entry by entry from the first".
pub const OF_AN_ENTRY: [Number; 3] = [Exponent, Prime, Order];

/// The refusals of a sheet, in whatever order its fields give them.
pub const OF_A_SHEET: [Number; 5] = [Cut, Tag, Length, Missing, Version];

/// What a number tells besides. An offset in a sheet is told as a place.
#[derive(Clone, Copy, Debug, PartialEq, Eq)]
pub enum Told {
    Ring,
    Place,
    Prime,
}

/// The refusals that a call gives, in the order of document 01.
pub fn in_order<'a>(gives: &'a [&'a [Number]]) -> impl Iterator<Item = Number> + 'a {
    ORDER.into_iter().filter(|number| gives.iter().any(|group| group.contains(number)))
}

impl Number {
    pub fn name(self) -> String {
        format!("{self:?}").to_uppercase()
    }

    pub fn tells(self) -> &'static [Told] {
        match self {
            Empty | Large | Modulus | Factors | Product | Room | Divisor => &[],
            Mismatch => &[Told::Ring],
            Coefficient => &[Told::Ring, Told::Place],
            Singular => &[Told::Ring, Told::Prime],
            Exponent | Prime | Order => &[Told::Place],
            Cut | Tag | Length | Missing | Version => &[Told::Place],
        }
    }

    /// Where it stands in the order.
    pub fn rank(self) -> usize {
        ORDER.iter().position(|&number| number == self).unwrap()
    }

    /// Of two refusals the one with the lower turn is given: between two factor entries the place
    /// decides, and else the order.
    pub fn turn(self, place: usize) -> [usize; 3] {
        if OF_AN_ENTRY.contains(&self) {
            [OF_AN_ENTRY[0].rank(), place, self.rank()]
        } else {
            [self.rank(), 0, 0]
        }
    }

    /// The refusal with this number: it has the values that the number tells, and 0 for the others.
    pub fn reply(self, ring: usize, place: usize, prime: u32) -> Reply {
        let tells = |told| self.tells().contains(&told);
        Reply {
            number: self as u32,
            prime: if tells(Told::Prime) { prime } else { 0 },
            ring: if tells(Told::Ring) { ring } else { 0 },
            place: if tells(Told::Place) { place } else { 0 },
        }
    }

    /// The refusal with this number, which tells nothing besides.
    pub fn bare(self) -> Reply {
        self.reply(0, 0, 0)
    }

    /// The refusal with this number, which tells a place.
    pub fn at(self, place: usize) -> Reply {
        self.reply(0, place, 0)
    }
}

/// SINGULAR, with what it tells.
pub fn singular(ring: usize, prime: u32) -> Reply {
    Singular.reply(ring, 0, prime)
}
