//! Draws factor lists: right ones, and ones with the faults asked for.

use super::List;
use crate::draw;
use crate::numbers::{Number, Number::*, OF_A_LIST};
use crate::primes::HALVES;
use crate::random::Random;
use std::sync::LazyLock;

/// Draws lists with every set of up to three faults, a wrong size besides or not, and some that are
/// anything at all.
pub struct Lists {
    /// Every set but for the size.
    fault_sets: Vec<Vec<Number>>,
}

impl Lists {
    pub fn new() -> Self {
        let but_the_size = OF_A_LIST.into_iter().filter(|&number| number != Factors);
        Lists { fault_sets: draw::sets(but_the_size, |_, _| true) }
    }

    pub fn any(&self, m: u32, random: &mut Random) -> List {
        match random.below(16) {
            0 => anything(m, random),
            1..7 => with_faults(m, &[&[Factors], self.fault_set(random)].concat(), random),
            _ => with_faults(m, self.fault_set(random), random),
        }
    }

    /// One that a sheet can hold.
    pub fn in_a_sheet(&self, m: u32, random: &mut Random) -> List {
        if random.below(8) == 0 {
            return List { primes: vec![], exponents: vec![], m };
        }
        loop {
            let list = with_faults(m, self.fault_set(random), random);
            if list.fits_a_sheet() {
                return list;
            }
        }
    }

    fn fault_set(&self, random: &mut Random) -> &[Number] {
        &self.fault_sets[random.below(self.fault_sets.len())]
    }
}

/// A modulus in range, half of the time with many primes.
pub fn legal_modulus(random: &mut Random) -> u32 {
    match random.below(2) {
        0 => draw::legal_modulus(random),
        _ => with_many_primes(1_000_000, random),
    }
}

/// A modulus with four primes or more.
pub fn with_many_primes(most: u32, random: &mut Random) -> u32 {
    let smallest: u32 = HALVES[..random.one_of(&[4, 5, 6, 7, 7])].iter().product();
    smallest * random.between(1, most / smallest)
}

/// Lists whose product is m only when it is cut to 32 bits, or to 64.
pub static WRAPPING: LazyLock<Vec<List>> = LazyLock::new(|| {
    let wrapping = |(m, multiple): (u32, u128)| List::with_product(multiple + u128::from(m), m);
    let multiples = (1..=32).flat_map(|times| [times << 32, times << 64]);
    let products = multiples.flat_map(|multiple| draw::TELLING.map(|m| (m, multiple)));
    products.filter_map(wrapping).filter(List::fits_a_sheet).collect()
});

const TRIES: usize = 20;

/// A list beside m with just these faults of a list. Some m have none, and then it has others too; an
/// m below 2 has no list without fault.
pub fn with_faults(m: u32, faults: &[Number], random: &mut Random) -> List {
    let right = List { m, ..List::of(m.max(2)) };
    let just_these = |list: &List| {
        let has = |number| list.places(number).next().is_some();
        OF_A_LIST.into_iter().all(|number| has(number) == faults.contains(&number))
    };
    let tried = (0..TRIES).map(|_| spoilt(&right, faults, random)).find(just_these);
    tried.unwrap_or_else(|| spoilt(&right, faults, random))
}

/// The list after something was done about each of these faults, and about some of them twice.
fn spoilt(list: &List, faults: &[Number], random: &mut Random) -> List {
    let mut list = list.clone();
    for (_, spoils) in SPOILS.iter().filter(|(number, _)| faults.contains(number)) {
        for _ in 0..random.one_of(&[1, 1, 1, 2]) {
            random.one_of(spoils)(&mut list, random);
        }
    }
    list
}

type Spoil = fn(&mut List, &mut Random);

/// What brings a fault about; it may bring about others besides. The list's size comes last, so that
/// what is done before finds entries.
const SPOILS: [(Number, &[Spoil]); 5] = [
    (Product, &OF_PRODUCT),
    (Prime, &OF_PRIME),
    (Exponent, &[further_zero, repeated_zero, zero_for_an_exponent]),
    (Order, &OF_ORDER),
    (Factors, &[no_entry, many_entries, one_more, one_more, one_fewer, one_list_only]),
];

const OF_PRODUCT: [Spoil; 6] = [
    further_primes,
    other_prime,
    missing_entry,
    other_exponent,
    exchanged_exponents,
    list_of_another,
];

const OF_PRIME: [Spoil; 5] =
    [no_prime_first, no_prime_later, power_for_a_prime, product_for_a_prime, other_number];

const OF_ORDER: [Spoil; 5] =
    [exchanged_neighbours, exchanged_entries, split_power, repeated_prime, lower_prime];

/// Anywhere, or at the end.
fn any_place(list: &List, random: &mut Random) -> usize {
    let (anywhere, last) = (random.below(list.primes.len()), list.primes.len() - 1);
    random.one_of(&[anywhere, last, last])
}

/// A small prime that is not in the list.
fn new_prime(list: &List, random: &mut Random) -> u32 {
    loop {
        let prime = random.one_of(&HALVES[..20]);
        if !list.primes.contains(&prime) {
            return prime;
        }
    }
}

/// With exponents that are 0 when they are cut to a few bits, too.
fn further_primes(list: &mut List, random: &mut Random) {
    for _ in 0..1 + random.below(4) {
        list.insert(new_prime(list, random), random.one_of(&[1, 1, 2, 32, 64, 128, 255]));
    }
}

fn other_prime(list: &mut List, random: &mut Random) {
    let any = random.one_of(&HALVES);
    let (_, exponent) = list.remove(any_place(list, random));
    list.insert(random.one_of(&[any, any, u32::MAX - 4]), exponent);
}

fn missing_entry(list: &mut List, random: &mut Random) {
    if list.primes.len() > 1 {
        list.remove(any_place(list, random));
    }
}

fn other_exponent(list: &mut List, random: &mut Random) {
    let place = any_place(list, random);
    let exponent = list.exponents[place];
    let more = exponent.wrapping_add(random.one_of(&[1, 32, 64, 128]));
    list.exponents[place] = random.one_of(&[exponent.max(2) - 1, more, more, 255]);
}

fn exchanged_exponents(list: &mut List, _: &mut Random) {
    list.exponents.reverse();
}

fn list_of_another(list: &mut List, random: &mut Random) {
    let other = random.one_of(&[list.m ^ 1, list.m.wrapping_mul(2), list.m / 2]);
    *list = List { m: list.m, ..List::of(other.max(2)) };
}

/// 1 changes no product.
fn no_prime_first(list: &mut List, random: &mut Random) {
    list.insert(random.one_of(&[0, 1]), random.one_of(&[1, 2, 255]));
}

fn no_prime_later(list: &mut List, random: &mut Random) {
    let place = any_place(list, random) + 1;
    list.insert_at(place, random.one_of(&[0, 1]), 1);
}

fn power_for_a_prime(list: &mut List, random: &mut Random) {
    let (prime, exponent) = list.remove(any_place(list, random));
    list.insert(prime.wrapping_pow(exponent.into()), 1);
}

/// Two primes next to each other, multiplied as often as both are there.
fn product_for_a_prime(list: &mut List, random: &mut Random) {
    if list.primes.len() > 1 {
        let place = random.below(list.primes.len() - 1);
        let ((p, d), (q, e)) = (list.remove(place), list.remove(place));
        let both = d.min(e);
        list.insert(p.wrapping_mul(q), both);
        let rests = [(p, d - both), (q, e - both)].into_iter().filter(|&(_, rest)| rest > 0);
        rests.for_each(|(prime, rest)| list.insert(prime, rest));
    }
}

fn other_number(list: &mut List, random: &mut Random) {
    let place = any_place(list, random);
    let prime = list.primes[place];
    let (lower, higher) = (prime.wrapping_sub(1), prime.wrapping_add(1));
    let (square, any) = (prime.wrapping_mul(prime), random.word() as u32);
    list.primes[place] = random.one_of(&[0, 1, 4, lower, higher, square, any, u32::MAX]);
}

fn further_zero(list: &mut List, random: &mut Random) {
    list.insert(new_prime(list, random), 0);
}

/// With a prime that is in the list.
fn repeated_zero(list: &mut List, random: &mut Random) {
    let place = any_place(list, random);
    list.insert_at(place + 1, random.one_of(&list.primes[..=place]), 0);
}

/// At an entry that has no prime, if there is one.
fn zero_for_an_exponent(list: &mut List, random: &mut Random) {
    let place = list.places(Prime).next();
    let place = place.unwrap_or_else(|| any_place(list, random));
    list.exponents[place] = 0;
}

fn exchanged_neighbours(list: &mut List, random: &mut Random) {
    let place = random.below(list.primes.len());
    list.swap(place, place.saturating_sub(1));
}

fn exchanged_entries(list: &mut List, random: &mut Random) {
    list.swap(any_place(list, random), any_place(list, random));
}

/// Into two with the same prime.
fn split_power(list: &mut List, random: &mut Random) {
    if let Some(place) = list.exponents.iter().position(|&e| e > 1) {
        let (prime, exponent) = list.remove(place);
        let part = random.between(1, u32::from(exponent) - 1) as u8;
        list.insert_at(place, prime, part);
        list.insert_at(place, prime, exponent - part);
    }
}

fn repeated_prime(list: &mut List, random: &mut Random) {
    let place = any_place(list, random);
    list.insert_at(place, list.primes[place], 1);
}

fn lower_prime(list: &mut List, random: &mut Random) {
    if list.primes.len() > 1 {
        let place = 1 + random.below(list.primes.len() - 1);
        let lower = HALVES.partition_point(|&p| p <= list.primes[place - 1]);
        list.primes[place] = HALVES[random.below(lower.max(1))];
    }
}

fn no_entry(list: &mut List, _: &mut Random) {
    (list.primes, list.exponents) = (vec![], vec![]);
}

/// Primes that rise further, up to eight entries or a few more.
fn many_entries(list: &mut List, random: &mut Random) {
    let (size, exponent) = (random.one_of(&[8, 9, 10]), random.one_of(&[0, 1]));
    let last = list.primes.last().copied().unwrap_or(0);
    let higher = HALVES.partition_point(|&p| p <= last);
    let missing = size - size.min(list.primes.len());
    list.primes.extend(HALVES[higher..].iter().take(missing));
    list.exponents.resize(list.primes.len(), exponent);
}

/// One prime or one exponent.
fn one_more(list: &mut List, random: &mut Random) {
    let (small, any) = (random.one_of(&HALVES[..20]), random.word() as u32);
    match random.below(2) {
        0 => list.primes.push(random.one_of(&[u32::MAX - 4, u32::MAX - 4, small, any])),
        _ => list.exponents.push(random.one_of(&[0, 1, 1, 255])),
    }
}

fn one_fewer(list: &mut List, random: &mut Random) {
    match random.below(2) {
        0 => drop(list.primes.pop()),
        _ => drop(list.exponents.pop()),
    }
}

fn one_list_only(list: &mut List, random: &mut Random) {
    match random.below(2) {
        0 => list.primes.clear(),
        _ => list.exponents.clear(),
    }
}

/// So many entries, each of them anything at all.
fn anything(m: u32, random: &mut Random) -> List {
    let size = random.one_of(&[0, 1, 2, 3, 4, 5, 6, 7, 8, 9, 10, 1_000]);
    let mut number = || {
        let (small, prime) = (random.between(0, 9), random.one_of(&HALVES));
        random.one_of(&[small, small, prime, u32::MAX - small])
    };
    let primes = (0..size).map(|_| number()).collect();
    let exponents = (0..size).map(|_| random.one_of(&[0, 1, 1, 2, 255])).collect();
    List { primes, exponents, m }
}
