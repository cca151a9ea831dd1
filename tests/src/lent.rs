//! Buffers lent to a call, with canaries on both sides.

use crate::case::Case;
use crate::random::Random;

/// What a buffer holds.
pub trait Word: Copy + PartialEq {
    fn cut(word: u64) -> Self;
}

impl Word for u8 {
    fn cut(word: u64) -> u8 {
        word as u8
    }
}

impl Word for u32 {
    fn cut(word: u64) -> u32 {
        word as u32
    }
}

/// Words around the content catch a write past either end. They are any words, so that a read past
/// either end shows in the answer.
#[derive(Clone, PartialEq, Eq)]
pub struct Lent<T> {
    words: Vec<T>,
    from: usize,
    to: usize,
}

impl<T: Word> Lent<T> {
    /// The margins differ, so that the content starts at any multiple of a word.
    pub fn new(content: &[T], random: &mut Random) -> Self {
        let from = 8 + random.below(4);
        let to = from + content.len();
        let mut words: Vec<T> = (0..to + 8).map(|_| T::cut(random.word())).collect();
        words[from..to].copy_from_slice(content);
        Lent { words, from, to }
    }

    /// An input, half the time without canaries: then valgrind sees a read past either end.
    pub fn input(content: &[T], random: &mut Random) -> Self {
        if random.below(2) == 0 {
            return Lent::new(content, random);
        }
        Lent { words: content.to_vec(), from: 0, to: content.len() }
    }

    pub fn content(&self) -> &[T] {
        &self.words[self.from..self.to]
    }

    pub fn content_mut(&mut self) -> &mut [T] {
        &mut self.words[self.from..self.to]
    }

    pub fn canaries(&self) -> (&[T], &[T]) {
        (&self.words[..self.from], &self.words[self.to..])
    }
}

/// A case as it is lent.
#[derive(Clone)]
pub struct Loan {
    pub rings: Vec<Lent<u32>>,
    pub m: u32,
    pub divisor: Option<u32>,
    pub primes: Lent<u32>,
    pub exponents: Lent<u8>,
    pub out: Lent<u32>,
}

impl Loan {
    pub fn of(case: &Case, random: &mut Random) -> Self {
        Loan {
            rings: case.rings.iter().map(|ring| Lent::new(ring, random)).collect(),
            m: case.m,
            divisor: case.divisor,
            primes: Lent::new(&case.primes, random),
            exponents: Lent::new(&case.exponents, random),
            out: Lent::new(&case.out, random),
        }
    }

    pub fn has_inputs_of(&self, other: &Loan) -> bool {
        self.rings == other.rings
            && self.primes == other.primes
            && self.exponents == other.exponents
    }
}
