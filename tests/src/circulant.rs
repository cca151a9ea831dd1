//! Counts and ghosts by Gauss's elimination on the circulant matrix of f, modulo the whole of m.

use crate::factors::List;
use crate::patterns::ones;
use crate::primes::power;

/// What a pattern is to one prime p.
#[derive(Clone, Debug, PartialEq, Eq)]
pub enum Solution {
    /// The g with f g = 1 modulo x^n - 1 and p.
    Inverse(Vec<u32>),
    /// The monic w of least degree with f w = 0 modulo x^n - 1 and p.
    Ghost(Vec<u32>),
}

pub fn solve(f: &[u32], p: u32) -> Solution {
    match shadow(f, p) {
        Some(w) => Solution::Ghost(w),
        None => Solution::Inverse(inverse(f, p).unwrap()),
    }
}

pub fn inverse(f: &[u32], m: u32) -> Option<Vec<u32>> {
    counts(f, &ones(f.len(), 1, 1), m)
}

/// The ring c with f c = y modulo x^n - 1 and m, if f has an inverse.
pub fn counts(f: &[u32], y: &[u32], m: u32) -> Option<Vec<u32>> {
    let mut matrix = Matrix::new(f, y, m);
    (0..f.len()).all(|column| matrix.clear(column)).then(|| matrix.column(f.len()))
}

/// The smallest singular prime p of m and the ghost: m / p times its w.
pub fn ghost(f: &[u32], m: u32) -> Option<(u32, Vec<u32>)> {
    let told = |&p: &u32| Some((p, shadow(f, p)?.iter().map(|c| c * (m / p)).collect()));
    List::of(m).primes.iter().find_map(told)
}

/// The w of the prime p, if p is singular for f. Column j of the matrix is x^j f, so a column that
/// depends on those before it is the degree of a w. The first such column gives the least degree, and
/// those before it, which do not depend on each other, only one w.
pub fn shadow(f: &[u32], p: u32) -> Option<Vec<u32>> {
    let n = f.len();
    let mut matrix = Matrix::new(f, &vec![0; n], p);
    let degree = (0..n).find(|&column| !matrix.clear(column))?;
    let combination = matrix.column(degree);
    let coefficient = |place: usize| match place.cmp(&degree) {
        std::cmp::Ordering::Less => (p - combination[place]) % p,
        std::cmp::Ordering::Equal => 1,
        std::cmp::Ordering::Greater => 0,
    };
    Some((0..n).map(coefficient).collect())
}

/// The circulant matrix of f with y as a further column. An entry grows by less than 2^40 a column
/// and is taken modulo m only where it is needed.
struct Matrix {
    rows: Vec<Vec<u64>>,
    m: u32,
    primes: Vec<u32>,
}

impl Matrix {
    fn new(f: &[u32], y: &[u32], m: u32) -> Self {
        let n = f.len();
        let row = |i: usize| {
            let entries = (0..n).map(|j| f[(n + i - j) % n]).chain([y[i]]);
            entries.map(|entry| u64::from(entry % m)).collect()
        };
        Matrix { rows: (0..n).map(row).collect(), m, primes: List::of(m).primes }
    }

    fn column(&self, column: usize) -> Vec<u32> {
        self.rows.iter().map(|row| (row[column] % u64::from(self.m)) as u32).collect()
    }

    /// Makes the entry on the diagonal 1 and the column's others 0, unless all entries from the
    /// diagonal down share a prime with m.
    fn clear(&mut self, column: usize) -> bool {
        let m = u64::from(self.m);
        self.rows.iter_mut().for_each(|row| row[column] %= m);
        if !self.raise_pivot(column) {
            return false;
        }
        let inverse = self.inverse_of_unit(self.rows[column][column] as u32);
        let scaled = |entry: &u64| entry % m * inverse % m;
        let pivot: Vec<u64> = self.rows[column][column..].iter().map(scaled).collect();
        for (place, row) in self.rows.iter_mut().enumerate() {
            if place == column {
                row[column..].copy_from_slice(&pivot);
            } else if row[column] != 0 {
                let factor = m - row[column];
                let entries = row[column..].iter_mut().zip(&pivot);
                entries.for_each(|(entry, other)| *entry += factor * other);
            }
        }
        true
    }

    /// Makes the entry on the diagonal a unit. For each prime that divides it, a row whose entry the
    /// prime does not divide is added, times the product of the other primes: that changes nothing
    /// modulo those.
    fn raise_pivot(&mut self, column: usize) -> bool {
        let all: u32 = self.primes.iter().product();
        for p in self.primes.clone() {
            let free = |row: &Vec<u64>| !row[column].is_multiple_of(p.into());
            let Some(place) = self.rows[column..].iter().position(free) else {
                return false;
            };
            if place > 0 {
                self.add_row(column, column + place, u64::from(all / p));
            }
        }
        true
    }

    fn add_row(&mut self, to: usize, from: usize, times: u64) {
        let m = u64::from(self.m);
        let (above, below) = self.rows.split_at_mut(from);
        let entries = above[to].iter_mut().zip(&below[0]);
        entries.for_each(|(entry, other)| *entry = (*entry + other % m * times) % m);
    }

    /// By Euler's theorem.
    fn inverse_of_unit(&self, unit: u32) -> u64 {
        let units = self.primes.iter().fold(self.m, |count, p| count / p * (p - 1));
        power(unit, units - 1, self.m).into()
    }
}
