//! Idle tanks: where every count is zero there is no feeding, and one count is enough for one, wherever
//! it stands. Counts are chosen and heard, so that nothing is solved here but which primes are singular.

use crate::calls::mix::product;
use crate::calls::same_feeding::{of, said, CALL};
use crate::case::Answer;
use crate::circulant::ghost;
use crate::compare;
use crate::counts::Counts;
use crate::door::Verdict;
use crate::draw::{legal_modulus, ring, short_length};
use crate::factors::List;
use crate::numbers::singular;
use crate::parts::Part;
use crate::patterns::{self, monomial, unit};
use crate::random::Random;

pub const PART: Part = Part {
    name: "idle tanks",
    kinds: &[
        ("both idle", 5_000),
        ("an idle tank with itself", 2_500),
        ("only the first idle", 5_000),
        ("only the second idle", 5_000),
        ("one count, at the first place", 2_500),
        ("one count, at the last place", 2_500),
        ("one count, in between", 10_000),
        ("one count, at two places", 10_000),
        ("two counts that add up to m", 10_000),
        ("no reading, pattern 1 singular", 2_500),
        ("no reading, pattern 3 singular", 2_500),
        ("a ghost, not heard", 2_500),
        ("1,024 feeders", 100),
    ],
    compare,
};

const TANKS: usize = 5_000;
const LARGEST: usize = 10;

fn compare(counts: &mut Counts, random: &mut Random) -> Result<(), String> {
    (0..TANKS).try_for_each(|_| small_tanks(counts, random))?;
    (0..LARGEST).try_for_each(|_| large_tanks(counts, random))
}

fn small_tanks(counts: &mut Counts, random: &mut Random) -> Result<(), String> {
    let (n, m) = (short_length(random), legal_modulus(random));
    let tanks = Tanks { f1: unit(n, m, random), f2: unit(n, m, random), m };
    tanks.idle(counts, random)?;
    (0..n).try_for_each(|place| tanks.one_count(place, counts, random))?;
    dark(&tanks, counts, random)
}

/// Where elimination would take too long: patterns of one weight, and some of the places.
fn large_tanks(counts: &mut Counts, random: &mut Random) -> Result<(), String> {
    let (n, m) = (1_024, legal_modulus(random));
    let one_weight = |random: &mut Random| monomial(n, random.below(n), m - 1);
    let tanks = Tanks { f1: one_weight(random), f2: one_weight(random), m };
    let before = counts.answers;
    tanks.idle(counts, random)?;
    let places = [0, 1, random.below(n), n - 2, n - 1];
    places.into_iter().try_for_each(|place| tanks.one_count(place, counts, random))?;
    (before..counts.answers).for_each(|_| counts.meet("1,024 feeders"));
    Ok(())
}

/// Two patterns that have an inverse.
struct Tanks {
    f1: Vec<u32>,
    f2: Vec<u32>,
    m: u32,
}

impl Tanks {
    fn n(&self) -> usize {
        self.f1.len()
    }

    /// What is said of the counts c1, heard through the first pattern, and c2, through the second.
    fn demand(
        &self,
        kind: &str,
        [c1, c2]: [&[u32]; 2],
        same: bool,
        counts: &mut Counts,
        random: &mut Random,
    ) -> Result<(), String> {
        let (y1, y2) = (product(&self.f1, c1, self.m), product(&self.f2, c2, self.m));
        let sides = [&self.f1, &y1, &self.f2, &y2];
        demand(kind, sides, self.m, said(same), counts, random)
    }

    fn idle(&self, counts: &mut Counts, random: &mut Random) -> Result<(), String> {
        let (none, fed) = (vec![0; self.n()], self.fed(random));
        self.demand("both idle", [&none, &none], false, counts, random)?;
        self.demand("only the first idle", [&none, &fed], false, counts, random)?;
        self.demand("only the second idle", [&fed, &none], false, counts, random)?;
        let itself = [&self.f1, &none, &self.f1, &none];
        demand("an idle tank with itself", itself, self.m, said(false), counts, random)
    }

    /// Counts that are not all zero.
    fn fed(&self, random: &mut Random) -> Vec<u32> {
        let mut fed = ring(self.n(), self.m, random);
        let place = random.below(self.n());
        fed[place] = fed[place].max(1);
        fed
    }

    /// One count, at this place: heard through both patterns; through one of them alone; through the
    /// other at another place; and beside what it lacks to m.
    fn one_count(
        &self,
        place: usize,
        counts: &mut Counts,
        random: &mut Random,
    ) -> Result<(), String> {
        let (n, m) = (self.n(), self.m);
        let (any, p) = (random.between(1, m - 1), random.one_of(&List::of(m).primes));
        let count = random.one_of(&[1, m - 1, any, m / p]);
        let (one, none) = (monomial(n, place, count), vec![0; n]);
        let kind = match place {
            0 => "one count, at the first place",
            _ if place == n - 1 => "one count, at the last place",
            _ => "one count, in between",
        };
        self.demand(kind, [&one, &one], true, counts, random)?;
        self.demand("only the first idle", [&none, &one], false, counts, random)?;
        self.demand("only the second idle", [&one, &none], false, counts, random)?;
        if n == 1 {
            return Ok(());
        }
        let other = (place + 1 + random.below(n - 1)) % n;
        let elsewhere = monomial(n, other, count);
        self.demand("one count, at two places", [&one, &elsewhere], false, counts, random)?;
        let mut both = one;
        both[other] = m - count;
        self.demand("two counts that add up to m", [&both, &both], true, counts, random)
    }
}

/// No reading, and a pattern that has no inverse: SINGULAR comes before yes and no. That counts are
/// behind the readings, of which one is not zero, changes nothing.
fn dark(tanks: &Tanks, counts: &mut Counts, random: &mut Random) -> Result<(), String> {
    let (n, m) = (tanks.n(), tanks.m);
    let none = vec![0; n];
    let dark = patterns::singular(n, m, random);
    let (p, hidden) = ghost(&dark, m).unwrap();
    let (one, three) = (singular(1, p).into(), singular(3, p).into());
    let first = [&dark, &none, &tanks.f2, &none];
    demand("no reading, pattern 1 singular", first, m, one, counts, random)?;
    let third = [&tanks.f1, &none, &dark, &none];
    demand("no reading, pattern 3 singular", third, m, three, counts, random)?;
    let y = product(&dark, &hidden, m);
    demand("a ghost, not heard", [&dark, &y, &dark, &y], m, one, counts, random)
}

fn demand(
    kind: &str,
    sides: [&Vec<u32>; 4],
    m: u32,
    verdict: Verdict,
    counts: &mut Counts,
    random: &mut Random,
) -> Result<(), String> {
    let answer = Answer { verdict, out: vec![] };
    compare::demand(&CALL, &of(sides.map(|ring| &ring[..]), m), &answer, random)?;
    counts.answers += 1;
    counts.meet(kind);
    Ok(())
}
