//! Rings of up to 1,024 entries, where elimination takes too long. An inverse is seen by its product,
//! as there is only one; a ghost is known where the pattern is made for it.

use crate::calls::mix::product;
use crate::calls::{invert, unmix};
use crate::case::Answer;
use crate::compare;
use crate::door::{Verdict, DONE};
use crate::draw::{divisors, legal_modulus, ring};
use crate::factors::List;
use crate::numbers::singular;
use crate::patterns::{any, difference, ones, replaced};
use crate::random::Random;
use crate::twins;

const DRAWN: usize = 100;
const LARGEST: [usize; 10] = [256, 257, 343, 512, 720, 1_000, 1_008, 1_021, 1_023, 1_024];
const MODULI: [u32; 7] = [1 << 19, 531_441, 510_510, 720_720, 999_983, 999_999, 1_000_000];

/// Hands back how many cases agree.
pub fn run(random: &mut Random) -> Result<usize, String> {
    let mut cases = 0;
    for _ in 0..DRAWN {
        let n = 65 + random.below(192);
        cases += one_pattern(n, legal_modulus(random), random)?;
    }
    for n in LARGEST {
        for m in MODULI {
            cases += one_pattern(n, m, random)?;
        }
    }
    Ok(cases)
}

/// A pattern with an inverse, counts through it, twins through it and its inverse, and ghosts made of
/// it.
fn one_pattern(n: usize, m: u32, random: &mut Random) -> Result<usize, String> {
    let (f, g, asked) = unit(any(n, m, random), m, random)?;
    let counts = ring(n, m, random);
    let readings = unmix::of(f.clone(), product(&f, &counts, m), m);
    compare::demand(&unmix::CALL, &readings, &Answer::done(counts), random)?;
    twins::agree(&f, &g, m, random)?;
    for (f, p, ghost) in singular_patterns(&f, m, random) {
        let told = Answer { verdict: singular(1, p).into(), out: ghost };
        compare::demand(&invert::CALL, &invert::of(f.clone(), m), &told, random)?;
        let case = unmix::of(f, ring(n, m, random), m);
        compare::demand(&unmix::CALL, &case, &Answer::refused(singular(1, p), &case), random)?;
    }
    Ok(asked + 7)
}

/// A pattern with its inverse, and how many were asked for: f, unless it is singular. Then it is drawn
/// again modulo the prime told, which is singular as the ghost shows.
pub fn unit(
    mut f: Vec<u32>,
    m: u32,
    random: &mut Random,
) -> Result<(Vec<u32>, Vec<u32>, usize), String> {
    let n = f.len();
    for asked in 1..1_000 {
        let case = invert::of(f, m);
        let Answer { verdict, out } = compare::observe(&invert::CALL, &case, random)?;
        f = case.rings[0].clone();
        let fault = |fault: &str| compare::describe(&invert::CALL, &case, fault);
        if out.iter().any(|&entry| entry >= m) {
            return Err(fault("an entry of the output is m or more"));
        }
        if verdict == DONE.into() {
            if product(&f, &out, m) != ones(n, 1, 1) {
                return Err(fault("the product is not 1"));
            }
            return Ok((f, out, asked));
        }
        let Some(p) = told(verdict, &out, m) else {
            return Err(fault("neither inverse nor ghost"));
        };
        if product(&f, &out, m) != vec![0; n] {
            return Err(fault("the ghost is heard"));
        }
        f = replaced(&f, p, &any(n, p, random), m);
    }
    Err(format!("no inverse for any of 1,000 patterns, n {n}, m {m}"))
}

/// The prime told, if the output is m / p times a monic polynomial modulo p.
fn told(verdict: Verdict, out: &[u32], m: u32) -> Option<u32> {
    let p = verdict.reply.prime;
    let leading = *out.iter().rfind(|&&entry| entry != 0)?;
    let listed = List::of(m).primes.contains(&p) && verdict == singular(1, p).into();
    let multiple = |entry: &u32| entry.is_multiple_of(m / p);
    (listed && leading == m / p && out.iter().all(multiple)).then_some(p)
}

/// Two patterns, each with its smallest singular prime and its ghost. A pattern that has an inverse
/// changes no ghost when it is a factor, and x^d - 1 and 1 + x^d + x^2d + .. are each other's ghosts. One
/// prime of m is made singular so, and maybe some that are larger.
pub fn singular_patterns(
    unit: &[u32],
    m: u32,
    random: &mut Random,
) -> [(Vec<u32>, u32, Vec<u32>); 2] {
    let n = unit.len();
    let mut divisors = divisors(n as u32, 1);
    divisors.retain(|&d| (d as usize) < n);
    let d = random.one_of(&divisors) as usize;
    let pair = |p: u32| [difference(n, d, 1, p), ones(n, d, n / d)];
    let primes = List::of(m).primes;
    let smallest = random.below(primes.len());
    let p = primes[smallest];
    [0, 1].map(|side| {
        let mut f = unit.to_vec();
        for &q in &primes[smallest..] {
            if q == p || random.below(2) == 0 {
                let unit: Vec<u32> = unit.iter().map(|c| c % q).collect();
                f = replaced(&f, q, &product(&unit, &pair(q)[side], q), m);
            }
        }
        (f, p, pair(p)[1 - side].iter().map(|c| c * (m / p)).collect())
    })
}
