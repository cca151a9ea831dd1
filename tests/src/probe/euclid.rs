use super::door::{self, Kind, Outcome};
use crate::calls::mix::product;
use crate::circulant::{solve, Solution};
use crate::counts::Counts;
use crate::draw::{any_words, divisors, other_length};
use crate::parts::Part;
use crate::patterns::{self, difference, ones, Pattern};
use crate::primes::PRIMES;
use crate::random::Random;

/// A reason to refuse is counted where it is the only one.
pub const PART: Part = Part {
    name: "euclid",
    kinds: &[
        ("all patterns, inverse", 10_000),
        ("all patterns, ghost", 10_000),
        ("drawn, inverse", 5_000),
        ("drawn, ghost", 5_000),
        ("n above 64, inverse", 100),
        ("n above 64, ghost", 100),
        ("n above 256, inverse", 10),
        ("n above 256, ghost", 10),
        ("ghost, f zero", 100),
        ("ghost, f(1) not zero", 1_000),
        ("ghost, p divides n", 500),
        ("ghost of degree n - 1", 500),
        ("inverse, f a constant but not 1", 50),
        ("refused, n is 0 or above 1,024", 200),
        ("refused, p is not a prime", 200),
        ("refused, p is above 1,000,000", 200),
        ("refused, a coefficient is p or more", 200),
        ("refused, the output's length is not n", 200),
        ("refused, two faults or more", 200),
    ],
    compare,
};

/// All patterns of at most so many coefficients modulo these primes.
const EXHAUSTIVE: [(u32, usize); 5] = [(2, 12), (3, 8), (5, 5), (7, 4), (11, 3)];
const DRAWN: usize = 20_000;
const LARGE: [usize; 8] = [144, 160, 173, 192, 210, 243, 255, 256];
const LARGEST: [usize; 7] = [257, 343, 512, 720, 1_000, 1_021, 1_024];
const REFUSED: usize = 5_000;

fn compare(counts: &mut Counts, random: &mut Random) -> Result<(), String> {
    for (pattern, written) in figures() {
        if agree(&pattern, counts, random)? != written {
            return Err(describe(&pattern, "written down otherwise"));
        }
    }
    for (p, most) in EXHAUSTIVE {
        for n in 1..=most {
            all_patterns(n, p, counts, random)?;
        }
    }
    let primes = PRIMES.below(1_000_000);
    for _ in 0..DRAWN {
        let n = length(random);
        drawn(n, prime(n, &primes, random), counts, random)?;
    }
    for n in LARGE {
        drawn(n, prime(n, &primes, random), counts, random)?;
    }
    for n in LARGEST {
        for p in [2, 3, 17, 999_983] {
            by_products(n, p, counts, random)?;
        }
    }
    for _ in 0..REFUSED {
        refused(&primes, counts, random)?;
    }
    if counts.met("drawn, ghost") * 4 < counts.met("drawn, inverse") + counts.met("drawn, ghost") {
        return Err("fewer than a quarter of the drawn patterns are singular".into());
    }
    Ok(())
}

/// Document 01's figures, as far as they are about one prime.
fn figures() -> Vec<(Pattern, Solution)> {
    let pattern = |f: &[u32], p| Pattern { f: f.to_vec(), p };
    vec![
        (pattern(&[1, 1, 0], 5), Solution::Inverse(vec![3, 2, 3])),
        (pattern(&[1, 1], 2), Solution::Ghost(vec![1, 1])),
        (pattern(&[1, 1, 0], 2), Solution::Ghost(vec![1, 1, 1])),
        (pattern(&[1, 1, 1], 2), Solution::Ghost(vec![1, 1, 0])),
        (pattern(&[3, 2, 0], 5), Solution::Ghost(vec![1, 1, 1])),
        (pattern(&[0], 2), Solution::Ghost(vec![1])),
    ]
}

/// Counts through all of them, the coefficients being the digits.
fn all_patterns(n: usize, p: u32, counts: &mut Counts, random: &mut Random) -> Result<(), String> {
    for number in 0..p.pow(n as u32) {
        let f = (0..n as u32).map(|place| number / p.pow(place) % p).collect();
        match agree(&Pattern { f, p }, counts, random)? {
            Solution::Inverse(_) => counts.meet("all patterns, inverse"),
            Solution::Ghost(_) => counts.meet("all patterns, ghost"),
        }
    }
    Ok(())
}

fn drawn(n: usize, p: u32, counts: &mut Counts, random: &mut Random) -> Result<(), String> {
    match agree(&patterns::draw(n, p, random), counts, random)? {
        Solution::Inverse(_) => counts.meet("drawn, inverse"),
        Solution::Ghost(_) => counts.meet("drawn, ghost"),
    }
    Ok(())
}

/// Compares with the elimination.
fn agree(pattern: &Pattern, counts: &mut Counts, random: &mut Random) -> Result<Solution, String> {
    let solution = solve(&pattern.f, pattern.p);
    demand(pattern, &solution, counts, random)?;
    Ok(solution)
}

fn demand(
    pattern: &Pattern,
    solution: &Solution,
    counts: &mut Counts,
    random: &mut Random,
) -> Result<(), String> {
    let expected = match solution {
        Solution::Inverse(g) => (Outcome::new(Kind::Inverse, 0), g.clone()),
        Solution::Ghost(w) => (Outcome::new(Kind::Shares, w.len() - degree(w)), w.clone()),
    };
    let observed = observe(pattern, &any_words(pattern.f.len(), random), random)?;
    if observed != expected {
        return Err(describe(pattern, &format!("{observed:?}, not {expected:?}")));
    }
    counts.answers += 1;
    count(pattern, solution, counts);
    Ok(())
}

fn count(pattern: &Pattern, solution: &Solution, counts: &mut Counts) {
    let Pattern { f, p } = pattern;
    let n = f.len();
    match solution {
        Solution::Inverse(_) => {
            let constant = f[0] > 1 && f[1..].iter().all(|&c| c == 0);
            counts.meet_if(constant, "inverse, f a constant but not 1");
            counts.meet_if(n > 64, "n above 64, inverse");
            counts.meet_if(n > 256, "n above 256, inverse");
        }
        Solution::Ghost(w) => {
            let at_one = f.iter().map(|&c| u64::from(c)).sum::<u64>() % u64::from(*p);
            counts.meet_if(f.iter().all(|&c| c == 0), "ghost, f zero");
            counts.meet_if(at_one != 0, "ghost, f(1) not zero");
            counts.meet_if(n.is_multiple_of(*p as usize), "ghost, p divides n");
            counts.meet_if(n > 1 && degree(w) == n - 1, "ghost of degree n - 1");
            counts.meet_if(n > 64, "n above 64, ghost");
            counts.meet_if(n > 256, "n above 256, ghost");
        }
    }
}

/// Where elimination takes too long. A pattern that has an inverse changes no ghost when it is a
/// factor, and x^d - 1 and 1 + x^d + x^2d + .. are each other's ghosts.
fn by_products(n: usize, p: u32, counts: &mut Counts, random: &mut Random) -> Result<(), String> {
    let unit = unit(n, p, counts, random)?;
    let mut divisors = divisors(n as u32, 1);
    divisors.retain(|&d| (d as usize) < n);
    for d in [1, random.one_of(&divisors) as usize] {
        let (short, long) = (difference(n, d, 1, p), ones(n, d, n / d));
        for (f, w) in [(&short, &long), (&long, &short)] {
            let pattern = Pattern { f: product(f, &unit, p), p };
            demand(&pattern, &Solution::Ghost(w.clone()), counts, random)?;
        }
    }
    Ok(())
}

/// A pattern with an inverse: of those drawn the first for which one is answered.
fn unit(n: usize, p: u32, counts: &mut Counts, random: &mut Random) -> Result<Vec<u32>, String> {
    for _ in 0..100 {
        let pattern = Pattern { f: patterns::any(n, p, random), p };
        let (outcome, answer) = observe(&pattern, &any_words(n, random), random)?;
        let inverse = outcome.kind == Kind::Inverse as u32;
        let expected = if inverse { ones(n, 1, 1) } else { vec![0; n] };
        let in_range = answer.iter().all(|&c| c < p) && answer.iter().any(|&c| c != 0);
        if !in_range || product(&pattern.f, &answer, p) != expected {
            return Err(describe(&pattern, "neither inverse nor ghost"));
        }
        counts.answers += 1;
        if inverse {
            count(&pattern, &Solution::Inverse(answer), counts);
            return Ok(pattern.f);
        }
    }
    Err(format!("no inverse for any of 100 patterns, n {n}, p {p}"))
}

/// One or two of the faults, each of which is examined by itself to count it.
fn refused(primes: &[u32], counts: &mut Counts, random: &mut Random) -> Result<(), String> {
    let (n, p) = (1 + random.below(64), random.one_of(primes));
    let mut pattern = patterns::draw(n, p, random);
    let mut room = n;
    for _ in 0..1 + random.below(2) {
        match random.below(5) {
            0 => {
                let n = random.one_of(&[0, 0, 1_025, 1_026, 2_048]);
                (pattern.f, room) = (vec![0; n], n);
            }
            1 => {
                pattern.p = composite(primes, random);
                pattern.f.iter_mut().for_each(|c| *c %= pattern.p.max(1));
            }
            2 => pattern.p = random.one_of(&[1_000_003, 2_147_483_647, u32::MAX - 4]),
            3 => spoil_coefficient(&mut pattern, random),
            _ => room = other_length(pattern.f.len(), random),
        }
    }
    let out = any_words(room, random);
    let faults = faults(&pattern, room, primes);
    if faults.is_empty() {
        return Ok(());
    }
    let observed = observe(&pattern, &out, random)?;
    if observed != (Outcome::new(Kind::Refused, 0), out) {
        let fault = format!("{:?}, though {faults:?}, room {room}", observed.0);
        return Err(describe(&pattern, &fault));
    }
    counts.answers += 1;
    match faults[..] {
        [only] => counts.meet(only),
        _ => counts.meet("refused, two faults or more"),
    }
    Ok(())
}

fn faults(pattern: &Pattern, room: usize, primes: &[u32]) -> Vec<&'static str> {
    let Pattern { f, p } = pattern;
    let above = *p > 1_000_000;
    let faults = [
        (!(1..=1_024).contains(&f.len())).then_some("refused, n is 0 or above 1,024"),
        above.then_some("refused, p is above 1,000,000"),
        (!above && primes.binary_search(p).is_err()).then_some("refused, p is not a prime"),
        f.iter().any(|c| c >= p).then_some("refused, a coefficient is p or more"),
        (room != f.len()).then_some("refused, the output's length is not n"),
    ];
    faults.into_iter().flatten().collect()
}

/// 0, 1, or a number that is not a prime, with coefficients below it as a rule.
fn composite(primes: &[u32], random: &mut Random) -> u32 {
    let (p, q) = (random.one_of(&primes[..100]), random.one_of(&primes[..100]));
    random.one_of(&[0, 1, 4, 561, 999_999, 1_000_000, p * p, p * q])
}

fn spoil_coefficient(pattern: &mut Pattern, random: &mut Random) {
    if !pattern.f.is_empty() {
        let last = pattern.f.len() - 1;
        let anywhere = random.below(last + 1);
        let place = random.one_of(&[0, last, anywhere]);
        pattern.f[place] = random.one_of(&[pattern.p, pattern.p.saturating_add(1), u32::MAX]);
    }
}

fn length(random: &mut Random) -> usize {
    match random.below(100) {
        0 => 65 + random.below(64),
        1 => random.one_of(&[72, 80, 81, 85, 96, 100, 105, 120, 121, 125, 127, 128]),
        2..10 => 25 + random.below(40),
        10..40 => random.one_of(&[2, 3, 4, 6, 7, 8, 9, 12, 15, 16, 17, 18, 20, 21, 24]),
        _ => 1 + random.below(24),
    }
}

/// Small ones, large ones, any, and such that x^n - 1 has n roots.
fn prime(n: usize, primes: &[u32], random: &mut Random) -> u32 {
    let splits = |p: &u32| (*p as usize - 1).is_multiple_of(n);
    match random.below(4) {
        0 => random.one_of(primes),
        1 => {
            let from = random.below(primes.len() / 2);
            primes[from..].iter().copied().find(splits).unwrap_or(999_983)
        }
        _ => random.one_of(&[2, 3, 5, 7, 17, 251, 65_537, 999_983]),
    }
}

fn degree(w: &[u32]) -> usize {
    w.iter().rposition(|&c| c != 0).unwrap()
}

fn observe(
    pattern: &Pattern,
    out: &[u32],
    random: &mut Random,
) -> Result<(Outcome, Vec<u32>), String> {
    door::euclid(&pattern.f, pattern.p, out, random).map_err(|fault| describe(pattern, &fault))
}

fn describe(pattern: &Pattern, fault: &str) -> String {
    let mut text = format!("n {}, p {}, {:?}", pattern.f.len(), pattern.p, pattern.f);
    text.truncate(1_000);
    format!("{fault}\n{text}")
}
