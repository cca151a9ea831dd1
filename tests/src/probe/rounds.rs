use super::door;
use crate::counts::Counts;
use crate::parts::Part;
use crate::random::Random;

pub const PART: Part = Part {
    name: "rounds",
    kinds: &[("a power of two", 32), ("one above a power of two", 32), ("32 rounds", 1_000)],
    compare,
};

const EXHAUSTIVE: u32 = 1 << 16;
const WORDS: usize = 100_000;

fn compare(counts: &mut Counts, random: &mut Random) -> Result<(), String> {
    let around_powers = (0..32).flat_map(|i| {
        let power = 1u32 << i;
        [power - 1, power, power + 1]
    });
    let words = (0..WORDS).map(|_| (random.word() as u32) >> random.below(32));
    let ks: Vec<u32> =
        (0..=EXHAUSTIVE).chain(around_powers).chain([u32::MAX]).chain(words).collect();
    for k in ks {
        let (expected, observed) = (least_count(k), door::rounds(k));
        if observed != expected {
            return Err(format!("{observed} rounds for {k}, not {expected}"));
        }
        counts.answers += 1;
        counts.meet_if(k.is_power_of_two(), "a power of two");
        counts.meet_if(k > 0 && (k - 1).is_power_of_two(), "one above a power of two");
        counts.meet_if(expected == 32, "32 rounds");
    }
    Ok(())
}

/// "the smallest count c with 2^c at least k"
fn least_count(k: u32) -> u32 {
    let mut c = 0;
    while 2u64.pow(c) < u64::from(k) {
        c += 1;
    }
    c
}
