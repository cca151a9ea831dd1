//! Sheets with patterns of up to 1,024 entries, whose text is known without elimination.

use super::agree;
use super::door::Rooms;
use super::figures::{figure, sheet_of, Figure};
use super::text::Finding;
use crate::calls::mix::product;
use crate::calls::{invert, unmix};
use crate::counts::Counts;
use crate::draw::{legal_modulus, ring};
use crate::large::{singular_patterns, unit};
use crate::parts::Part;
use crate::patterns::{any, ones};
use crate::random::Random;

pub const PART: Part = Part {
    name: "long",
    kinds: &[
        ("inverse", 200),
        ("counts", 100),
        ("ghost", 400),
        ("1,024 entries", 20),
        ("the longest text there is", 1),
    ],
    compare,
};

const DRAWN: usize = 100;
const LENGTHS: [usize; 7] = [257, 512, 720, 1_000, 1_021, 1_023, 1_024];
const MODULI: [u32; 4] = [1 << 19, 510_510, 999_983, 1_000_000];

fn compare(counts: &mut Counts, random: &mut Random) -> Result<(), String> {
    let mut figures = vec![longest(random)?];
    figures.extend(limits());
    for _ in 0..DRAWN {
        figures.extend(known(65 + random.below(192), legal_modulus(random), random)?);
    }
    for n in LENGTHS {
        for m in MODULI {
            figures.extend(known(n, m, random)?);
        }
    }
    let rooms = Rooms::new(random);
    for (sheet, text) in figures {
        agree::demand(&sheet, Some(&text), &rooms, random)?;
        count(&text, counts);
    }
    Ok(())
}

fn count(text: &str, counts: &mut Counts) {
    const LONGEST: usize = "ring 1024 modulus 1000000 inverse counts ".len() + 2 * 1_024 * 7;
    counts.answers += 1;
    counts.meet_if(text.contains("inverse"), "inverse");
    counts.meet_if(text.contains("counts"), "counts");
    counts.meet_if(text.contains("ghost"), "ghost");
    counts.meet_if(text.starts_with("ring 1024 "), "1,024 entries");
    counts.meet_if(text.len() == LONGEST, "the longest text there is");
}

/// A pattern with an inverse and two singular ones, each without readings and with.
pub fn known(n: usize, m: u32, random: &mut Random) -> Result<Vec<Figure>, String> {
    let (f, g, _) = unit(any(n, m, random), m, random)?;
    let counts = ring(n, m, random);
    let readings = product(&f, &counts, m);
    let mut figures = vec![
        figure(&invert::of(f.clone(), m), &Finding::Inverse(g.clone(), None)),
        figure(&unmix::of(f.clone(), readings, m), &Finding::Inverse(g, Some(counts))),
    ];
    for (f, p, ghost) in singular_patterns(&f, m, random) {
        let finding = Finding::Singular(p, ghost);
        figures.push(figure(&invert::of(f.clone(), m), &finding));
        figures.push(figure(&unmix::of(f, ring(n, m, random), m), &finding));
    }
    Ok(figures)
}

/// 1,024 entries pass, and 1,025 do not fit a sheet.
fn limits() -> [Figure; 2] {
    let one = |n| invert::of(ones(n, 1, 1), 10);
    let inverse = Finding::Inverse(ones(1_024, 1, 1), None);
    [figure(&one(1_024), &inverse), (sheet_of(&one(1_025)), "refused 22 at 24\n".into())]
}

/// All entries of inverse and counts have six digits.
fn longest(random: &mut Random) -> Result<Figure, String> {
    let (n, m) = (1_024, 1_000_000);
    let six_digits = |random: &mut Random| -> Vec<u32> {
        (0..n).map(|_| random.between(100_000, m - 1)).collect()
    };
    let counts = six_digits(random);
    loop {
        let wanted = six_digits(random);
        let (g, f, _) = unit(wanted.clone(), m, random)?;
        if g == wanted {
            let readings = product(&f, &counts, m);
            let finding = Finding::Inverse(g, Some(counts));
            return Ok(figure(&unmix::of(f, readings, m), &finding));
        }
    }
}
