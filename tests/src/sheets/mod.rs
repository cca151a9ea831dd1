//! Pattern sheets, read and reported through the C door.

use crate::counts::Counts;
use crate::parts::Part;
use crate::random::Random;
use agree::agree;
pub use agree::{describe, difference};
use door::Rooms;
use draw::Contents;
use std::time::{Duration, Instant};

mod agree;
mod door;
mod draft;
pub mod draw;
mod every;
mod faults;
mod fields;
pub mod figures;
mod kinds;
mod lists;
pub mod long;
pub mod text;

pub const ALL: [Part; 4] = [DRAWN, lists::PART, every::PART, long::PART];

const DRAWN: Part = Part { name: "sheets", kinds: kinds::KINDS, compare };
const SHEETS: usize = 600_000;
const BETWEEN_LINES: Duration = Duration::from_secs(10);

fn compare(counts: &mut Counts, random: &mut Random) -> Result<(), String> {
    let (rooms, contents) = (Rooms::new(random), Contents::new());
    for (sheet, text) in figures::figures() {
        agree::demand(&sheet, Some(&text), &rooms, random)?;
        counted(&sheet, &rooms, counts, random)?;
    }
    while counts.answers < SHEETS {
        family(&contents, &rooms, counts, random)?;
    }
    Ok(())
}

/// About so many drawn sheets, with a line of progress from time to time.
pub fn run_long(sheets: usize, random: &mut Random) -> Result<usize, String> {
    let (rooms, contents) = (Rooms::new(random), Contents::new());
    let mut counts = Counts::new(&DRAWN);
    let started = Instant::now();
    let mut next_line = BETWEEN_LINES;
    while counts.answers < sheets {
        family(&contents, &rooms, &mut counts, random)?;
        if started.elapsed() >= next_line {
            println!("{} sheets in {} s", counts.answers, started.elapsed().as_secs());
            next_line += BETWEEN_LINES;
        }
    }
    print!("\n{}{counts}", Counts::head());
    match counts.too_seldom() {
        Some(kind) if sheets >= SHEETS => Err(format!("\"{kind}\" was met too seldom")),
        _ => Ok(counts.answers),
    }
}

fn family(
    contents: &Contents,
    rooms: &Rooms,
    counts: &mut Counts,
    random: &mut Random,
) -> Result<(), String> {
    contents.family(random).iter().try_for_each(|sheet| counted(sheet, rooms, counts, random))
}

fn counted(
    sheet: &[u8],
    rooms: &Rooms,
    counts: &mut Counts,
    random: &mut Random,
) -> Result<(), String> {
    let outcome = agree(sheet, rooms, random)?;
    kinds::count(sheet, &outcome, counts);
    Ok(())
}
