//! One sheet through the C door and through the second implementation.

use super::door::{self, Rooms, Sheet};
use super::fields;
use super::text::Outcome;
use crate::lent::Lent;
use crate::random::Random;

/// Compares both calls. Hands back what the second implementation makes of the sheet.
pub fn agree<'a>(
    sheet: &'a [u8],
    rooms: &Rooms,
    random: &mut Random,
) -> Result<Outcome<'a>, String> {
    let outcome = Outcome::of(sheet);
    demand(sheet, outcome.text().as_deref(), rooms, random)?;
    Ok(outcome)
}

/// Compares reading with the second implementation, and the text with one that is known, if one is.
pub fn demand(
    sheet: &[u8],
    text: Option<&str>,
    rooms: &Rooms,
    random: &mut Random,
) -> Result<(), String> {
    let lent = Lent::input(sheet, random);
    let before = lent.clone();
    let told = reads_alike(sheet, &lent)
        .and_then(|()| text.map_or(Ok(()), |text| prints_alike(&lent, text, rooms, random)));
    let unchanged = if lent == before { Ok(()) } else { Err("the sheet was changed".into()) };
    told.and(unchanged).map_err(|fault| describe(sheet, &fault))
}

fn reads_alike(sheet: &[u8], lent: &Lent<u8>) -> Result<(), String> {
    let (expected, observed) = (Sheet::from(fields::read(sheet)), door::read_sheet(lent));
    if observed != expected {
        return Err(format!("{observed:?}, not {expected:?}"));
    }
    Ok(())
}

fn prints_alike(
    sheet: &Lent<u8>,
    text: &str,
    rooms: &Rooms,
    random: &mut Random,
) -> Result<(), String> {
    let place = random.below(rooms.enough.len());
    fills(sheet, text, &rooms.enough[place])?;
    if random.below(8) == 0 {
        let place = random.below(rooms.short.len());
        fills(sheet, "", &rooms.short[place])?;
    }
    Ok(())
}

/// The text stands at the room's start, and nothing else is touched.
fn fills(sheet: &Lent<u8>, text: &str, room: &Lent<u8>) -> Result<(), String> {
    let (mut observed, mut expected) = (room.clone(), room.clone());
    expected.content_mut()[..text.len()].copy_from_slice(text.as_bytes());
    let length = door::report(sheet, &mut observed);
    let told = observed.content().get(..length).ok_or("a text longer than its room")?;
    if told != text.as_bytes() {
        return Err(difference(told, text.as_bytes()));
    }
    if observed.content() != expected.content() {
        return Err(format!("written into the room after a text of {length} bytes"));
    }
    if observed != expected {
        return Err("written outside the room".into());
    }
    Ok(())
}

/// Both texts around their first difference.
pub fn difference(observed: &[u8], expected: &[u8]) -> String {
    let same = observed.iter().zip(expected).take_while(|(a, b)| a == b).count();
    let shown = |text: &[u8]| {
        let around = &text[same.saturating_sub(20)..text.len().min(same + 60)];
        String::from_utf8_lossy(around).into_owned()
    };
    format!("at byte {same} of the text {:?}, not {:?}", shown(observed), shown(expected))
}

pub fn describe(sheet: &[u8], fault: &str) -> String {
    const SHOWN: usize = 500;
    let hex: String = sheet.iter().take(SHOWN).map(|byte| format!("{byte:02x}")).collect();
    format!("{fault}\nsheet of {} bytes: {hex}", sheet.len())
}
