//! The two calls of the C door that take a sheet, as include/dowelbrook.h declares them.

use super::fields::{Field, Parts, Refusal};
use crate::door::Reply;
use crate::lent::Lent;
use crate::random::Random;

/// A room for a text has at least so many bytes.
const TEXT: usize = 16_512;

#[repr(C)]
#[derive(Clone, Copy, Debug, Default, PartialEq, Eq)]
pub struct Part {
    from: usize,
    len: usize,
}

#[repr(C)]
#[derive(Clone, Copy, Debug, Default, PartialEq, Eq)]
pub struct Sheet {
    number: u32,
    modulus: u32,
    place: usize,
    factors: Part,
    pattern: Part,
    /// 1 if there are some, else 0.
    readings_present: usize,
    readings: Part,
}

impl From<&Field<'_>> for Part {
    fn from(field: &Field) -> Part {
        Part { from: field.value_at(), len: field.value().len() }
    }
}

impl From<Result<Parts<'_>, Refusal<'_>>> for Sheet {
    fn from(read: Result<Parts, Refusal>) -> Sheet {
        match read {
            Ok(parts) => Sheet {
                modulus: parts.modulus,
                factors: (&parts.factors).into(),
                pattern: (&parts.pattern).into(),
                readings_present: parts.readings.iter().count(),
                readings: parts.readings.as_ref().map_or(Part::default(), Part::from),
                ..Sheet::default()
            },
            Err(refusal) => {
                let Reply { number, place, .. } = refusal.reply();
                Sheet { number, place, ..Sheet::default() }
            }
        }
    }
}

extern "C" {
    fn dowelbrook_read_sheet(sheet: *const u8, sheet_len: usize) -> Sheet;

    fn dowelbrook_report(
        sheet: *const u8,
        sheet_len: usize,
        text: *mut u8,
        text_len: usize,
    ) -> usize;
}

pub fn read_sheet(sheet: &Lent<u8>) -> Sheet {
    let sheet = sheet.content();
    // The pointer goes with its slice's length.
    unsafe { dowelbrook_read_sheet(sheet.as_ptr(), sheet.len()) }
}

pub fn report(sheet: &Lent<u8>, room: &mut Lent<u8>) -> usize {
    let (sheet, text) = (sheet.content(), room.content_mut());
    // Each pointer goes with its slice's length, and the output is a buffer of its own.
    unsafe { dowelbrook_report(sheet.as_ptr(), sheet.len(), text.as_mut_ptr(), text.len()) }
}

/// Rooms for a text, as they come. They are drawn once, since that takes longer than a call.
pub struct Rooms {
    pub enough: Vec<Lent<u8>>,
    pub short: Vec<Lent<u8>>,
}

impl Rooms {
    pub fn new(random: &mut Random) -> Self {
        let mut rooms = |lengths: &[usize]| lengths.iter().map(|&n| room(n, random)).collect();
        Rooms {
            enough: rooms(&[TEXT, TEXT, TEXT, TEXT, TEXT + 1, TEXT + 100, 2 * TEXT]),
            short: rooms(&[0, 1, 10, 13, 20, 30, 50, 100, 1_000, TEXT - 1, TEXT - 1]),
        }
    }
}

fn room(length: usize, random: &mut Random) -> Lent<u8> {
    let bytes: Vec<u8> = (0..length).map(|_| random.word() as u8).collect();
    Lent::new(&bytes, random)
}
