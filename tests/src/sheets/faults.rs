//! Faults of a sheet: of its fields before it is written, and of its bytes afterwards.

use super::draft::{written, Draft};
use crate::random::Random;

/// The sheet with one fault or more.
pub fn spoilt(draft: &Draft, random: &mut Random) -> Vec<u8> {
    let mut draft = draft.clone();
    let (of_fields, of_bytes) = random.one_of(&[(1, 0), (1, 0), (2, 0), (2, 0), (0, 1), (1, 1)]);
    (0..of_fields).for_each(|_| random.one_of(&OF_FIELDS)(&mut draft, random));
    let sheet = written(&draft);
    (0..of_bytes).fold(sheet, |sheet, _| random.one_of(&OF_BYTES)(&sheet, random))
}

type OfFields = fn(&mut Draft, &mut Random);
type OfBytes = fn(&[u8], &mut Random) -> Vec<u8>;

const OF_FIELDS: [OfFields; 8] = [
    other_tag,
    other_length,
    other_length,
    other_size,
    missing_field,
    repeated_field,
    exchanged_fields,
    other_version,
];

const OF_BYTES: [OfBytes; 8] = [
    cut,
    cut,
    further_bytes,
    further_bytes,
    flipped_bits,
    other_byte,
    dropped_or_inserted_byte,
    any_bytes,
];

fn other_tag(draft: &mut Draft, random: &mut Random) {
    if let Some(place) = any_place(draft, random) {
        let any = random.word() as u8;
        draft[place].tag = random.one_of(&[0, 1, 2, 3, 4, 5, 6, 7, 128, 255, any, any]);
    }
}

/// In the header only: the value stays, so that it ends elsewhere than the header says.
fn other_length(draft: &mut Draft, random: &mut Random) {
    if let Some(place) = any_place(draft, random) {
        draft[place].length = length_beside(draft[place].length, random);
    }
}

/// In header and value: nothing else is wrong by it.
fn other_size(draft: &mut Draft, random: &mut Random) {
    const MOST: u16 = 4_200;
    if let Some(place) = any_place(draft, random) {
        let length = length_beside(draft[place].length, random).min(MOST);
        let fill = random.word() as u8;
        draft[place].resize(length, random.one_of(&[0, 0, fill]));
    }
}

/// Off by one, by an entry, or by far; at a limit or just above; with its bytes exchanged.
fn length_beside(length: u16, random: &mut Random) -> u16 {
    let any = random.word() as u16;
    let step = random.one_of(&[1, 1, 4, 5]);
    let near = [length.wrapping_sub(step), length.wrapping_add(step)];
    let limits = [0, 1, 4, 35, 36, 40, 4_096, 4_097, 4_100, u16::MAX];
    match random.below(8) {
        0..4 => random.one_of(&near),
        4 | 5 => random.one_of(&limits),
        6 => length.swap_bytes(),
        _ => any >> random.below(16),
    }
}

fn missing_field(draft: &mut Draft, random: &mut Random) {
    for _ in 0..1 + random.below(2) {
        if let Some(place) = any_place(draft, random) {
            draft.remove(place);
        }
    }
}

fn repeated_field(draft: &mut Draft, random: &mut Random) {
    if let Some(place) = any_place(draft, random) {
        let field = draft[place].clone();
        let anywhere = random.below(draft.len() + 1);
        let to = random.one_of(&[place, draft.len(), anywhere]);
        draft.insert(to, field);
    }
}

fn exchanged_fields(draft: &mut Draft, random: &mut Random) {
    if let Some(place) = any_place(draft, random) {
        let other = random.below(draft.len());
        draft.swap(place, other);
    }
}

fn other_version(draft: &mut Draft, random: &mut Random) {
    if let Some(field) = draft.iter_mut().find(|field| field.tag == 1) {
        let any = random.word() as u8;
        field.value.fill(random.one_of(&[0, 2, 3, 255, any]));
    }
}

/// Anywhere, or near the end.
fn cut(sheet: &[u8], random: &mut Random) -> Vec<u8> {
    let anywhere = random.below(sheet.len() + 1);
    let near_the_end = sheet.len().saturating_sub(random.below(16));
    sheet[..random.one_of(&[anywhere, near_the_end])].to_vec()
}

/// A few, many, or so many that the sheet is longer than any right one.
fn further_bytes(sheet: &[u8], random: &mut Random) -> Vec<u8> {
    let many = 4 + random.below(60);
    let oversize = (8_240 + random.below(20)).saturating_sub(sheet.len());
    let few = random.one_of(&[1, 2, 3, many]);
    let count = if random.below(32) == 0 { oversize } else { few };
    let most = random.one_of(&[1, 8, 256, 256]);
    [sheet, &bytes_below(most, count, random)].concat()
}

fn flipped_bits(sheet: &[u8], random: &mut Random) -> Vec<u8> {
    let mut sheet = sheet.to_vec();
    for _ in 0..1 + random.below(3) {
        if let Some(place) = any_place(&sheet, random) {
            sheet[place] ^= 1 << random.below(8);
        }
    }
    sheet
}

fn other_byte(sheet: &[u8], random: &mut Random) -> Vec<u8> {
    let mut sheet = sheet.to_vec();
    if let Some(place) = any_place(&sheet, random) {
        sheet[place] = random.word() as u8;
    }
    sheet
}

fn dropped_or_inserted_byte(sheet: &[u8], random: &mut Random) -> Vec<u8> {
    let mut sheet = sheet.to_vec();
    let place = random.below(sheet.len() + 1);
    if random.below(2) == 0 || place == sheet.len() {
        sheet.insert(place, random.below(8) as u8);
    } else {
        sheet.remove(place);
    }
    sheet
}

/// Nothing stays; small bytes look more like tags and lengths.
fn any_bytes(_: &[u8], random: &mut Random) -> Vec<u8> {
    let (most, count) = (random.one_of(&[2, 6, 256]), random.below(60));
    bytes_below(most, count, random)
}

fn bytes_below(bound: usize, count: usize, random: &mut Random) -> Vec<u8> {
    (0..count).map(|_| random.below(bound) as u8).collect()
}

fn any_place<T>(items: &[T], random: &mut Random) -> Option<usize> {
    (!items.is_empty()).then(|| random.below(items.len()))
}
