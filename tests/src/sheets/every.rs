//! Every single fault of a few sheets: each cut, bit, tag, version and length, each order of the
//! fields, and each beginning of what may follow.

use super::agree::agree;
use super::door::Rooms;
use super::draft::{self, written, Draft, Field};
use crate::calls::{invert, unmix};
use crate::counts::Counts;
use crate::parts::Part;
use crate::random::Random;

pub const PART: Part = Part {
    name: "every",
    kinds: &[
        ("cut", 1_000),
        ("bit", 8_000),
        ("further bytes", 5_000),
        ("tag", 6_000),
        ("length", 1_500_000),
        ("length and value", 2_000),
        ("version", 1_000),
        ("order", 80_000),
    ],
    compare,
};

fn compare(counts: &mut Counts, random: &mut Random) -> Result<(), String> {
    let rooms = Rooms::new(random);
    for draft in drafts() {
        for (kind, sheets) in faults(&draft) {
            for sheet in sheets {
                agree(&sheet, &rooms, random).map_err(|fault| format!("{kind}: {fault}"))?;
                counts.answers += 1;
                counts.meet(kind);
            }
        }
    }
    Ok(())
}

type Sheets<'a> = Box<dyn Iterator<Item = Vec<u8>> + 'a>;

fn faults(draft: &Draft) -> [(&'static str, Sheets<'_>); 8] {
    [
        ("cut", Box::new(cuts(draft))),
        ("bit", Box::new(bits(draft))),
        ("further bytes", Box::new(further_bytes(draft))),
        ("tag", Box::new(tags(draft))),
        ("length", Box::new(lengths(draft))),
        ("length and value", Box::new(sizes(draft))),
        ("version", Box::new(versions(draft))),
        ("order", Box::new(orders(draft))),
    ]
}

/// Document 01's whole case, without readings and with; an empty pattern; and a pattern whose length
/// takes two bytes, with an entry that spares elimination.
fn drafts() -> Vec<Draft> {
    let (f, y) = (vec![1, 2, 0], vec![1, 2, 5]);
    let long: Vec<u32> = (0..100).map(|place| place * 0x0102_0304).collect();
    let cases = [
        invert::of(f.clone(), 10),
        unmix::of(f, y, 10),
        unmix::of(vec![], vec![], 510_510),
        unmix::of(vec![3], vec![4], 1_000),
        unmix::of(long.clone(), long, 720_720),
    ];
    cases.iter().map(draft::of).collect()
}

fn cuts(draft: &Draft) -> impl Iterator<Item = Vec<u8>> {
    let sheet = written(draft);
    (0..=sheet.len()).map(move |length| sheet[..length].to_vec())
}

fn bits(draft: &Draft) -> impl Iterator<Item = Vec<u8>> {
    let sheet = written(draft);
    (0..8 * sheet.len()).map(move |bit| {
        let mut sheet = sheet.clone();
        sheet[bit / 8] ^= 1 << (bit % 8);
        sheet
    })
}

/// Up to four bytes more, the first one being any.
fn further_bytes(draft: &Draft) -> impl Iterator<Item = Vec<u8>> {
    let sheet = written(draft);
    (0..4 * 256).map(move |choice| {
        let first = (choice / 4) as u8;
        [&sheet[..], &[first, 0, 0, 1][..1 + choice % 4]].concat()
    })
}

fn tags(draft: &Draft) -> impl Iterator<Item = Vec<u8>> + '_ {
    in_each_field(draft, 0..=u8::MAX, |field, tag| field.tag = tag)
}

/// In the header only.
fn lengths(draft: &Draft) -> impl Iterator<Item = Vec<u8>> + '_ {
    in_each_field(draft, 0..=u16::MAX, |field, length| field.length = length)
}

/// In header and value.
fn sizes(draft: &Draft) -> impl Iterator<Item = Vec<u8>> + '_ {
    let lengths = (0..=80).chain(4_090..=4_104).chain([8_192, u16::MAX]);
    in_each_field(draft, lengths, |field, length| field.resize(length, 0xff))
}

fn in_each_field<'a, T: Copy + 'a>(
    draft: &'a Draft,
    choices: impl Iterator<Item = T> + Clone + 'a,
    change: fn(&mut Field, T),
) -> impl Iterator<Item = Vec<u8>> + 'a {
    let changed = move |place: usize, choice: T| {
        let mut draft = draft.clone();
        change(&mut draft[place], choice);
        written(&draft)
    };
    let places = 0..draft.len();
    places.flat_map(move |place| choices.clone().map(move |choice| changed(place, choice)))
}

/// The value of the first field.
fn versions(draft: &Draft) -> impl Iterator<Item = Vec<u8>> {
    let sheet = written(draft);
    (0..=u8::MAX).map(move |version| {
        let mut sheet = sheet.clone();
        sheet[3] = version;
        sheet
    })
}

/// Every sequence of up to five fields, each one of the draft's or an unknown one.
fn orders(draft: &Draft) -> impl Iterator<Item = Vec<u8>> {
    let unknown = [Field::new(0, vec![]), Field::new(6, vec![7; 4])];
    let choices: Vec<Field> = draft.iter().cloned().chain(unknown).collect();
    let sequences = (0..=5).flat_map({
        let count = choices.len();
        move |length| (0..count.pow(length)).map(move |number| (length, number))
    });
    sequences.map(move |(length, number)| {
        let digit = |place| number / choices.len().pow(place) % choices.len();
        let fields: Vec<Field> = (0..length).map(|place| choices[digit(place)].clone()).collect();
        written(&fields)
    })
}
