//! Document 01's figures as sheets, with the text that is written down for them.

use super::draft;
use super::text::{printed, Finding};
use crate::calls::{invert, unmix};
use crate::case::Case;
use crate::factors;
use crate::patterns::ones;

pub type Figure = (Vec<u8>, String);

/// The whole case of document 01, word for word.
const WHOLE: &str = "01 0001 01, 02 0004 0000000A, 03 000A 00000002 01 00000005 01, \
                     04 000C 00000001 00000002 00000000, 05 000C 00000001 00000002 00000005";

pub fn figures() -> Vec<Figure> {
    let sheets = sheets().into_iter().map(|(hex, text)| (bytes(hex), text.to_string()));
    let cases = cases().into_iter().map(|(case, text)| (sheet_of(&case), text.to_string()));
    sheets.chain(cases).chain(longer()).chain(patterns()).chain(lists()).collect()
}

fn bytes(hex: &str) -> Vec<u8> {
    let digits: Vec<u32> = hex.chars().filter_map(|digit| digit.to_digit(16)).collect();
    digits.chunks(2).map(|pair| (pair[0] * 16 + pair[1]) as u8).collect()
}

pub fn sheet_of(case: &Case) -> Vec<u8> {
    draft::written(&draft::of(case))
}

pub fn figure(case: &Case, finding: &Finding) -> Figure {
    (sheet_of(case), printed(case, finding).unwrap())
}

fn sheets() -> [(&'static str, &'static str); 20] {
    [
        (WHOLE, "ring 3 modulus 10\ninverse 9 2 6\ncounts 1 0 5\n"),
        ("", "refused 23 at 0\n"),
        ("01", "refused 20 at 0\n"),
        ("01 00", "refused 20 at 0\n"),
        ("09 00", "refused 20 at 0\n"),
        ("01 0001", "refused 20 at 0\n"),
        ("01 0001 02", "refused 24 at 0\n"),
        ("01 0000", "refused 22 at 0\n"),
        ("01 0100 01", "refused 22 at 0\n"),
        // A wrong length that is also cut.
        ("01 0002 01", "refused 22 at 0\n"),
        // An unknown tag where required ones are missing.
        ("06 0000", "refused 21 at 0\n"),
        ("00 0001 01", "refused 21 at 0\n"),
        ("02 0004 0000000A", "refused 23 at 0\n"),
        ("05 0001", "refused 23 at 0\n"),
        ("01 0001 01", "refused 23 at 4\n"),
        ("01 0001 01, 01 0001 01", "refused 21 at 4\n"),
        ("01 0001 01, 03 0001 00", "refused 23 at 4\n"),
        ("01 0001 01, 02 0004 00000001, 03 0000, 04 0000", "refused 1\n"),
        ("01 0001 01, 02 0004 00000001, 03 0000, 04 0000, 05 0000", "refused 1\n"),
        ("01 0001 01, 02 0004 00000001, 03 0000, 04 0000, 05 0004 00000000", "refused 22 at 17\n"),
    ]
}

fn cases() -> [(Case, &'static str); 15] {
    let twelve = |primes, exponents| Case { primes, exponents, ..invert::of(vec![5, 0, 0], 12) };
    [
        (invert::of(vec![0], 0), "refused 4\n"),
        (invert::of(vec![0], 1), "refused 4\n"),
        (invert::of(vec![1], 2), "ring 1 modulus 2\ninverse 1\n"),
        (invert::of(vec![999_999], 1_000_000), "ring 1 modulus 1000000\ninverse 999999\n"),
        (invert::of(vec![1], 1_000_001), "refused 4\n"),
        (invert::of(vec![0, 0, 10], 10), "refused 6 ring 1 at 2\n"),
        (twelve(vec![2, 3], vec![2, 1]), "ring 3 modulus 12\ninverse 5 0 0\n"),
        (twelve(vec![4, 3], vec![1, 1]), "refused 11 at 0\n"),
        (twelve(vec![3, 2], vec![1, 2]), "refused 12 at 1\n"),
        (twelve(vec![2, 3], vec![255, 1]), "refused 13\n"),
        (twelve(vec![2, 3, 5], vec![2, 1, 0]), "refused 10 at 2\n"),
        (twelve(vec![], vec![]), "refused 5\n"),
        // No counts, and bad readings are refused before anything is inverted.
        (unmix::of(vec![1, 1], vec![2, 2], 10), "ring 2 modulus 10\nsingular 2 ghost 5 5\n"),
        (unmix::of(vec![1, 1], vec![2, 10], 10), "refused 6 ring 2 at 1\n"),
        (unmix::of(vec![1, 10], vec![10, 2], 10), "refused 6 ring 1 at 1\n"),
    ]
}

/// The whole case with bytes after it.
fn longer() -> impl Iterator<Item = Figure> {
    let whole = bytes(WHOLE);
    let at = whole.len();
    [(1, 20), (2, 20), (3, 21), (4, 21), (9_000, 21)].into_iter().map(move |(count, number)| {
        let sheet = [&whole[..], &vec![6; count]].concat();
        (sheet, format!("refused {number} at {at}\n"))
    })
}

fn patterns() -> impl Iterator<Item = Figure> {
    let inverses =
        invert::inverses().map(|(m, f, g)| (invert::of(f, m), Finding::Inverse(g, None)));
    let ghosts =
        invert::ghosts().map(|(m, f, p, ghost)| (invert::of(f, m), Finding::Singular(p, ghost)));
    inverses.chain(ghosts).map(|(case, finding)| figure(&case, &finding))
}

fn lists() -> impl Iterator<Item = Figure> {
    let lists = factors::figures::figures().into_iter().filter(|(list, _)| list.fits_a_sheet());
    lists.map(|(list, refusal)| {
        let one = ones(3, 1, 1);
        let finding = match refusal {
            Some((number, place)) => Finding::Refused(vec![(number, number.at(place))]),
            None => Finding::Inverse(one.clone(), None),
        };
        figure(&invert::of(one, list.m).with_list(list), &finding)
    })
}
