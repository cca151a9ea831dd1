//! Sheets before they are written: the fields, each with the tag and the length that it will say.

use crate::case::Case;

#[derive(Clone, Debug)]
pub struct Field {
    pub tag: u8,
    pub length: u16,
    pub value: Vec<u8>,
}

pub type Draft = Vec<Field>;

impl Field {
    pub fn new(tag: u8, value: Vec<u8>) -> Self {
        Field { tag, length: value.len() as u16, value }
    }

    /// Changes the value's length too, by bytes like this one.
    pub fn resize(&mut self, length: u16, fill: u8) {
        self.length = length;
        self.value.resize(length.into(), fill);
    }
}

/// The sheet that holds a modulus, a factor list, a pattern and maybe readings.
pub fn of(case: &Case) -> Draft {
    let entry = |(p, &e): (&u32, &u8)| [&p.to_be_bytes()[..], &[e]].concat();
    let factors = case.primes.iter().zip(&case.exponents).flat_map(entry).collect();
    let ring = |entries: &Vec<u32>| entries.iter().flat_map(|entry| entry.to_be_bytes()).collect();
    let values = [vec![1], case.m.to_be_bytes().to_vec(), factors];
    let values = values.into_iter().chain(case.rings.iter().map(ring));
    (1..).zip(values).map(|(tag, value)| Field::new(tag, value)).collect()
}

pub fn written(draft: &[Field]) -> Vec<u8> {
    let mut sheet = vec![];
    for field in draft {
        sheet.push(field.tag);
        sheet.extend(field.length.to_be_bytes());
        sheet.extend(&field.value);
    }
    sheet
}
