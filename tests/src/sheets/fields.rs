//! The pattern sheet as document 01 tells it: split into fields by their own lengths, whatever they
//! hold, and then judged field by field and rule by rule.

use crate::door::Reply;
use crate::numbers::Number;

/// Tag and length.
const HEADER: usize = 3;

/// A field as it stands in a sheet. The last one may be cut.
#[derive(Clone, Copy, Debug)]
pub struct Field<'a> {
    pub at: usize,
    bytes: &'a [u8],
}

impl<'a> Field<'a> {
    /// As far as its header says or the sheet goes.
    fn starting(sheet: &'a [u8], at: usize) -> Option<Self> {
        let rest = sheet.get(at..).filter(|rest| !rest.is_empty())?;
        let said =
            rest.get(1..HEADER).map_or(rest.len(), |length| HEADER + number(length) as usize);
        Some(Field { at, bytes: &rest[..said.min(rest.len())] })
    }

    /// The tag, or what would be one if the header were whole.
    pub fn tag(&self) -> u8 {
        self.bytes[0]
    }

    /// The length as it is written, if the header is whole.
    pub fn length(&self) -> Option<usize> {
        self.bytes.get(1..HEADER).map(|length| number(length) as usize)
    }

    pub fn value(&self) -> &'a [u8] {
        self.bytes.get(HEADER..).unwrap_or_default()
    }

    pub fn value_at(&self) -> usize {
        self.at + HEADER
    }

    /// All that stands in the sheet of header and value.
    pub fn bytes(&self) -> &'a [u8] {
        self.bytes
    }
}

/// "all numbers high byte first"
pub fn number(bytes: &[u8]) -> u32 {
    bytes.iter().fold(0, |number, &byte| number << 8 | u32::from(byte))
}

fn split(sheet: &[u8]) -> Vec<Field<'_>> {
    let after = |field: &Field| Field::starting(sheet, field.at + field.bytes.len());
    std::iter::successors(Field::starting(sheet, 0), after).collect()
}

#[derive(Clone, Copy, Debug, PartialEq, Eq)]
pub enum Rule {
    /// "20 if fewer than three header bytes are left"
    Header,
    /// "21 if the tag isn't 1 to 5 or isn't above the one before"
    Tag,
    /// "23 if a lower required tag hasn't come"
    Lower,
    /// "22 if the length is wrong"
    Length,
    /// "20 if the value is cut"
    Value,
    /// "24 if the version isn't 1"
    Version,
    /// "At the end of the sheet, 23 if tag 1, 2, 3 or 4 is missing"
    Complete,
}

/// "Per field, in this order"
const ORDER: [Rule; 6] =
    [Rule::Header, Rule::Tag, Rule::Lower, Rule::Length, Rule::Value, Rule::Version];

impl Rule {
    pub fn number(self) -> Number {
        match self {
            Rule::Header | Rule::Value => Number::Cut,
            Rule::Tag => Number::Tag,
            Rule::Length => Number::Length,
            Rule::Lower | Rule::Complete => Number::Missing,
            Rule::Version => Number::Version,
        }
    }

    /// Whether a field that stands after these breaks it.
    fn broken(self, before: &[Field], field: &Field) -> bool {
        let Some(length) = field.length() else {
            return self == Rule::Header;
        };
        let tag = field.tag();
        match self {
            Rule::Header | Rule::Complete => false,
            Rule::Tag => !(1..=5).contains(&tag) || before.last().is_some_and(|f| tag <= f.tag()),
            Rule::Lower => (1..=4).any(|lower| lower < tag && with_tag(lower, before).is_none()),
            Rule::Length => !right_length(tag, length, before),
            Rule::Value => field.value().len() < length,
            Rule::Version => tag == 1 && field.value().first().is_some_and(|&version| version != 1),
        }
    }
}

fn right_length(tag: u8, length: usize, before: &[Field]) -> bool {
    match tag {
        1 => length == 1,
        2 => length == 4,
        3 => length <= 35 && length.is_multiple_of(5),
        4 => length <= 4_096 && length.is_multiple_of(4),
        5 => with_tag(4, before).is_none_or(|pattern| pattern.length() == Some(length)),
        _ => true,
    }
}

fn with_tag<'a>(tag: u8, fields: &[Field<'a>]) -> Option<Field<'a>> {
    fields.iter().find(|field| field.tag() == tag).copied()
}

/// What a sheet holds.
pub struct Parts<'a> {
    pub modulus: u32,
    pub factors: Field<'a>,
    pub pattern: Field<'a>,
    pub readings: Option<Field<'a>>,
}

/// Why a sheet is refused.
#[derive(Debug)]
pub struct Refusal<'a> {
    /// All rules that the field breaks. The first is told.
    pub broken: Vec<Rule>,
    pub at: usize,
    /// The last right field's tag.
    pub after: Option<u8>,
    /// The field that is wrong, unless one is missing at the end.
    pub field: Option<Field<'a>>,
}

impl Refusal<'_> {
    pub fn number(&self) -> Number {
        self.broken[0].number()
    }

    pub fn reply(&self) -> Reply {
        self.number().at(self.at)
    }
}

pub fn read(sheet: &[u8]) -> Result<Parts<'_>, Refusal<'_>> {
    let fields = split(sheet);
    for (place, &field) in fields.iter().enumerate() {
        let before = &fields[..place];
        let broken: Vec<Rule> =
            ORDER.into_iter().filter(|rule| rule.broken(before, &field)).collect();
        if !broken.is_empty() {
            let after = before.last().map(Field::tag);
            return Err(Refusal { broken, at: field.at, after, field: Some(field) });
        }
    }
    let present = [1, 2, 3, 4, 5].map(|tag| with_tag(tag, &fields));
    let [Some(_), Some(modulus), Some(factors), Some(pattern), readings] = present else {
        let after = fields.last().map(Field::tag);
        return Err(Refusal { broken: vec![Rule::Complete], at: sheet.len(), after, field: None });
    };
    Ok(Parts { modulus: number(modulus.value()), factors, pattern, readings })
}
