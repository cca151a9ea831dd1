//! What is counted of the sheets: each answer by each cause, and each that was given while a later one
//! applied too.

use super::fields::{Field, Refusal, Rule};
use super::text::{Finding, Outcome};
use crate::calls::unmix;
use crate::case::Case;
use crate::counts::Counts;
use crate::door::Reply;
use crate::numbers::Number;
use crate::refusals::singular_too;

/// Each with how often it must be met at least.
pub const KINDS: &[(&str, usize)] = &[
    ("20 header: one byte", 1_000),
    ("20 header: two bytes", 1_000),
    ("20 after tag 5", 1_000),
    ("20 header: a wrong tag too", 5_000),
    ("20 value of tag 1", 100),
    ("20 value of tag 2", 500),
    ("20 value of tag 3", 1_000),
    ("20 value of tag 4", 5_000),
    ("20 value of tag 5", 1_000),
    ("21 tag 0", 5_000),
    ("21 tag above 5", 10_000),
    ("21 tag as before", 10_000),
    ("21 tag below the one before", 5_000),
    ("21 after tag 5", 5_000),
    ("21 while 23", 10_000),
    ("21 while 22", 5_000),
    ("21 while 20", 10_000),
    ("21 while 24", 1_000),
    ("23 at tag 2", 10_000),
    ("23 at tag 3", 10_000),
    ("23 at tag 4", 10_000),
    ("23 at tag 5", 5_000),
    ("23 while 22", 5_000),
    ("23 while 20", 1_000),
    ("23 at the end after no field", 500),
    ("23 at the end after tag 1", 100),
    ("23 at the end after tag 2", 500),
    ("23 at the end after tag 3", 1_000),
    ("22 tag 1", 10_000),
    ("22 tag 2", 10_000),
    ("22 tag 3: no multiple of 5", 5_000),
    ("22 tag 3: above 35", 5_000),
    ("22 tag 4: no multiple of 4", 5_000),
    ("22 tag 4: above 4,096", 1_000),
    ("22 tag 5", 5_000),
    ("22 while 20", 10_000),
    ("22 while 24", 1_000),
    ("24", 10_000),
    ("longer than 8,250 bytes", 500),
    ("length of two bytes in tag 4", 5_000),
    ("readings absent", 10_000),
    ("readings present", 10_000),
    ("readings present and empty", 5_000),
    ("1", 10_000),
    ("1 while 4", 5_000),
    ("1 while 5", 1_000),
    ("1 while 10", 1_000),
    ("1 while 11", 1_000),
    ("1 while 12", 1_000),
    ("1 while 13", 1_000),
    ("4", 10_000),
    ("4 while 5", 1_000),
    ("4 while 10", 1_000),
    ("4 while 11", 1_000),
    ("4 while 12", 1_000),
    ("4 while 13", 1_000),
    ("4 while 6", 5_000),
    ("5", 2_000),
    ("5 while 13", 2_000),
    ("5 while 6", 1_000),
    ("10", 2_000),
    ("10 while 11", 500),
    ("10 while 12", 500),
    ("10 while 13", 500),
    ("10 while 6", 1_000),
    ("11", 2_000),
    ("11 while 10", 500),
    ("11 while 12", 500),
    ("11 while 13", 500),
    ("11 while 6", 1_000),
    ("12", 2_000),
    ("12 while 10", 500),
    ("12 while 11", 500),
    ("12 while 13", 500),
    ("12 while 6", 1_000),
    ("13", 2_000),
    ("13 while 6", 1_000),
    ("6 ring 1", 5_000),
    ("6 ring 1 while ring 2", 1_000),
    ("6 ring 2", 1_000),
    ("6 while singular", 5_000),
    ("6 ring 2 while singular", 500),
    ("singular", 5_000),
    ("singular with readings", 5_000),
    ("inverse", 10_000),
    ("inverse and counts", 10_000),
    ("too long for elimination", 0),
];

pub fn count(sheet: &[u8], outcome: &Outcome, counts: &mut Counts) {
    counts.answers += 1;
    counts.meet_if(sheet.len() > 8_250, "longer than 8,250 bytes");
    match outcome {
        Outcome::Unreadable(refusal) => count_unreadable(refusal, counts),
        Outcome::Read(case, finding) => {
            count_rings(case, counts);
            count_finding(case, finding, counts);
        }
    }
}

fn count_finding(case: &Case, finding: &Finding, counts: &mut Counts) {
    let with_readings = has_readings(case);
    match finding {
        Finding::Refused(refusals) => count_refused(case, refusals, counts),
        Finding::Singular(..) if with_readings => counts.meet("singular with readings"),
        Finding::Singular(..) => counts.meet("singular"),
        Finding::Inverse(..) if with_readings => counts.meet("inverse and counts"),
        Finding::Inverse(..) => counts.meet("inverse"),
        Finding::Unsolved => counts.meet("too long for elimination"),
    }
}

fn has_readings(case: &Case) -> bool {
    case.rings.len() > 1
}

fn count_rings(case: &Case, counts: &mut Counts) {
    let present = has_readings(case);
    counts.meet(if present { "readings present" } else { "readings absent" });
    counts.meet_if(present && case.n() == 0, "readings present and empty");
    counts.meet_if(case.n() >= 64, "length of two bytes in tag 4");
}

fn count_refused(case: &Case, refusals: &[(Number, Reply)], counts: &mut Counts) {
    let (first, reply) = refusals[0];
    match first {
        Number::Coefficient => count_coefficient(case, reply.ring, counts),
        _ => counts.meet(&reply.number.to_string()),
    }
    for (other, _) in &refusals[1..] {
        counts.meet(&format!("{} while {}", first as u32, *other as u32));
    }
}

fn count_coefficient(case: &Case, ring: usize, counts: &mut Counts) {
    counts.meet(&format!("6 ring {ring}"));
    let both = ring == 1 && case.rings.iter().skip(1).flatten().any(|&entry| entry >= case.m);
    counts.meet_if(both, "6 ring 1 while ring 2");
    if singular_too(&unmix::CALL, case) {
        counts.meet("6 while singular");
        counts.meet_if(ring == 2, "6 ring 2 while singular");
    }
}

fn count_unreadable(refusal: &Refusal, counts: &mut Counts) {
    let Some(field) = refusal.field else {
        let after = refusal.after.map_or("no field".into(), |tag| format!("tag {tag}"));
        counts.meet(&format!("23 at the end after {after}"));
        return;
    };
    let (first, others) = (refusal.broken[0], &refusal.broken[1..]);
    counts.meet(&cause(first, &field, refusal.after));
    if refusal.after == Some(5) {
        counts.meet(&format!("{} after tag 5", first.number() as u32));
    }
    counts.meet_if(short_and_wrong(&field, refusal.after), "20 header: a wrong tag too");
    for other in others {
        counts.meet(&format!("{} while {}", first.number() as u32, other.number() as u32));
    }
}

fn short_and_wrong(field: &Field, after: Option<u8>) -> bool {
    field.length().is_none() && (field.tag() > 5 || field.tag() <= after.unwrap_or(0))
}

fn cause(rule: Rule, field: &Field, after: Option<u8>) -> String {
    let tag = field.tag();
    let length = field.length().unwrap_or_default();
    match rule {
        Rule::Header if field.bytes().len() == 1 => "20 header: one byte".into(),
        Rule::Header => "20 header: two bytes".into(),
        Rule::Tag if tag == 0 => "21 tag 0".into(),
        Rule::Tag if tag > 5 => "21 tag above 5".into(),
        Rule::Tag if Some(tag) == after => "21 tag as before".into(),
        Rule::Tag => "21 tag below the one before".into(),
        Rule::Lower | Rule::Complete => format!("23 at tag {tag}"),
        Rule::Length if tag == 3 && length > 35 => "22 tag 3: above 35".into(),
        Rule::Length if tag == 3 => "22 tag 3: no multiple of 5".into(),
        Rule::Length if tag == 4 && length > 4_096 => "22 tag 4: above 4,096".into(),
        Rule::Length if tag == 4 => "22 tag 4: no multiple of 4".into(),
        Rule::Length => format!("22 tag {tag}"),
        Rule::Value => format!("20 value of tag {tag}"),
        Rule::Version => "24".into(),
    }
}
