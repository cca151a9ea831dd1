//! The table of numbers as the header and README.md have it, and the refusals of each call as they
//! list them: each compared with the second implementation. (The Python package's table is compared
//! with the header by python/tests.) And the stacks that docs/ARCHITECTURE.md states, compared with
//! those that tests/stack.c tries.

use crate::calls::{self, Call};
use crate::numbers::{Number, Told, OF_A_SHEET, ORDER};
use std::fs;

const HEADER: &str = "include/dowelbrook.h";
const README: &str = "README.md";
const ARCHITECTURE: &str = "docs/ARCHITECTURE.md";
const STACKS: &str = "tests/stack.c";

const WORDS: [(&str, Told); 4] =
    [("ring", Told::Ring), ("place", Told::Place), ("offset", Told::Place), ("prime", Told::Prime)];

#[derive(Clone, Debug, PartialEq, Eq)]
struct Row {
    number: u32,
    name: String,
    tells: Vec<Told>,
}

impl From<Number> for Row {
    fn from(number: Number) -> Row {
        Row { number: number as u32, name: number.name(), tells: number.tells().to_vec() }
    }
}

/// Hands back how many rows and lists agree.
pub fn run() -> Result<usize, String> {
    let (header, readme) = (text(HEADER)?, text(README)?);
    let refusals: Vec<Row> = ORDER.into_iter().chain(OF_A_SHEET).map(Row::from).collect();
    let done = Row { number: 0, name: "DONE".into(), tells: vec![] };
    let whole = [&[done], &refusals[..]].concat();
    let mut agree = same_rows(HEADER, rows_of_header(&header), &whole)?;
    agree += same_rows(README, rows_of_readme(&readme), &whole)?;
    for call in &calls::ALL {
        let names: Vec<String> = call.order().map(Number::name).collect();
        same(HEADER, call.name, listed_in_header(&header, call), names)?;
        let numbers: Vec<String> = call.order().map(|number| (number as u32).to_string()).collect();
        same(README, call.name, listed_in_readme(&readme, call), numbers)?;
        agree += 2;
    }
    let stacks = stacks_tried(&text(STACKS)?)?;
    agree += stacks.len();
    same(ARCHITECTURE, "the stacks", stacks_stated(&text(ARCHITECTURE)?), stacks)?;
    Ok(agree)
}

fn text(file: &str) -> Result<String, String> {
    let path = format!("{}/../{file}", env!("CARGO_MANIFEST_DIR"));
    fs::read_to_string(path).map_err(|error| format!("{file}: {error}"))
}

/// Whether the rows are those of the table, in any order.
fn same_rows(file: &str, rows: Result<Vec<Row>, String>, table: &[Row]) -> Result<usize, String> {
    let sorted = |mut rows: Vec<Row>| {
        rows.sort_by_key(|row| row.number);
        rows
    };
    same(file, "the table of numbers", rows.map(sorted), sorted(table.to_vec()))?;
    Ok(table.len())
}

fn same<T: PartialEq + std::fmt::Debug>(
    file: &str,
    what: &str,
    observed: Result<Vec<T>, String>,
    expected: Vec<T>,
) -> Result<(), String> {
    let observed = observed.map_err(|fault| format!("{file}, {what}: {fault}"))?;
    if observed == expected {
        return Ok(());
    }
    let only_in = |these: &[T], those: &[T]| {
        let lacking = these.iter().filter(|item| !those.contains(item));
        lacking.map(|item| format!("{item:?}")).collect::<Vec<String>>().join(", ")
    };
    let (more, less) = (only_in(&observed, &expected), only_in(&expected, &observed));
    if more.is_empty() && less.is_empty() {
        return Err(format!("{file}, {what}: in the order {observed:?}, not {expected:?}"));
    }
    Err(format!("{file}, {what}: it has [{more}] instead of [{less}]"))
}

/// `NAME = number, /* .. tells .. */`, and a comment above several that says what each of them tells.
fn rows_of_header(header: &str) -> Result<Vec<Row>, String> {
    let (mut rows, mut tell_alike) = (vec![], vec![]);
    for entry in between(header, "enum {", "};")?.split("DOWELBROOK_").skip(1) {
        let (name, rest) = entry.split_once(" = ").ok_or(entry)?;
        let digits = rest.split(|digit: char| !digit.is_ascii_digit()).next().unwrap();
        let mut comments = rest.split("/*").skip(1).map(told_by_sentence);
        let mut tells = tell_alike.clone();
        tells.extend(comments.next().unwrap_or_default());
        rows.push(Row { number: parsed(digits)?, name: name.into(), tells });
        if let Some(of_each) = comments.next() {
            tell_alike = of_each;
        }
    }
    Ok(rows)
}

/// By the words after "tells".
fn told_by_sentence(sentence: &str) -> Vec<Told> {
    let told = sentence.split_once("tells").map_or("", |(_, told)| told);
    let has = |word: &str| told.split(|letter: char| !letter.is_alphanumeric()).any(|w| w == word);
    WORDS.into_iter().filter(|(word, _)| has(word)).map(|(_, told)| told).collect()
}

fn told_by_list(list: &str) -> Result<Vec<Told>, String> {
    let named = |word: &str| {
        let known = WORDS.into_iter().find(|(other, _)| *other == word);
        known.map(|(_, told)| told).ok_or_else(|| format!("{word:?} can not be told"))
    };
    let words = list.split(',').map(|word| word.trim().trim_matches('"'));
    words.filter(|word| !word.is_empty()).map(named).collect()
}

/// `| number NAME | given when | tells |`; done is given by its words alone.
fn rows_of_readme(readme: &str) -> Result<Vec<Row>, String> {
    let row = |cells: [&str; 3]| {
        let (number, name) = cells[0].split_once(' ').unwrap_or((cells[0], cells[1]));
        let tells = told_by_list(cells[2])?;
        Ok(Row { number: parsed(number)?, name: name.to_uppercase(), tells })
    };
    below_heading(readme, "| number | given when | tells |")?.into_iter().map(row).collect()
}

/// The rows of a table of so many columns.
fn below_heading<'a, const COLUMNS: usize>(
    page: &'a str,
    heading: &str,
) -> Result<Vec<[&'a str; COLUMNS]>, String> {
    let lines = between(page, &format!("{heading}\n"), "\n\n")?.lines().skip(1);
    let cells = |line: &'a str| {
        let inner = line.trim().trim_start_matches('|').trim_end_matches('|');
        let cells: Vec<&str> = inner.split('|').map(str::trim).collect();
        cells.try_into().map_err(|_| format!("not {COLUMNS} columns: {line}"))
    };
    lines.map(cells).collect()
}

/// Calls, in the order of their names, with a stack in KiB.
type Stacks = Vec<(String, u32)>;

/// `{"call", call, KiB},`
fn stacks_tried(program: &str) -> Result<Stacks, String> {
    let table = between(program, "struct call calls[] = {\n", "};")?;
    let row = |line: &str| {
        let cells: Vec<&str> =
            line.split([' ', ',', '{', '}', '"']).filter(|c| !c.is_empty()).collect();
        let [name, _, stack] = cells[..] else { return Err(format!("not a call's stack: {line}")) };
        Ok((name.into(), parsed(stack)?))
    };
    sorted(table.lines().map(row).collect())
}

/// `| call, call | measured | arrays | KiB |`
fn stacks_stated(page: &str) -> Result<Stacks, String> {
    let mut stacks = vec![];
    for [calls, _, _, stack] in below_heading(page, "| call | measured | arrays in it | stated |")?
    {
        let stack = parsed(stack)?;
        stacks.extend(calls.split(", ").map(|call| (call.to_string(), stack)));
    }
    sorted(Ok(stacks))
}

fn sorted(stacks: Result<Stacks, String>) -> Result<Stacks, String> {
    stacks.map(|mut stacks| {
        stacks.sort();
        stacks
    })
}

/// By the sentence "Refuses, in this order: .." of the comment above the call.
fn listed_in_header(header: &str, call: &Call) -> Result<Vec<String>, String> {
    let declared = format!("dowelbrook_{}(", call.name.replace(' ', "_"));
    let (above, _) = header.split_once(&declared).ok_or("not declared")?;
    let (_, comment) = above.rsplit_once("/*").ok_or("no comment")?;
    let list = between(comment, "Refuses, in this order:", ".")?;
    Ok(list.split(',').map(|name| name.trim_matches([' ', '\n', '*']).into()).collect())
}

fn listed_in_readme(readme: &str, call: &Call) -> Result<Vec<String>, String> {
    let rows = below_heading::<3>(readme, "| call | what it does | refusals, in order |")?;
    let row = rows.into_iter().find(|row| row[0] == call.name).ok_or("no row")?;
    Ok(row[2].split(',').map(|number| number.trim().into()).collect())
}

fn between<'a>(text: &'a str, start: &str, end: &str) -> Result<&'a str, String> {
    let (_, after) = text.split_once(start).ok_or_else(|| format!("no {start:?}"))?;
    let (inside, _) = after.split_once(end).ok_or_else(|| format!("no {end:?} after {start:?}"))?;
    Ok(inside)
}

fn parsed(number: &str) -> Result<u32, String> {
    number.parse().map_err(|_| format!("not a number: {number:?}"))
}
