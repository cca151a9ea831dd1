//! Compares the C door, the inner functions and the program with a second implementation, written from
//! documents 01 and 02 alone: answer, told values and the whole content of every lent buffer. And the
//! tables of numbers that the header, the Python module and README.md have.

mod calls;
mod case;
mod circulant;
mod compare;
mod counts;
mod door;
mod draw;
mod factors;
mod figures;
mod idle;
mod large;
mod lent;
mod numbers;
mod parts;
mod patterns;
mod primes;
mod probe;
mod program;
mod random;
mod refusals;
mod shares;
mod sheets;
mod tables;
mod tally;
mod twins;

use calls::Call;
use counts::Counts;
use random::Random;
use shares::{Agreement, Share};
use std::iter;
use std::process::ExitCode;
use tally::Tally;

const USAGE: &str = "usage: comparison [--sheets COUNT | --program COUNT] [SEED]";
const SEED: u64 = 20_260;
/// Of each call: cases without a fault, with faults, and with each set of faults at least so many.
const LEGAL: usize = 50_000;
const FAULTY: usize = 50_000;
const OF_EACH_SET: usize = 700;

/// How many of each sort agree.
type Agreed = Vec<(usize, &'static str)>;

fn main() -> ExitCode {
    let words: Vec<String> = std::env::args().skip(1).collect();
    let words: Vec<&str> = words.iter().map(String::as_str).collect();
    let Some((task, seed)) = asked(&words) else {
        eprintln!("{USAGE}");
        return ExitCode::from(2);
    };
    match task.run(&mut Random::new(seed)) {
        Ok(agreed) => {
            for (count, what) in agreed {
                println!("comparison: {count} {what} agree (seed {seed})");
            }
            ExitCode::SUCCESS
        }
        Err(failure) => {
            println!("comparison: FAILED (seed {seed})\n{failure}");
            ExitCode::FAILURE
        }
    }
}

enum Task {
    Everything,
    Sheets(usize),
    Program(usize),
}

fn asked(words: &[&str]) -> Option<(Task, u64)> {
    let (task, rest) = match words {
        ["--sheets", count, rest @ ..] => (Task::Sheets(count.parse().ok()?), rest),
        ["--program", count, rest @ ..] => (Task::Program(count.parse().ok()?), rest),
        rest => (Task::Everything, rest),
    };
    match rest {
        [] => Some((task, SEED)),
        [seed] => Some((task, seed.parse().ok()?)),
        _ => None,
    }
}

impl Task {
    fn run(&self, random: &mut Random) -> Result<Agreed, String> {
        match self {
            Task::Everything => run(random),
            Task::Sheets(count) => Ok(vec![(sheets::run_long(*count, random)?, "sheets")]),
            Task::Program(count) => {
                Ok(vec![(program::run_short(*count, random)?, "runs of the program")])
            }
        }
    }
}

/// What is counted together, how many of it there must be at least, and how its table begins.
struct Group {
    what: &'static str,
    least: usize,
    head: String,
    shares: Vec<Share>,
}

fn groups() -> [Group; 6] {
    let group = |what, least, parts| {
        let (head, shares) = (Counts::head(), parts::shares(parts));
        Group { what, least, head, shares }
    };
    let (head, shares) = (Tally::head(), shares_of_calls());
    [
        Group { what: "cases", least: 900_000, head, shares },
        group("factor lists in calls", 300_000, &calls::lists::ALL),
        group("pairs of tanks, idle or nearly so", 200_000, &[idle::PART]),
        group("inner answers", 3_000_000, &probe::ALL),
        group("sheets", 2_000_000, &sheets::ALL),
        group("runs of the program", 10_000, &[program::PART]),
    ]
}

/// Runs everything, unless something differs.
fn run(random: &mut Random) -> Result<Agreed, String> {
    let mut agreed = vec![(tables::run()?, "rows of tables")];
    let groups = groups();
    let shares: Vec<&Share> = groups.iter().flat_map(|group| &group.shares).collect();
    let mut agreements = shares::run(&shares, random)?.into_iter();
    for Group { what, least, head, shares } in groups {
        print!("{head}");
        let mut answers = 0;
        for agreement in agreements.by_ref().take(shares.len()) {
            print!("{}", agreement.text);
            answers += agreement.answers;
        }
        println!();
        if answers < least {
            return Err(format!("only {answers} {what}"));
        }
        agreed.push((answers, what));
    }
    Ok(agreed)
}

type Run = fn(&mut Random) -> Result<usize, String>;

fn shares_of_calls() -> Vec<Share> {
    let calls: &'static [Call] = &calls::ALL;
    let of_call = |call| -> Share { Box::new(move |random| run_call(call, random)) };
    let runs = [("twins", twins::run as Run), ("large rings", large::run)];
    let of_run = |(name, run)| -> Share { Box::new(move |random| run_as(name, run, random)) };
    calls.iter().map(of_call).chain(runs.map(of_run)).collect()
}

fn run_call(call: &Call, random: &mut Random) -> Result<Agreement, String> {
    (call.figures)().iter().try_for_each(|figure| compare::figure(call, figure, random))?;
    let tally = draw_and_compare(call, random)?;
    if !tally.enough() {
        return Err(format!("{}: an answer was met too seldom\n{tally}", call.name));
    }
    Ok(Agreement { answers: tally.cases, text: tally.to_string() })
}

fn run_as(name: &str, run: Run, random: &mut Random) -> Result<Agreement, String> {
    let answers = run(random).map_err(|fault| format!("{name}: {fault}"))?;
    Ok(Agreement { answers, text: format!("{name:<30}{answers:>8}\n") })
}

/// Legal cases, and each set of faults in turn.
fn draw_and_compare<'a>(call: &'a Call, random: &mut Random) -> Result<Tally<'a>, String> {
    let fault_sets = draw::fault_sets(call);
    let faulty = FAULTY.max(OF_EACH_SET * fault_sets.len());
    let no_fault = vec![];
    let legal = iter::repeat_n(&no_fault, LEGAL);
    let mut tally = Tally::new(call);
    for faults in legal.chain(fault_sets.iter().cycle().take(faulty)) {
        let case = draw::case(call, faults, random);
        tally.count(&compare::case(call, &case, random)?);
    }
    Ok(tally)
}
