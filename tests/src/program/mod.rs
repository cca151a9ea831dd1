//! The built program, fed with sheets in many ways.

use crate::counts::Counts;
use crate::parts::Part;
use crate::random::Random;
use crate::sheets::draw::Contents;
use crate::sheets::figures::{figures, Figure};
use crate::sheets::long;
use crate::sheets::text::Outcome;
use run::{Input, Output, Run, TAKEN};

mod run;

pub const PART: Part = Part {
    name: "program",
    kinds: &[
        ("through a pipe", 3_000),
        ("in pieces", 3_000),
        ("one piece a read", 3_000),
        ("from a file", 3_000),
        ("more than 8,250 bytes", 1_000),
        ("left open after 8,250 bytes", 500),
        ("no input", 3),
        ("output full", 50),
        ("output without a reader", 100),
        ("output closed", 50),
    ],
    compare,
};

const SHEETS: usize = 3_000;
const THREADS: usize = 4;

fn compare(counts: &mut Counts, random: &mut Random) -> Result<(), String> {
    let longest = long::known(1_024, 510_510, random)?;
    let unheard = figures().iter().chain(&longest).flat_map(unheard).collect::<Vec<Run>>();
    let heard = figures().into_iter().chain(around(longest)).chain(drawn(SHEETS, random));
    let mut runs: Vec<Run> = heard.flat_map(|figure| fed_in_many_ways(&figure, random)).collect();
    runs.extend(unheard);
    runs.extend(without_input());
    in_threads(&runs)?;
    runs.iter().for_each(|run| count(run, counts));
    Ok(())
}

/// The figures, long patterns and so many drawn sheets, each through a pipe. For a program that takes
/// its time.
pub fn run_short(sheets: usize, random: &mut Random) -> Result<usize, String> {
    let longest = long::known(1_024, 510_510, random)?;
    let heard = figures().into_iter().chain(longest).chain(drawn(sheets, random));
    let runs: Vec<Run> = heard.map(|figure| fed(&figure, THROUGH_A_PIPE)).collect();
    in_threads(&runs)?;
    Ok(runs.len())
}

/// Drawn sheets, some of them longer than the program takes, with the text of what it takes of them.
fn drawn(sheets: usize, random: &mut Random) -> Vec<Figure> {
    let contents = Contents::new();
    let mut figures = vec![];
    while figures.len() < sheets {
        for mut sheet in contents.family(random) {
            if random.below(8) == 0 {
                sheet.resize(TAKEN + random.below(40), random.below(8) as u8);
            }
            let text = Outcome::of(&sheet[..sheet.len().min(TAKEN)]).text();
            figures.extend(text.map(|text| (sheet, text)));
        }
    }
    figures
}

/// The longest sheets there are, and what is longer.
fn around(longest: Vec<Figure>) -> impl Iterator<Item = Figure> {
    longest.into_iter().flat_map(|(sheet, text)| {
        let at = sheet.len();
        let longer = [1, 2, 3, 4, 100, 20_000].map(|further| {
            let number = if further < 3 { 20 } else { 21 };
            ([&sheet[..], &vec![6; further]].concat(), format!("refused {number} at {at}\n"))
        });
        [(sheet, text)].into_iter().chain(longer)
    })
}

const THROUGH_A_PIPE: Input = Input::Pipe { piece: TAKEN, left_open: false };

fn fed_in_many_ways(figure: &Figure, random: &mut Random) -> Vec<Run> {
    let mut piece = || 1 + random.below(24);
    let mut inputs = vec![
        THROUGH_A_PIPE,
        Input::Pipe { piece: piece(), left_open: false },
        Input::Datagrams { piece: piece() },
        Input::File,
    ];
    if figure.0.len() >= TAKEN {
        inputs.push(Input::Pipe { piece: TAKEN, left_open: true });
        inputs.push(Input::Pipe { piece: 1 + random.below(TAKEN), left_open: true });
    }
    inputs.into_iter().map(|input| fed(figure, input)).collect()
}

fn fed((sheet, text): &Figure, input: Input) -> Run {
    Run { sheet: sheet.clone(), input, output: Output::Caught, text: Some(text.clone()) }
}

/// Nothing is said of what the program does then, but it ends.
fn unheard((sheet, _): &Figure) -> [Run; 4] {
    [Output::Full, Output::NoReader, Output::NoReaderNorSignal, Output::Closed].map(|output| Run {
        sheet: sheet.clone(),
        input: Input::File,
        output,
        text: None,
    })
}

/// Nothing is said of an input that cannot be read either.
fn without_input() -> [Run; 3] {
    let empty = "refused 23 at 0\n".to_string();
    [(Input::Nothing, Some(empty)), (Input::Closed, None), (Input::Directory, None)]
        .map(|(input, text)| Run { sheet: vec![], input, output: Output::Caught, text })
}

fn in_threads(runs: &[Run]) -> Result<(), String> {
    let compare = |share: &[Run]| share.iter().try_for_each(Run::compare);
    std::thread::scope(|scope| {
        let shares = runs.chunks(runs.len().div_ceil(THREADS));
        let threads: Vec<_> = shares.map(|share| scope.spawn(move || compare(share))).collect();
        threads.into_iter().try_for_each(|thread| thread.join().unwrap())
    })
}

fn count(run: &Run, counts: &mut Counts) {
    counts.answers += 1;
    counts.meet_if(run.sheet.len() > TAKEN, "more than 8,250 bytes");
    counts.meet(match (&run.output, &run.input) {
        (Output::Full, _) => "output full",
        (Output::NoReader | Output::NoReaderNorSignal, _) => "output without a reader",
        (Output::Closed, _) => "output closed",
        (_, Input::Pipe { left_open: true, .. }) => "left open after 8,250 bytes",
        (_, Input::Pipe { piece: TAKEN, .. }) => "through a pipe",
        (_, Input::Pipe { .. }) => "in pieces",
        (_, Input::Datagrams { .. }) => "one piece a read",
        (_, Input::File) => "from a file",
        (_, Input::Nothing | Input::Closed | Input::Directory) => "no input",
    });
}
