//! One case through the C door and through the second implementation.

use crate::calls::Call;
use crate::case::{Answer, Case};
use crate::figures::Figure;
use crate::lent::Loan;
use crate::numbers::Number;
use crate::random::Random;
use crate::refusals;

/// Compares one case. Hands back the numbers of all refusals that apply, the one given first.
pub fn case(call: &Call, case: &Case, random: &mut Random) -> Result<Vec<Number>, String> {
    let refusals = refusals::all(call.gives, case);
    let (expected, singular) = match refusals.first() {
        Some(&(_, reply)) => (Answer::refused(reply, case), refusals::singular_too(call, case)),
        None => {
            let answer = (call.answer)(case);
            let singular = answer.verdict.reply.number == Number::Singular as u32;
            (answer, singular)
        }
    };
    demand(call, case, &expected, random)?;
    let numbers = refusals.into_iter().map(|(number, _)| number);
    Ok(numbers.chain(singular.then_some(Number::Singular)).collect())
}

/// Compares the C door's answer with one that is known.
pub fn demand(
    call: &Call,
    case: &Case,
    expected: &Answer,
    random: &mut Random,
) -> Result<(), String> {
    let observed = observe(call, case, random)?;
    if observed != *expected {
        return Err(difference(call, case, expected, &observed));
    }
    Ok(())
}

/// Compares a figure: the written answer with the second implementation and with the C door.
pub fn figure(call: &Call, figure: &Figure, random: &mut Random) -> Result<(), String> {
    let (inputs, verdict, content) = figure;
    case(call, inputs, random)?;
    let observed = observe(call, inputs, random)?;
    let out = content.clone().unwrap_or_else(|| observed.out.clone());
    let written = Answer { verdict: *verdict, out };
    if observed != written {
        return Err(difference(call, inputs, &written, &observed));
    }
    Ok(())
}

pub fn observe(call: &Call, case: &Case, random: &mut Random) -> Result<Answer, String> {
    let mut loan = Loan::of(case, random);
    let before = loan.clone();
    let verdict = (call.ask)(&mut loan);
    if !loan.has_inputs_of(&before) {
        return Err(describe(call, case, "an input was changed"));
    }
    if loan.out.canaries() != before.out.canaries() {
        return Err(describe(call, case, "written outside the output"));
    }
    Ok(Answer { verdict, out: loan.out.content().to_vec() })
}

fn difference(call: &Call, case: &Case, expected: &Answer, observed: &Answer) -> String {
    let fault = if observed.verdict != expected.verdict {
        format!("{:?}, not {:?}", observed.verdict, expected.verdict)
    } else {
        let differs = |k: &usize| observed.out[*k] != expected.out[*k];
        let k = (0..case.out.len()).find(differs).unwrap();
        format!("at place {k} of the output {}, not {}", observed.out[k], expected.out[k])
    };
    describe(call, case, &fault)
}

pub fn describe(call: &Call, case: &Case, fault: &str) -> String {
    let mut inputs = format!("{case:?}");
    inputs.truncate(1_000);
    format!("{}: {fault}\n{inputs}", call.name)
}
