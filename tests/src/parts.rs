//! The parts of the comparison that count what they meet.

use crate::counts::Counts;
use crate::random::Random;
use crate::shares::{Agreement, Share};

pub struct Part {
    pub name: &'static str,
    /// What is counted, and how often it must be met at least.
    pub kinds: &'static [(&'static str, usize)],
    /// Compares with the second implementation, up to the first difference.
    pub compare: fn(&mut Counts, &mut Random) -> Result<(), String>,
}

impl Part {
    fn run(&self, random: &mut Random) -> Result<Agreement, String> {
        let mut counts = Counts::new(self);
        (self.compare)(&mut counts, random).map_err(|fault| format!("{}: {fault}", self.name))?;
        match counts.too_seldom() {
            Some(kind) => Err(format!("{}: \"{kind}\" was met too seldom\n{counts}", self.name)),
            None => Ok(Agreement { answers: counts.answers, text: counts.to_string() }),
        }
    }
}

pub fn shares(parts: &'static [Part]) -> Vec<Share> {
    let share = |part: &'static Part| -> Share { Box::new(|random| part.run(random)) };
    parts.iter().map(share).collect()
}
