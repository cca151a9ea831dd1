//! How often each kind of answer or input was met, and whether that is often enough.

use crate::parts::Part;
use std::fmt;

pub struct Counts<'a> {
    part: &'a Part,
    pub answers: usize,
    met: Vec<usize>,
}

impl<'a> Counts<'a> {
    pub fn new(part: &'a Part) -> Self {
        Counts { part, answers: 0, met: vec![0; part.kinds.len()] }
    }

    pub fn meet(&mut self, kind: &str) {
        let place = self.place(kind);
        self.met[place] += 1;
    }

    pub fn meet_if(&mut self, holds: bool, kind: &str) {
        if holds {
            self.meet(kind);
        }
    }

    pub fn met(&self, kind: &str) -> usize {
        self.met[self.place(kind)]
    }

    fn place(&self, kind: &str) -> usize {
        let named = |&(name, _): &(&str, usize)| name == kind;
        self.part.kinds.iter().position(named).unwrap()
    }

    /// The first kind that was met less often than it must be.
    pub fn too_seldom(&self) -> Option<&'static str> {
        let mut kinds = self.part.kinds.iter();
        kinds.find(|(name, least)| self.met(name) < *least).map(|(name, _)| *name)
    }

    pub fn head() -> String {
        format!("{:<14}{:<40}{:>9}{:>9}\n", "part", "kind", "met", "at least")
    }
}

impl fmt::Display for Counts<'_> {
    fn fmt(&self, to: &mut fmt::Formatter) -> fmt::Result {
        writeln!(to, "{:<14}{:<40}{:>9}", self.part.name, "answers", self.answers)?;
        for ((name, least), met) in self.part.kinds.iter().zip(&self.met) {
            writeln!(to, "{:<14}{name:<40}{met:>9}{least:>9}", "")?;
        }
        Ok(())
    }
}
