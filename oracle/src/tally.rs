//! What histories reached: calls made, calls that document 01 refuses and so were not made, and the
//! cases of the document that were met.

use crate::format::{Operation, Storage};
use crate::rules::Served;
use std::cmp::Ordering;
use std::collections::BTreeMap;
use std::fmt;

#[derive(Default)]
pub struct Tally {
    pub calls: u64,
    /// How often each number was given.
    pub refused: BTreeMap<u8, u64>,
    pub cases: BTreeMap<String, u64>,
    /// How the source and document 01 ended the first walk of each history that has one. It hangs on
    /// the hash, so no recorded file shows it.
    pub walks: BTreeMap<String, u64>,
}

impl Tally {
    /// Counts a call; what it did to modes only where they were compared.
    pub fn serve(&mut self, operation: Operation, served: Served, compared: bool) {
        // A push fills the replay's own list and a dump only prints.
        if !matches!(operation, Operation::Push | Operation::Dump) {
            self.calls += 1;
        }
        let combination = served.combination.map(|(modes, after)| match compared {
            true => format!("{modes} gives {}", after.name()),
            false => format!("{modes}, modes not compared"),
        });
        let cases = if compared { served.cases } else { Vec::new() };
        for case in cases.into_iter().chain(combination) {
            *self.cases.entry(case).or_default() += 1;
        }
    }

    pub fn walk(&mut self, source: Storage, document: Storage) {
        let (Storage::Adaptive(there, long), Storage::Adaptive(here, short)) = (source, document) else {
            return;
        };
        let span = match long.cmp(&short) {
            _ if there != here => "",
            Ordering::Less => ", the source's span shorter",
            Ordering::Equal => ", spans equal",
            Ordering::Greater => ", the source's span longer",
        };
        let walk = format!("the source {}, document 01 {}{span}", there.name(), here.name());
        *self.walks.entry(walk).or_default() += 1;
    }

    pub fn refuse(&mut self, number: u8) {
        *self.refused.entry(number).or_default() += 1;
    }

    pub fn add(&mut self, other: &Self) {
        self.calls += other.calls;
        for (number, times) in &other.refused {
            *self.refused.entry(*number).or_default() += times;
        }
        for (case, times) in &other.cases {
            *self.cases.entry(case.clone()).or_default() += times;
        }
        for (walk, times) in &other.walks {
            *self.walks.entry(walk.clone()).or_default() += times;
        }
    }

    /// How many of the cases that `other` met this tally has fewer than `enough` times.
    pub fn lacking(&self, other: &Self, enough: u64) -> usize {
        let lacks = |case: &&String| self.cases.get(*case).is_none_or(|times| *times < enough);
        other.cases.keys().filter(lacks).count()
    }

    /// The first of the required cases that was not met.
    pub fn missing(&self, required: Vec<String>) -> Option<String> {
        let met = |case: &String| self.cases.keys().any(|found| found.starts_with(case));
        required.into_iter().find(|case| !met(case))
    }
}

impl fmt::Display for Tally {
    fn fmt(&self, f: &mut fmt::Formatter<'_>) -> fmt::Result {
        for (case, times) in &self.cases {
            writeln!(f, "{times:>8}  {case}")?;
        }
        Ok(())
    }
}
