//! Counts what files reach, and holds it against the list of what they have to reach.

mod calls;
mod jobs;
mod possible;

use std::collections::BTreeMap;
use std::fmt::Write;

use crate::generate::sweep;
use crate::model::{call, call_file, job};

/// How often each thing was reached.
#[derive(Default)]
pub struct Tally {
    counts: BTreeMap<String, u64>,
}

impl Tally {
    fn note(&mut self, what: impl Into<String>) {
        *self.counts.entry(what.into()).or_default() += 1;
    }

    fn note_if(&mut self, applies: bool, what: impl Into<String>) {
        if applies {
            self.note(what);
        }
    }

    fn count(&self, what: &str) -> u64 {
        self.counts.get(what).copied().unwrap_or(0)
    }

    /// Counts what a call file reaches.
    pub fn note_calls(&mut self, file: &[u8]) {
        let (all, bad) = call_file::read(file);
        for call in &all {
            self.note("calls");
            calls::note(self, call, &call::run(call));
        }
        match bad {
            Some(bad) => self.note(format!("call file ends: {bad:?}")),
            None => self.note("call file ends: cleanly"),
        }
    }

    /// Counts what a job file reaches.
    pub fn note_job(&mut self, file: &[u8]) {
        self.note("jobs");
        self.note_if(file.is_empty(), "job: empty input");
        jobs::note(self, &job::steps(file));
    }

    /// What has to be reached and never was, or was reached and cannot be.
    pub fn missing(&self) -> Vec<String> {
        let possible = possible::all();
        let mut missing: Vec<String> =
            possible.iter().filter(|what| self.count(what) == 0).cloned().collect();
        let answers = self.counts.keys().filter(|what| what.contains(" answers "));
        missing.extend(answers.filter(|what| !possible.contains(what)).cloned());
        missing
    }

    /// One line for each thing that has to be reached; the swept pairs are summed up.
    pub fn table(&self) -> String {
        let mut text = format!("{:8} calls\n{:8} jobs\n", self.count("calls"), self.count("jobs"));
        for what in possible::without_pairs() {
            writeln!(text, "{:8} {what}", self.count(&what)).expect("a string takes every text");
        }
        for (m, n) in sweep::SWEPT {
            for what in possible::PAIR_TRIES {
                let pairs = possible::pairs_of(m, n, what);
                let reached = pairs.iter().filter(|pair| self.count(pair) > 0).count();
                let all = pairs.len();
                writeln!(text, "{reached:8} of {all} ordered pairs of ({m},{n}), {what}")
                    .expect("a string takes every text");
            }
        }
        for what in self.missing() {
            writeln!(text, "NEVER REACHED, OR NOT POSSIBLE: {what}")
                .expect("a string takes every text");
        }
        text
    }
}
