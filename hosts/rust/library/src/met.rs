//! What a run has met, and what it has to meet: every number of every request, in every buffer that it looks at, places of all kinds, every pair of
//! faults, rows of every class of lengths, rows balanced and not, jobs of every width.

use crate::call::{Call, Name, Part, NAMES};
use crate::counts::Counts;
use crate::damage::plans;
use crate::digits::words_of_plane;
use crate::refusals::KINDS;
use crate::sizes::CLASSES;
use crate::trial::Trial;
use std::collections::BTreeSet;

/// So many calls meet all of it.
pub const ENOUGH: u64 = 4_000;

/// And call every request so often.
const LEAST: u64 = 50;

#[derive(Default)]
pub struct Met {
    pub counts: Counts,
    calls: [u64; NAMES.len()],
    /// Plans of faults that were carried out, from the first on.
    pub plans: [usize; NAMES.len()],
    /// Words a plane that accepted calls had: in A's rows, and in those of what is read or written across it.
    planes: BTreeSet<(usize, bool, usize)>,
    /// What tallies of rows with columns said: whether ones and twos were equally many, and whether the row was balanced.
    balances: BTreeSet<(bool, bool)>,
    /// Widths of jobs taken to their end, as they were opened.
    pub widths: BTreeSet<u64>,
    pub jobs: u64,
    pub round_trips: u64,
}

/// The matrix whose rows have other lengths than A's, where there is one.
fn across(name: Name) -> Option<Part> {
    match name {
        Name::Transpose => Some(Part::Result),
        name if name.multiplies() => Some(Part::B),
        _ => None,
    }
}

impl Met {
    /// Takes in one call; `place` says which it was.
    pub fn take(&mut self, place: &str, call: &Call, trial: &Trial) {
        self.counts.take(call.name as usize, &trial.refusals);
        self.calls[call.name as usize] += 1;
        if !trial.wrong.is_empty() {
            self.counts.differs(|| format!("{place}: {}\n  {}", call.text(), trial.wrong.join("\n  ")));
        }
        let idle = call.name == Name::Turn && trial.left.given[5] == 0;
        if trial.refusals.is_empty() && !idle {
            self.rows_of(call, false, Some(Part::A));
            self.rows_of(call, true, across(call.name));
            if call.name == Name::Tally && call.a_size.1 > 0 {
                let said = &trial.left.given;
                self.balances.insert((said[1] == said[2], said[3] == 1));
            }
        }
    }

    fn rows_of(&mut self, call: &Call, other: bool, part: Option<Part>) {
        match part.and_then(|part| call.size(part)) {
            Some((rows, columns)) if rows > 0 && columns > 0 => {
                self.planes.insert((call.name as usize, other, words_of_plane(columns)));
            }
            _ => {}
        }
    }

    /// Classes of rows that a request should have met and did not.
    fn planes_missing(&self, name: Name) -> Vec<String> {
        let mut never = Vec::new();
        for other in [false, true] {
            if name.reads().is_empty() || other && across(name).is_none() {
                continue;
            }
            for q in CLASSES.iter().filter(|q| !self.planes.contains(&(name as usize, other, **q))) {
                never.push(format!("{} {q} words a plane{}", name.text(), if other { " across" } else { "" }));
            }
        }
        never
    }

    /// All that should have been met and was not.
    fn missing(&self) -> Vec<String> {
        let mut never = Vec::new();
        for name in NAMES {
            never.extend(self.counts.print(name as usize, name.text(), name.numbers(), &name.places()));
            never.extend(self.planes_missing(name));
            if self.calls[name as usize] < LEAST {
                never.push(format!("{} {LEAST} times", name.text()));
            }
            if self.plans[name as usize] < plans(name).len() {
                never.push(format!("{} every pair of faults", name.text()));
            }
        }
        for (even, balanced) in [(true, true), (true, false), (false, false)] {
            if !self.balances.contains(&(even, balanced)) {
                never.push(format!("a tally with ones equal to twos: {even}, balanced: {balanced}"));
            }
        }
        never.extend(self.counts.print_places(&[5, 6, 8], KINDS.len()));
        never.extend((0..=8).filter(|width| !self.widths.contains(width)).map(|width| format!("a job of width {width}")));
        never
    }

    /// Prints what was met; the exit status.
    pub fn summary(&self) -> i32 {
        let never = self.missing();
        let counts = &self.counts;
        let missing = counts.calls >= ENOUGH && !never.is_empty();
        if missing {
            println!("never met: {}", never.join(", "));
        }
        if counts.calls == 0 {
            println!("nothing was compared");
        }
        let (jobs, trips) = (self.jobs, self.round_trips);
        println!("{} calls, {} differ; {jobs} jobs taken to their end, {trips} matrices packed and unpacked", counts.calls, counts.differ);
        (missing || counts.calls == 0 || counts.differ > 0) as i32
    }
}
