//! Calls that belong together: a job in random turns to its end, a matrix packed and unpacked, quotes that are met, and the longest list.

use crate::call::{Call, Name, Part, Written};
use crate::damage::disturbed;
use crate::digits::{product, words_of_plane, Digits};
use crate::making::{self, total};
use crate::met::Met;
use crate::random::Random;
use crate::trial::carry_out;

/// One run's place in the seed's order, and what it has met so far.
pub struct Caller<'a> {
    pub random: &'a mut Random,
    pub place: &'a str,
    pub met: &'a mut Met,
}

impl Caller<'_> {
    /// Carries out a call; what it leaves, if nothing was wrong.
    pub fn call(&mut self, call: &Call) -> Option<Written> {
        let trial = carry_out(self.random, call);
        self.met.take(self.place, call, &trial);
        trial.wrong.is_empty().then_some(trial.left)
    }

    fn differs(&mut self, call: &Call, what: &str) {
        let place = self.place;
        self.met.counts.differs(|| format!("{place}: {}\n  {what}", call.text()));
    }

    /// A whole job: an opening and turns with what the last one left, to the end and once more, with refused turns in between. Its product is
    /// the schoolbook one, and its steps are those of the list. None where a call was wrong, which has been reported.
    pub fn job(&mut self, turn: usize) -> Option<()> {
        let opening = making::legal(self.random, Name::Opening, turn);
        let left = self.call(&opening)?;
        let asked = opening.width;
        let given = [&left.given[..5], &[self.random.word(), self.random.word()]].concat();
        let mut job = Call { name: Name::Turn, width: left.given[3], given, table: left.table, result: left.result, ..opening };
        let total = total(&job);
        let mut sold = 0;
        let mut after_end = 0;
        while after_end < 2 {
            job.budget = self.budget(total);
            if self.random.once_in(5) {
                let refused = disturbed(self.random, &job);
                self.call(&refused)?;
            }
            let left = self.call(&job)?;
            sold += left.given[5];
            after_end += left.given[6];
            job = Call { given: left.given, table: left.table, result: left.result, ..job };
        }
        if sold != total || job.result != schoolbook(&job) {
            self.differs(&job, &format!("a job of {total} steps sold {sold}, or its product is not the schoolbook one"));
        }
        self.met.jobs += 1;
        self.met.widths.insert(asked);
        Some(())
    }

    fn budget(&mut self, total: u64) -> u32 {
        match self.random.below(8) {
            0 => 0,
            1 => 1,
            2 => self.random.below(10) as u32,
            3 => u32::MAX,
            _ => self.random.below(total as usize / 2 + 2) as u32,
        }
    }

    /// Cells packed and unpacked come back the same, and so do words unpacked and packed.
    pub fn round_trip(&mut self, turn: usize) -> Option<()> {
        let pack = making::legal(self.random, Name::Pack, turn);
        let unpack =
            Call { name: Name::Unpack, a: self.call(&pack)?.result, cells: vec![7; pack.cells.len()], result: Vec::new(), ..pack.clone() };
        if self.call(&unpack)?.cells != pack.cells {
            self.differs(&unpack, "cells packed and unpacked are not the same");
        }
        let unpack = making::legal(self.random, Name::Unpack, turn);
        let pack =
            Call { name: Name::Pack, cells: self.call(&unpack)?.cells, a: Vec::new(), result: vec![7; unpack.a.len()], ..unpack.clone() };
        if self.call(&pack)?.result != unpack.a {
            self.differs(&pack, "words unpacked and packed are not the same");
        }
        self.met.round_trips += 2;
        Some(())
    }

    /// The witness is packed into the words that the README gives, and its total is its quote at every width, 0 among them.
    pub fn quote_met(&mut self, rows: usize, columns: usize) -> Option<()> {
        let sizes = ((rows as u64, columns as u64), (0, 0));
        let pack = Call { cells: Digits::witness(rows, columns).cells, ..making::made(self.random, Name::Pack, sizes, 0) };
        let a = self.call(&pack)?.result;
        if a != witness_words(rows, columns) {
            self.differs(&pack, "the witness has other words");
        }
        for width in 0..=8 {
            let quote = making::made(self.random, Name::Quote, sizes, width);
            let quoted = self.call(&quote)?.given;
            let total = Call { a: a.clone(), ..making::made(self.random, Name::Total, sizes, width) };
            if self.call(&total)?.given != quoted {
                self.differs(&total, "the total of the witness is not its quote");
            }
        }
        Some(())
    }

    /// No total exceeds 1,050,112, and the witness meets it. A turn at that place finds its list ended. One step further is too far: the turn is
    /// refused, and its record stays.
    pub fn longest(&mut self) -> Option<()> {
        const LONGEST: u64 = 1_050_112;
        let sizes = ((1024, 1024), (1024, 3));
        let a = Digits::witness(1024, 1024);
        let total = Call { a: a.words(), ..making::made(self.random, Name::Total, sizes, 2) };
        if self.call(&total)?.given != [LONGEST] {
            self.differs(&total, "the longest list has another length");
        }
        for (steps, last) in [(LONGEST, [0, 1]), (LONGEST + 1, [8, 9])] {
            let given = vec![1024, 1024, 3, 2, steps, 8, 9];
            let turn = Call { a: a.words(), given, ..making::made(self.random, Name::Turn, sizes, 2) };
            if self.call(&turn)?.given[5..] != last {
                self.differs(&turn, "a turn at the end of the longest list, or beyond it");
            }
        }
        Some(())
    }
}

fn schoolbook(job: &Call) -> Vec<u64> {
    let digits = |part| job.size(part).map(|(rows, columns)| Digits::of_words(rows, columns, job.words(part)));
    match (digits(Part::A), digits(Part::B)) {
        (Some(a), Some(b)) => product(&a, &b).words(),
        _ => Vec::new(),
    }
}

/// In every row a unit plane of ones and a sign plane of 0xaaaa.., both cut at the last column.
fn witness_words(rows: usize, columns: usize) -> Vec<u64> {
    let plane = |word: u64| (0..words_of_plane(columns)).map(move |p| word & (u64::MAX >> (64 - (columns - 64 * p).min(64))));
    let row: Vec<u64> = plane(u64::MAX).chain(plane(0xaaaa_aaaa_aaaa_aaaa)).collect();
    row.repeat(rows)
}
