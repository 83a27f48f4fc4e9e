//! What was met: how often each number came from each call, which numbers stood behind others, and which places were named.

use crate::refusals::{Refusal, KINDS};
use std::collections::{BTreeMap, BTreeSet};

#[derive(Default)]
pub struct Counts {
    pub calls: u64,
    pub differ: u64,
    numbers: BTreeMap<(usize, u8), u64>,
    pairs: BTreeSet<(usize, u8, u8)>,
    /// By call, number and buffer: how often a word had a place there.
    places: BTreeMap<(usize, u8, usize), u64>,
    /// By number and kind of place: how often a word had one.
    kinds: BTreeMap<(u8, usize), u64>,
    /// How often a stray sign was named though a padding bit of its buffer stands in an earlier row.
    late: u64,
}

impl Counts {
    /// Takes in one call, by its place among the names, with every test that holds; the first is the answer, none means done.
    pub fn take(&mut self, name: usize, refusals: &[Refusal]) {
        self.calls += 1;
        let first = refusals.first().map_or(0, |first| first.number);
        *self.numbers.entry((name, first)).or_insert(0) += 1;
        for second in refusals.iter().skip(1) {
            self.pairs.insert((name, first, second.number));
        }
        match refusals {
            [first, rest @ ..] if first.buffer > 0 => self.take_place(name, first, rest),
            _ => {}
        }
    }

    fn take_place(&mut self, name: usize, first: &Refusal, rest: &[Refusal]) {
        *self.places.entry((name, first.number, first.buffer)).or_insert(0) += 1;
        for (kind, (_, holds)) in KINDS.iter().enumerate() {
            *self.kinds.entry((first.number, kind)).or_insert(0) += holds(first) as u64;
        }
        let late = |second: &Refusal| second.buffer == first.buffer && second.at().0 < first.at().0;
        self.late += rest.first().map_or(false, late) as u64;
    }

    /// Counts a difference; the first five are printed.
    pub fn differs(&mut self, text: impl FnOnce() -> String) {
        self.differ += 1;
        if self.differ <= 5 {
            println!("{}", text());
        }
    }

    /// Prints what was met of one call, and gives those of its numbers, and of its numbers with a buffer, that were not.
    pub fn print(&self, name: usize, text: &str, numbers: &[u8], places: &[(u8, usize)]) -> Vec<String> {
        let met = |number: &u8| self.numbers.get(&(name, *number)).copied().unwrap_or(0);
        let met_at = |(number, buffer): &(u8, usize)| self.places.get(&(name, *number, *buffer)).copied().unwrap_or(0);
        let listed: Vec<String> = numbers.iter().map(|number| format!("{number}: {}", met(number))).collect();
        let pairs: Vec<String> =
            self.pairs.iter().filter(|pair| pair.0 == name).map(|(_, first, second)| format!("{first}<{second}")).collect();
        let placed: Vec<String> = places.iter().map(|place| format!("{} in {}: {}", place.0, place.1, met_at(place))).collect();
        println!("{text:<10} {}", listed.join(", "));
        println!("           two at once: {}", pairs.join(" "));
        if !placed.is_empty() {
            println!("           by buffer: {}", placed.join(", "));
        }
        let never = numbers.iter().filter(|number| met(number) == 0).map(|number| format!("{text} {number}"));
        let never_at = places.iter().filter(|place| met_at(place) == 0).map(|place| format!("{text} {} in buffer {}", place.0, place.1));
        never.chain(never_at).collect()
    }

    /// Prints what places were named, and gives those kinds of them that were not. `kinds` is how many of the kinds there can be.
    pub fn print_places(&self, numbers: &[u8], kinds: usize) -> Vec<String> {
        let mut never = Vec::new();
        for number in numbers {
            let met = |kind: usize| self.kinds.get(&(*number, kind)).copied().unwrap_or(0);
            let listed: Vec<String> = (0..kinds).map(|kind| format!("{}: {}", KINDS[kind].0, met(kind))).collect();
            println!("places of {number}: {}", listed.join(", "));
            never.extend((0..kinds).filter(|kind| met(*kind) == 0).map(|kind| format!("{number}, {}", KINDS[kind].0)));
        }
        println!("5 behind a 6 of an earlier row: {}", self.late);
        never.extend((self.late == 0).then(|| "5 behind a 6 of an earlier row".to_string()));
        never
    }
}
