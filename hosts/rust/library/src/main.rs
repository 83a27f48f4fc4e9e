//! A Rust host of the library itself. It links the archive of the fourteen requests over words, wraps the calls safely, and compares every call
//! with an implementation of its own that shares no code with the library: the answer with its number and its place, what comes back beside it, and
//! every buffer word for word, guard words about them too, refused or not.
//!
//!     library [--count N] [--seed S]
//!     library --plans
//!
//! The second form prints the table of docs/QUOTES.md instead: random plans, their totals beside their quotes.
//!
//! Half of the calls are legal, with rows of every length up to 16 words a plane; the others have every fault that the request can have by itself,
//! every pair of faults, and wrong cells in many places at once. It counts how often each number came from each request, and which numbers stood
//! behind others: a pair 4<5 means that a call with both faults was answered 4. It counts places too, by buffer and of several kinds. A number or
//! a place that a request can give and never gave, a length of rows that was not met, and any difference end it with status 1.

mod call;
#[path = "../../common/counts.rs"]
mod counts;
mod damage;
#[path = "../../common/digits.rs"]
mod digits;
mod doing;
#[path = "../../common/guard.rs"]
mod guard;
mod linked;
mod making;
mod meaning;
mod met;
#[path = "../../common/options.rs"]
mod options;
mod plans;
#[path = "../../common/quotes.rs"]
mod quotes;
#[path = "../../common/random.rs"]
mod random;
#[path = "../../common/refusals.rs"]
mod refusals;
mod sizes;
#[path = "../../common/spoil.rs"]
mod spoil;
mod together;
mod trial;

use call::{Name, NAMES};
use met::{Met, ENOUGH};
use random::Random;
use std::process::exit;
use together::Caller;

/// The requests of one round, so often that a run meets every plan of faults; then come a job and a round trip.
const ROUND: [Name; 29] = [
    Name::Turn,
    Name::Check,
    Name::Product,
    Name::Combination,
    Name::Opening,
    Name::Transpose,
    Name::Turn,
    Name::Scaling,
    Name::Product,
    Name::Combination,
    Name::Pack,
    Name::Total,
    Name::Turn,
    Name::Quote,
    Name::Width,
    Name::Tally,
    Name::Product,
    Name::Total,
    Name::Opening,
    Name::Unpack,
    Name::Opening,
    Name::Transpose,
    Name::Turn,
    Name::Scaling,
    Name::Quote,
    Name::Width,
    Name::Combination,
    Name::Negation,
    Name::Combination,
];

/// Sizes of the witness: around the ends of words, and with a narrow last block at most widths.
const WITNESSED: [(usize, usize); 5] = [(1, 1), (3, 64), (5, 65), (64, 131), (9, 1023)];

fn main() {
    if std::env::args().skip(1).eq(["--plans"]) {
        exit(plans::table(1))
    }
    let (count, seed) = options::count_and_seed("library --plans, or library", ENOUGH);
    let mut met = Met::default();
    Caller { random: &mut Random::new(seed, 0), place: "the longest list", met: &mut met }.longest();
    for (rows, columns) in WITNESSED {
        Caller { random: &mut Random::new(seed, 0), place: "a quote that is met", met: &mut met }.quote_met(rows, columns);
    }
    let mut made = [0; NAMES.len()];
    let mut index = 0;
    while met.counts.calls < count {
        let mut random = Random::new(seed, index);
        let place = format!("seed {seed} index {index}");
        let (round, slot) = (index as usize / (ROUND.len() + 2), index as usize % (ROUND.len() + 2));
        let mut caller = Caller { random: &mut random, place: &place, met: &mut met };
        match ROUND.get(slot) {
            Some(name) => {
                single(&mut caller, *name, made[*name as usize]);
                made[*name as usize] += 1;
            }
            None if slot == ROUND.len() => drop(caller.job(round)),
            None => drop(caller.round_trip(round)),
        }
        index += 1;
    }
    exit(met.summary())
}

/// One call by itself: legal and damaged ones in turn, and after some of them one whose cells are wrong.
fn single(caller: &mut Caller, name: Name, made: usize) {
    if made % 2 == 0 {
        let call = making::legal(caller.random, name, made / 2);
        caller.call(&call);
    } else {
        let call = damage::call(caller.random, name, made / 2);
        caller.call(&call);
        caller.met.plans[name as usize] += 1;
    }
    // Pack alone has digits at places, and comes once in a round.
    let every = if name == Name::Pack { 1 } else { 3 };
    if made % every == 0 && !name.reads().is_empty() {
        let call = damage::wrong_cells(caller.random, name, made / every);
        caller.call(&call);
    }
}
