//! A Rust host of the C face. It links the archive, wraps the calls safely, and compares every call with an implementation of its own that shares
//! no code with the library: the word with its number and its place, record and every buffer byte for byte, guard bytes about them too, refused or
//! not.
//!
//!     face [--count N] [--seed S]
//!
//! It counts how often each number came from each call, and which numbers stood behind others: a pair 4<5 means that a call with both faults was
//! answered 4. It counts places too, by buffer and of several kinds. A number or a place that a call can give and never gave, any difference, and
//! no call at all end it with status 1.

mod call;
#[path = "../../common/counts.rs"]
mod counts;
#[path = "../../common/digits.rs"]
mod digits;
#[path = "../../common/guard.rs"]
mod guard;
mod library;
mod making;
mod meaning;
#[path = "../../common/options.rs"]
mod options;
#[path = "../../common/quotes.rs"]
mod quotes;
#[path = "../../common/random.rs"]
mod random;
#[path = "../../common/refusals.rs"]
mod refusals;
#[path = "../../common/spoil.rs"]
mod spoil;
mod trial;

use call::{words, Call, Name, NAMES};
use counts::Counts;
use digits::{list, product, Digits};
use random::Random;
use std::process::exit;
use trial::{carry_out, Trial};

/// So many calls meet every number of every call, in every buffer that it looks at, and places of all kinds.
const ENOUGH: u64 = 20_000;

/// Takes in one call; `place` says which it was.
fn take(counts: &mut Counts, place: &str, call: &Call, trial: &Trial) {
    counts.take(call.name as usize, &trial.refusals);
    if !trial.wrong.is_empty() {
        counts.differs(|| format!("{place}: {call:02x?}\n  {}", trial.wrong.join("\n  ")));
    }
}

/// A whole job: an opening and turns with what the last one left, to the end and once more. Its product is the schoolbook one, and its steps are
/// those of the list.
fn whole_job(random: &mut Random, place: &str, counts: &mut Counts) {
    let opening = making::job(random);
    let opened = carry_out(random, &opening);
    take(counts, place, &opening, &opened);
    let size = |size: (u64, u64)| (size.0 as usize, size.1 as usize);
    let ((m, l), (_, n)) = (size(opening.a_size), size(opening.b_size));
    let (a, b) = (Digits::of_words(m, l, &words(&opening.a)), Digits::of_words(l, n, &words(&opening.b)));
    let mut turn = Call { name: Name::Turn, record: opened.left.record, table: opened.left.table, product: opened.left.product, ..opening };
    let total = list(&a, words(&turn.record)[3] as usize).len() as u64;
    let mut sold = 0;
    let mut after_end = 0;
    while after_end < 2 {
        turn.budget = match random.below(6) {
            0 => random.budget(),
            1 => 0,
            _ => random.below(total as usize / 2 + 2) as u32,
        };
        let trial = carry_out(random, &turn);
        take(counts, place, &turn, &trial);
        if !trial.wrong.is_empty() {
            return;
        }
        turn.record = trial.left.record;
        turn.table = trial.left.table;
        turn.product = trial.left.product;
        let record = words(&turn.record);
        sold += record[5];
        after_end += record[6];
    }
    if sold != total || Digits::of_words(m, n, &words(&turn.product)) != product(&a, &b) {
        counts.differs(|| format!("{place}: {turn:02x?}\n  a job of {total} steps sold {sold}, or its product is not the schoolbook one"));
    }
}

fn main() {
    let (count, seed) = options::count_and_seed("face", 100_000);
    let mut counts = Counts::default();
    let (mut index, mut jobs) = (0, 0);
    while counts.calls < count {
        let mut random = Random::new(seed, index);
        let place = format!("seed {seed} index {index}");
        if index % 40 == 0 {
            whole_job(&mut random, &place, &mut counts);
            jobs += 1;
        } else {
            let call = making::single(&mut random);
            let trial = carry_out(&mut random, &call);
            take(&mut counts, &place, &call, &trial);
        }
        index += 1;
    }
    exit(summary(&counts, jobs))
}

fn summary(counts: &Counts, jobs: u64) -> i32 {
    let mut never = Vec::new();
    for name in NAMES {
        never.extend(counts.print(name as usize, name.text(), name.numbers(), &name.places()));
    }
    // No row here has a second word.
    never.extend(counts.print_places(&[5, 6], refusals::KINDS.len() - 1));
    let missing = counts.calls >= ENOUGH && !never.is_empty();
    if missing {
        println!("never met: {}", never.join(", "));
    }
    println!("{jobs} jobs taken to their end");
    if counts.calls == 0 {
        println!("no call was made, nothing is compared");
    }
    println!("{} calls, {} differ", counts.calls, counts.differ);
    (missing || counts.differ > 0 || counts.calls == 0) as i32
}
