//! How far plans stay below their quotes: random plans of uniform digits, counted by the library, as lines of the table in docs/QUOTES.md. Every
//! quote and every total is compared with this host's own.

use crate::call::{Call, Name};
use crate::digits::Digits;
use crate::making;
use crate::met::Met;
use crate::random::Random;
use crate::together::Caller;

/// Rows and columns of a plan.
const SIDES: [usize; 3] = [64, 256, 1024];

/// The last is the default.
const WIDTHS: [u64; 5] = [1, 2, 4, 8, 0];

/// So many plans of each size.
const PLANS: u64 = 10;

/// Prints the table's lines; the exit status, which is 1 where a call differs.
pub fn table(seed: u64) -> i32 {
    let mut met = Met::default();
    for side in SIDES {
        let plans: Vec<Digits> = (0..PLANS).map(|index| uniform(&mut Random::new(seed, index), side)).collect();
        for width in WIDTHS {
            let place = format!("plans of {side}, width {width}");
            let mut caller = Caller { random: &mut Random::new(seed, 0), place: &place, met: &mut met };
            match line(&mut caller, &plans, side, width) {
                Some(line) => println!("{line}"),
                None => return 1,
            }
        }
    }
    0
}

fn uniform(random: &mut Random, side: usize) -> Digits {
    let mut plan = Digits::zero(side, side);
    plan.cells.iter_mut().for_each(|cell| *cell = random.below(3) as u8);
    plan
}

/// The quote, the lowest and the highest total, and what part of the quote each is. None where a call differs, which has been reported.
fn line(caller: &mut Caller, plans: &[Digits], side: usize, width: u64) -> Option<String> {
    let sizes = ((side as u64, side as u64), (0, 0));
    let quote = making::made(caller.random, Name::Quote, sizes, width);
    let quoted = caller.call(&quote)?.given[0];
    let mut totals = Vec::new();
    for plan in plans {
        let total = Call { a: plan.words(), ..making::made(caller.random, Name::Total, sizes, width) };
        totals.push(caller.call(&total)?.given[0]);
    }
    totals.sort();
    let (low, high) = (totals[0], totals[totals.len() - 1]);
    let side = grouped(side as u64);
    let meant = quote.meant().expect("a width in range");
    let name = if width == 0 { format!("{meant}, the default") } else { format!("{meant}") };
    Some(format!(
        "| {side} by {side} | {name} | {} | {} to {} | {} to {} % |",
        grouped(quoted),
        grouped(low),
        grouped(high),
        part(low, quoted),
        part(high, quoted)
    ))
}

/// A number with a comma before every three digits.
fn grouped(number: u64) -> String {
    if number < 1000 {
        return number.to_string();
    }
    format!("{},{:03}", grouped(number / 1000), number % 1000)
}

/// The part in hundredths, to the nearest tenth of one.
fn part(some: u64, all: u64) -> String {
    let tenths = (2000 * some + all) / (2 * all);
    format!("{}.{}", tenths / 10, tenths % 10)
}
