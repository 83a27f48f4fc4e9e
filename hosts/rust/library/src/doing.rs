//! What each request has to leave, by document 01: digits one by one, the schoolbook product, the list of row steps walked entry by entry.

use crate::call::{Call, Name, Part, Written};
use crate::digits::{combined, list, product, walk, Digits, Step};
use crate::quotes::quote;

/// The digits of one of an accepted call's matrices.
fn digits(call: &Call, part: Part) -> Digits {
    let (rows, columns) = call.size(part).expect("an accepted call has sizes");
    if part == Part::Cells {
        return Digits { rows, columns, cells: call.cells.clone() };
    }
    Digits::of_words(rows, columns, call.words(part))
}

/// What a refused call leaves: every buffer as it was, the record of an opening or a turn too, and counts of 0.
pub fn refused(call: &Call) -> Written {
    let job = matches!(call.name, Name::Opening | Name::Turn);
    let given = if job { call.given.clone() } else { vec![0; call.given.len()] };
    Written { given, cells: call.cells.clone(), table: call.table.clone(), result: call.result.clone() }
}

/// What an accepted call leaves.
pub fn done(call: &Call) -> Written {
    let mut left = refused(call);
    match call.name {
        Name::Check => {}
        Name::Pack => left.result = digits(call, Part::Cells).words(),
        Name::Unpack => left.cells = digits(call, Part::A).cells,
        Name::Combination => left.result = combined(digits(call, Part::A), &digits(call, Part::B), call.digit.into()).words(),
        Name::Negation => left.result = singles(call, |x| 3 - x),
        Name::Scaling => left.result = singles(call, |x| call.digit * x),
        Name::Transpose => left.result = transposed(&digits(call, Part::A)).words(),
        Name::Tally => left.given = tally(&digits(call, Part::A)),
        Name::Width => left.given = vec![width(call)],
        Name::Quote => left.given = vec![quote(call.a_size.0, call.a_size.1, width(call))],
        Name::Total => left.given = vec![steps(call).len() as u64],
        Name::Opening => opened(call, &mut left),
        Name::Turn => turned(call, &mut left),
        Name::Product => multiplied(call, &mut left),
    }
    left
}

fn singles(call: &Call, f: impl Fn(u8) -> u8) -> Vec<u64> {
    let mut a = digits(call, Part::A);
    for x in a.cells.iter_mut() {
        *x = f(*x) % 3;
    }
    a.words()
}

fn transposed(a: &Digits) -> Digits {
    let mut made = Digits::zero(a.columns, a.rows);
    for i in 0..a.rows {
        for j in 0..a.columns {
            made.cells[j * a.rows + i] = a.at(i, j);
        }
    }
    made
}

/// Zeros, ones, twos, and 1 if all three are equally many: each is a third of the columns.
fn tally(row: &Digits) -> Vec<u64> {
    let count = |digit: u8| row.cells.iter().filter(|cell| **cell == digit).count();
    let balanced = [0, 1, 2].iter().all(|digit| 3 * count(*digit) == row.columns);
    vec![count(0) as u64, count(1) as u64, count(2) as u64, balanced as u64]
}

/// The width meant by a call that is accepted.
fn width(call: &Call) -> u64 {
    call.meant().expect("an accepted call has a width") as u64
}

fn steps(call: &Call) -> Vec<Step> {
    list(&digits(call, Part::A), width(call) as usize)
}

fn opened(call: &Call, left: &mut Written) {
    left.given = vec![call.a_size.0, call.a_size.1, call.b_size.1, width(call), 0, 0, 0];
    left.table = vec![0; call.table.len()];
    left.result = vec![0; call.result.len()];
}

/// The next steps of the list, on table and product as found.
fn turned(call: &Call, left: &mut Written) {
    let steps = steps(call);
    let first = call.given[4] as usize;
    let made = (steps.len() - first).min(call.budget as usize);
    let (mut table, mut product) = (digits(call, Part::Table), digits(call, Part::Result));
    walk(&steps[first..first + made], &digits(call, Part::B), &mut table, &mut product);
    left.given[4] += made as u64;
    left.given[5] = made as u64;
    left.given[6] = (first + made == steps.len()) as u64;
    left.table = table.words();
    left.result = product.words();
}

/// The schoolbook product, and the table that the list leaves: only its table steps write that.
fn multiplied(call: &Call, left: &mut Written) {
    let (a, b) = (digits(call, Part::A), digits(call, Part::B));
    let (rows, columns) = call.size(Part::Table).expect("an accepted call has sizes");
    let mut table = Digits::zero(rows, columns);
    let table_steps: Vec<Step> = steps(call).into_iter().filter(|step| matches!(step, Step::Table { .. })).collect();
    walk(&table_steps, &b, &mut table, &mut Digits::zero(0, columns));
    left.table = table.words();
    left.result = product(&a, &b).words();
}
