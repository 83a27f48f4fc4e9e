//! What each call has to answer and to leave, by document 01, written without a look at the library: digits one by one, the schoolbook product, the
//! list of row steps walked entry by entry.

use crate::call::{bytes, words, Call, Name, Written};
use crate::digits::{combined, faults, list, product, walk, words_of_plane, Digits};
use crate::quotes::{default_width, quote};
use crate::refusals::{of_cells, Refusal};

/// Every test that holds, in document 01's order; the first is the answer, none means done. A test that needs an earlier one to have
/// passed (a length needs sizes, cells need a length) is left out where it has not.
pub fn refusals(call: &Call) -> Vec<Refusal> {
    let mut found = Vec::new();
    if call.name.is_job() && call.record.len() != 56 {
        found.push(Refusal::without_place(4));
        if call.name == Name::Turn {
            return found;
        }
    }
    let (counts, width) = asked(call);
    let buffers = buffers(call, &counts, width);
    let tests = [
        (1, counts.iter().any(|count| *count > 1024)),
        (11, counts.iter().any(|count| (65..=1024).contains(count))),
        (2, misfit(call)),
        (3, width > 8 || width == 0),
        (4, unlike_count(call) || buffers.iter().any(|buffer| buffer.length().map_or(false, |length| length != buffer.bytes.len()))),
        (8, call.name == Name::Combination && call.digit > 2),
    ];
    found.extend(tests.iter().filter(|(_, holds)| *holds).map(|(number, _)| Refusal::without_place(*number)));
    for (before, buffer) in buffers.iter().enumerate().filter(|(_, buffer)| buffer.read && buffer.fits()) {
        found.extend(of_cells(before + 1, buffer.rows as usize, buffer.columns as usize, &words(buffer.bytes)));
    }
    found.extend((call.name == Name::Turn && beyond(call, &buffers[0], width)).then(|| Refusal::without_place(7)));
    found
}

/// The counts and the width meant, which a turn has in its record.
fn asked(call: &Call) -> (Vec<u64>, u64) {
    let (a, b) = (call.a_size, call.b_size);
    match call.name {
        Name::Turn => (words(&call.record)[0..3].to_vec(), words(&call.record)[3]),
        Name::Open => (vec![a.0, a.1, b.0, b.1], meant(call)),
        Name::Width | Name::Quote => (vec![a.0, a.1], meant(call)),
        // These have no width; any that is none of the refused ones will do.
        Name::Check | Name::Negation => (vec![a.0, a.1], 1),
        _ => (vec![a.0, a.1, b.0, b.1], 1),
    }
}

/// What the width that was handed in means.
fn meant(call: &Call) -> u64 {
    match call.width {
        0 => default_width(call.a_size.0, call.a_size.1),
        width => width,
    }
}

fn misfit(call: &Call) -> bool {
    match call.name {
        Name::Combination => call.a_size != call.b_size,
        Name::Product | Name::Open => call.a_size.1 != call.b_size.0,
        _ => false,
    }
}

/// A count is one word.
fn unlike_count(call: &Call) -> bool {
    call.name.counts() && call.product.len() != 8
}

/// Whether a record's steps done exceed the list's length. A stray sign in A is no digit: then there is no list to count.
fn beyond(call: &Call, a: &Buffer, width: u64) -> bool {
    if !(1..=8).contains(&width) || !a.fits() {
        return false;
    }
    let (rows, columns, held) = (a.rows as usize, a.columns as usize, words(a.bytes));
    let total = || list(&Digits::of_words(rows, columns, &held), width as usize).len() as u64;
    !faults(rows, columns, &held).0 && words(&call.record)[4] > total()
}

struct Buffer<'a> {
    bytes: &'a [u8],
    rows: u64,
    columns: u64,
    read: bool,
}

impl Buffer<'_> {
    /// Its exact length; none for sizes that no buffer can have.
    fn length(&self) -> Option<usize> {
        if self.rows > 1024 || self.columns > 1024 {
            return None;
        }
        Some(16 * words_of_plane(self.columns as usize) * self.rows as usize)
    }

    /// Whether its cells can be looked at. (Those of larger ones could be too, but it takes time, and a larger one is refused in any case.)
    fn fits(&self) -> bool {
        self.rows <= 256 && self.columns <= 64 && self.length() == Some(self.bytes.len())
    }
}

fn buffers<'a>(call: &'a Call, counts: &[u64], width: u64) -> Vec<Buffer<'a>> {
    let buffer = |bytes, rows, columns, read| Buffer { bytes, rows, columns, read };
    let a = |bytes, read| buffer(bytes, counts[0], counts[1], read);
    // A width out of range has no table: no length of it is wrong.
    let table_rows = if (1..=8).contains(&width) { 1 << width } else { u64::MAX };
    let last = *counts.last().unwrap();
    match call.name {
        Name::Width | Name::Quote => Vec::new(),
        Name::Check => vec![a(&call.a, true)],
        Name::Negation => vec![a(&call.a, true), a(&call.product, false)],
        Name::Combination => vec![a(&call.a, true), buffer(&call.b, counts[2], last, true), a(&call.product, false)],
        Name::Product => vec![a(&call.a, true), buffer(&call.b, counts[2], last, true), buffer(&call.product, counts[0], last, false)],
        Name::Open | Name::Turn => {
            let turn = call.name == Name::Turn;
            let b_rows = if turn { counts[1] } else { counts[2] };
            vec![
                a(&call.a, true),
                buffer(&call.b, b_rows, last, true),
                buffer(&call.table, table_rows, last, turn),
                buffer(&call.product, counts[0], last, turn),
            ]
        }
    }
}

/// What an accepted call leaves.
pub fn done(call: &Call) -> Written {
    let mut left = Written { record: call.record.clone(), table: call.table.clone(), product: call.product.clone() };
    let digits = |size: (u64, u64), buffer: &[u8]| Digits::of_words(size.0 as usize, size.1 as usize, &words(buffer));
    match call.name {
        Name::Check => {}
        Name::Width => left.product = bytes(&[meant(call)]),
        Name::Quote => left.product = bytes(&[quote(call.a_size.0, call.a_size.1, meant(call))]),
        Name::Turn => turned(call, &mut left),
        Name::Open => {
            left.record = bytes(&[call.a_size.0, call.a_size.1, call.b_size.1, meant(call), 0, 0, 0]);
            left.table = vec![0; call.table.len()];
            left.product = vec![0; call.product.len()];
        }
        Name::Negation => {
            let mut a = digits(call.a_size, &call.a);
            for cell in a.cells.iter_mut() {
                *cell = (3 - *cell) % 3;
            }
            left.product = bytes(&a.words());
        }
        Name::Combination => {
            let (a, b) = (digits(call.a_size, &call.a), digits(call.b_size, &call.b));
            left.product = bytes(&combined(a, &b, call.digit).words());
        }
        Name::Product => {
            let (a, b) = (digits(call.a_size, &call.a), digits(call.b_size, &call.b));
            left.product = bytes(&product(&a, &b).words());
        }
    }
    left
}

/// The next steps of the list, on table and product as found.
fn turned(call: &Call, left: &mut Written) {
    let mut record = words(&call.record);
    let (m, l, n, width) = (record[0] as usize, record[1] as usize, record[2] as usize, record[3] as usize);
    let a = Digits::of_words(m, l, &words(&call.a));
    let b = Digits::of_words(l, n, &words(&call.b));
    let mut table = Digits::of_words(1 << width, n, &words(&call.table));
    let mut product = Digits::of_words(m, n, &words(&call.product));
    let steps = list(&a, width);
    let first = record[4] as usize;
    let made = (steps.len() - first).min(call.budget as usize);
    walk(&steps[first..first + made], &b, &mut table, &mut product);
    record[4] += made as u64;
    record[5] = made as u64;
    record[6] = (record[4] == steps.len() as u64) as u64;
    left.record = bytes(&record);
    left.table = bytes(&table.words());
    left.product = bytes(&product.words());
}
