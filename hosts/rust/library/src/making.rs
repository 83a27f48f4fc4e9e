//! Legal calls made from a seed.

use crate::call::{Call, Name, Part};
use crate::digits::{list, words_of_plane, Digits};
use crate::guard::noise;
use crate::random::Random;
use crate::sizes::{self, Sizes};

/// The `turn`-th legal call of a request.
pub fn legal(random: &mut Random, name: Name, turn: usize) -> Call {
    let mut sizes = sizes::legal(random, name, turn);
    let shared = name.reads().contains(&Part::B) && !sizes::is_large(name, turn) && random.once_in(8);
    if shared && name.multiplies() {
        let side = sizes.0 .1.min(sizes.1 .1).min(130);
        sizes = ((side, side), (side, side));
    }
    let balance = name == Name::Tally && turn % 3 == 1;
    if balance {
        sizes.0 .1 = multiple_of_3(sizes.0 .1);
    }
    let width = width(random, name, turn);
    let mut call = made(random, name, sizes, width);
    if shared {
        call.b = call.a.clone();
        call.shared = true;
    }
    if balance {
        call.a = balanced(random, call.a_size.1 as usize).words();
    } else if name == Name::Tally && turn % 3 == 2 {
        call.a = paired(random, call.a_size.1 as usize).words();
    }
    record(random, &mut call);
    call
}

/// The last multiple of 3 up to a count of columns, or the next one where that has fewer words.
fn multiple_of_3(columns: u64) -> u64 {
    let below = columns - columns % 3;
    if words_of_plane(below as usize) == words_of_plane(columns as usize) {
        below
    } else {
        below + 3
    }
}

/// A row in which zeros, ones and twos are equally many, in any order.
fn balanced(random: &mut Random, columns: usize) -> Digits {
    let mut row = Digits::zero(1, columns);
    for j in 0..columns {
        row.cells[j] = (j % 3) as u8;
        row.cells.swap(j, random.below(j + 1));
    }
    row
}

/// A row with as many ones as twos, which alone does not make it balanced: of two neighbours, one is the other's negation.
fn paired(random: &mut Random, columns: usize) -> Digits {
    let mut row = Digits::zero(1, columns);
    for pair in row.cells.chunks_exact_mut(2) {
        let digit = random.below(3) as u8;
        pair.copy_from_slice(&[digit, (3 - digit) % 3]);
    }
    row
}

/// Widths in turn, 0 among them where it means the default.
pub fn width(random: &mut Random, name: Name, turn: usize) -> u64 {
    match turn as u64 % 9 {
        0 if name == Name::Turn => 1 + random.below(8) as u64,
        width => width,
    }
}

/// A call with all its buffers, of the right length and legal where they are read. Its record has no steps done yet.
pub fn made(random: &mut Random, name: Name, (a_size, b_size): Sizes, width: u64) -> Call {
    let mut call = Call {
        name,
        a_size,
        b_size,
        width,
        digit: random.below(3) as u8,
        budget: random.budget(),
        given: noise(random, name.given()),
        cells: Vec::new(),
        a: Vec::new(),
        b: Vec::new(),
        table: Vec::new(),
        result: Vec::new(),
        shared: false,
    };
    for part in name.parts() {
        let read = name.reads().contains(&part);
        let (rows, columns) = room(&call, part);
        if part == Part::Cells {
            call.cells = if read { Digits::random(random, rows, columns).cells } else { noise(random, rows * columns) };
        } else if read {
            *call.words_mut(part) = Digits::random(random, rows, columns).words();
        } else {
            *call.words_mut(part) = noise(random, 2 * words_of_plane(columns) * rows);
        }
    }
    call
}

/// The size for which a buffer is made. A width out of range has a table too: the one that it would have if it were in range.
fn room(call: &Call, part: Part) -> (usize, usize) {
    let n = call.b_size.1 as usize;
    match (part, call.meant(), call.width) {
        (Part::Table, None, 9 | 10) => (1 << call.width, n),
        (Part::Table, None, _) => (16, n),
        _ => call.size(part).expect("sizes up to 1,024"),
    }
}

/// The length of the list of a call whose A has the right length; anything for another.
pub fn total(call: &Call) -> u64 {
    match (call.size(Part::A), call.meant()) {
        (Some((rows, columns)), Some(width)) if call.length(Part::A) == Some(call.a.len()) => {
            list(&Digits::of_words(rows, columns, &call.a), width).len() as u64
        }
        _ => 100,
    }
}

/// Gives a turn its record, with steps done anywhere in the list. The last two words are anything: no turn reads them.
pub fn record(random: &mut Random, call: &mut Call) {
    if call.name != Name::Turn {
        return;
    }
    let total = total(call);
    let steps = match random.below(5) {
        0 => 0,
        1 => total,
        2 => total.saturating_sub(1),
        _ => random.below(total as usize + 1) as u64,
    };
    call.given[..5].copy_from_slice(&[call.a_size.0, call.a_size.1, call.b_size.1, call.width, steps]);
}
