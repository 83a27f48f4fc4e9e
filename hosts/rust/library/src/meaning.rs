//! What each request has to answer, by document 01, written without a look at the library.

use crate::call::{Call, Name, Part};
use crate::digits::{faults, list, At, Digits};
use crate::refusals::{of_cells, Refusal};

/// Every test that holds, in document 01's order; the first is the answer, none means done. A test that needs an earlier one to have
/// passed (a length needs sizes, cells need a length) is left out where it has not.
pub fn refusals(call: &Call) -> Vec<Refusal> {
    let mut found = Vec::new();
    let tests = [
        (1, call.counts().iter().any(|count| *count > 1024)),
        (2, misfit(call)),
        (3, call.name.has_width() && call.meant().is_none()),
        (4, call.name.parts().iter().any(|part| call.length(*part).map_or(false, |length| length != call.found(*part)))),
        (8, call.name.has_digit() && call.digit > 2),
    ];
    found.extend(tests.iter().filter(|(_, holds)| *holds).map(|(number, _)| Refusal::without_place(*number)));
    found.extend(digits_above(call));
    for (before, part) in call.name.reads().iter().enumerate().filter(|(_, part)| **part != Part::Cells) {
        if let Some((rows, columns)) = looked_at(call, *part) {
            found.extend(of_cells(before + 1, rows, columns, call.words(*part)));
        }
    }
    found.extend(beyond(call).then(|| Refusal::without_place(7)));
    found
}

fn misfit(call: &Call) -> bool {
    match call.name {
        Name::Combination => call.a_size != call.b_size,
        Name::Opening | Name::Product => call.a_size.1 != call.b_size.0,
        _ => false,
    }
}

/// Unpacked cells with a digit above 2. Where there are no columns, there is no right length with a cell in it.
fn digits_above(call: &Call) -> Option<Refusal> {
    if call.name != Name::Pack {
        return None;
    }
    let (rows, columns) = (call.a_size.0 as usize, (call.a_size.1 as usize).max(1));
    let above = call.cells.iter().enumerate().filter(|(_, cell)| **cell > 2);
    let places: Vec<At> = above.map(|(before, _)| (before / columns, before % columns)).collect();
    Refusal::at_first(8, 1, places, rows, (0, columns))
}

/// The size of a buffer whose cells can be looked at; none where its length is not that of its matrix.
fn looked_at(call: &Call, part: Part) -> Option<(usize, usize)> {
    call.size(part).filter(|_| call.length(part) == Some(call.found(part)))
}

/// Whether a record's steps done exceed the list's length. A stray sign in A is no digit: then there is no list to count.
fn beyond(call: &Call) -> bool {
    match (looked_at(call, Part::A), call.meant()) {
        (Some((rows, columns)), Some(width)) if call.name == Name::Turn && !faults(rows, columns, &call.a).0 => {
            call.given[4] > list(&Digits::of_words(rows, columns, &call.a), width).len() as u64
        }
        _ => false,
    }
}
