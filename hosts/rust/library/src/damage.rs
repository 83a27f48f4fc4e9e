//! Calls with faults: every fault that a request can have by itself, and every pair of them, so that the order of refusals is seen; and calls in
//! which cells alone are wrong, at many places, so that the first place is seen.

use crate::call::{Call, Name, Part};
use crate::digits::words_of_plane;
use crate::making::{made, record, total, width};
use crate::random::Random;
use crate::sizes::{any, damaged, Sizes};
use crate::spoil;

#[derive(Clone, Copy, PartialEq, Debug)]
pub enum Fault {
    /// By its place: A's rows and columns, B's rows and columns.
    Count(usize),
    Misfit,
    Width,
    Length(Part),
    Digit,
    Stray(Part),
    Padding(Part),
    Steps,
}

const WIDE: [u64; 10] = [9, 9, 10, 64, 255, 256, 260, 1 << 40, 1 << 63, u64::MAX];

/// The counts that a request takes. The l of a turn is A's columns and B's rows.
fn counts(name: Name) -> &'static [usize] {
    match name {
        Name::Tally => &[1],
        Name::Turn => &[0, 1, 3],
        name if name.reads().contains(&Part::B) => &[0, 1, 2, 3],
        _ => &[0, 1],
    }
}

/// The faults that a request can have.
fn faults(name: Name) -> Vec<Fault> {
    let mut all: Vec<Fault> = counts(name).iter().map(|place| Fault::Count(*place)).collect();
    if name.reads().contains(&Part::B) && name != Name::Turn {
        all.push(Fault::Misfit);
    }
    if name.has_width() {
        all.push(Fault::Width);
    }
    all.extend(name.parts().into_iter().map(Fault::Length));
    if name == Name::Pack || name.has_digit() {
        all.push(Fault::Digit);
    }
    for part in name.reads().iter().filter(|part| **part != Part::Cells) {
        all.extend([Fault::Stray(*part), Fault::Padding(*part)]);
    }
    if name == Name::Turn {
        all.push(Fault::Steps);
    }
    all
}

/// Every fault by itself, then every pair.
pub fn plans(name: Name) -> Vec<Vec<Fault>> {
    let all = faults(name);
    let mut plans: Vec<Vec<Fault>> = all.iter().map(|fault| vec![*fault]).collect();
    for (i, first) in all.iter().enumerate() {
        plans.extend(all[i + 1..].iter().map(|second| vec![*first, *second]));
    }
    plans
}

/// The `turn`-th damaged call of a request.
pub fn call(random: &mut Random, name: Name, turn: usize) -> Call {
    let plans = plans(name);
    let plan = &plans[turn % plans.len()];
    let mut width = width(random, name, turn);
    if plan.contains(&Fault::Width) {
        width = if name == Name::Turn && random.once_in(2) { 0 } else { random.of(&WIDE) };
    }
    let sizes = sizes(random, name, plan);
    let mut call = made(random, name, sizes, width);
    for fault in plan {
        cells(random, &mut call, *fault);
    }
    record(random, &mut call);
    if plan.contains(&Fault::Steps) {
        let total = total(&call);
        call.given[4] = random.of(&[total + 1, total + 1, total + 2, 2 * total + 1, 1 << 32, (1 << 32) + total, 1 << 63, u64::MAX]);
    }
    for fault in plan {
        match fault {
            Fault::Length(part) => length(random, &mut call, *part),
            Fault::Count(place) => count(random, &mut call, *place, plan.len() == 1),
            _ => {}
        }
    }
    call
}

/// Sizes that have a place for every fault of the plan, and fit unless it has a misfit.
fn sizes(random: &mut Random, name: Name, plan: &[Fault]) -> Sizes {
    loop {
        let mut sizes = damaged(random, name);
        if plan.contains(&Fault::Misfit) {
            misfit(random, name, &mut sizes);
        }
        let (a, b) = sizes;
        let fits = if name.multiplies() { a.1 == b.0 } else { a == b };
        if fits != plan.contains(&Fault::Misfit) && plan.iter().all(|fault| has_place(sizes, *fault)) {
            return sizes;
        }
    }
}

fn has_place((a, b): Sizes, fault: Fault) -> bool {
    let size = |part| match part {
        Part::Cells | Part::A => a,
        Part::B => b,
        Part::Table => (2, b.1),
        Part::Result => (a.0, b.1),
    };
    match fault {
        Fault::Stray(part) => size(part).0 > 0 && size(part).1 > 0,
        Fault::Padding(part) => size(part).0 > 0 && size(part).1 % 64 > 0,
        _ => true,
    }
}

/// Another count for B's rows, or for its columns in a combination: 0, a little other, or any.
fn misfit(random: &mut Random, name: Name, sizes: &mut Sizes) {
    let b = &mut sizes.1;
    let count = if name.multiplies() || random.once_in(2) { &mut b.0 } else { &mut b.1 };
    *count = match random.below(4) {
        0 => (*count + 1).min(1024),
        1 => *count - 1,
        2 => 1 + random.below(9) as u64,
        _ => any(random).min(130),
    };
}

/// Faults of what a buffer holds, at one place or at several, and of the digit.
fn cells(random: &mut Random, call: &mut Call, fault: Fault) {
    let (part, stray) = match fault {
        Fault::Stray(part) => (part, true),
        Fault::Padding(part) => (part, false),
        Fault::Digit => return digit(random, call),
        _ => return,
    };
    if let Some(size) = call.size(part) {
        spoil::cells(random, size, call.words_mut(part), stray);
    }
}

/// A digit above 2, or such digits in unpacked cells.
fn digit(random: &mut Random, call: &mut Call) {
    const ABOVE: [u8; 11] = [3, 3, 4, 5, 6, 127, 128, 129, 130, 254, 255];
    if call.name.has_digit() {
        call.digit = random.of(&ABOVE);
        return;
    }
    let (rows, columns) = (call.a_size.0 as usize, call.a_size.1 as usize);
    for (i, j) in spoil::places(random, rows, (0, columns)) {
        call.cells[i * columns + j] = random.of(&ABOVE);
    }
}

/// The `turn`-th call of a request whose cells are wrong, often in several buffers: each in turn is the first of them. A digit may be wrong too.
pub fn wrong_cells(random: &mut Random, name: Name, turn: usize) -> Call {
    let (width, sizes) = (width(random, name, turn), damaged(random, name));
    let mut call = made(random, name, sizes, width);
    let first = turn % name.reads().len();
    for (place, part) in name.reads().iter().enumerate().skip(first) {
        let (stray, padding) = (Fault::Stray(*part), Fault::Padding(*part));
        let faults = match random.below(if place == first { 4 } else { 8 }) {
            _ if *part == Part::Cells => vec![Fault::Digit],
            0 => vec![stray],
            1 => vec![stray, padding],
            2 | 3 => vec![padding],
            _ => Vec::new(),
        };
        faults.iter().for_each(|fault| cells(random, &mut call, *fault));
    }
    if name.has_digit() && random.once_in(4) {
        digit(random, &mut call);
    }
    record(random, &mut call);
    call
}

/// One item more or less, none, a row more or less, twice as many.
fn length(random: &mut Random, call: &mut Call, part: Part) {
    let now = call.found(part);
    let row = now / call.size(part).map_or(1, |size| size.0.max(1));
    let then = match random.below(8) {
        0 | 1 => now + 1,
        2 | 3 => now.saturating_sub(1),
        4 => 0,
        5 => now + row,
        6 => now.saturating_sub(row),
        _ => 2 * now,
    };
    let then = if then == now { now + 1 } else { then };
    if part == Part::Cells {
        call.cells.resize(then, 0);
    } else {
        call.words_mut(part).resize(then, 0);
    }
}

/// A count above 1,024, and just above if it is the only fault. A little above, the buffers have the lengths that it asks for; far above, those
/// of its lowest bits.
fn count(random: &mut Random, call: &mut Call, place: usize, alone: bool) {
    let far = random.of(&[0, 0, 1 << 16, 1 << 32, 1 << 63, u64::MAX - 62, u64::MAX]);
    let near = alone || far == 0;
    let (a, b) = (&mut call.a_size, &mut call.b_size);
    let count = [&mut a.0, &mut a.1, &mut b.0, &mut b.1].into_iter().nth(place).expect("one of four");
    *count = match far {
        _ if alone => 1025,
        0 => random.of(&[1025, 1026, 1088]),
        far if far > 1 << 63 => far,
        far => *count + far,
    };
    if call.name == Name::Turn {
        b.0 = a.1;
        call.given[..3].copy_from_slice(&[a.0, a.1, b.1]);
    }
    if near {
        lengthen(call);
    }
}

/// Buffers of exactly the length that the counts ask for, though one is above 1,024.
fn lengthen(call: &mut Call) {
    let (a, b) = (call.a_size, call.b_size);
    for part in call.name.parts() {
        let (rows, columns) = match part {
            Part::Table => continue,
            Part::B => b,
            Part::Result if call.name.multiplies() => (a.0, b.1),
            Part::Result if call.name == Name::Transpose => (a.1, a.0),
            _ => a,
        };
        if rows > 2000 || columns > 2000 {
            continue;
        }
        if part == Part::Cells {
            call.cells.resize((rows * columns) as usize, 0);
        } else {
            call.words_mut(part).resize(2 * words_of_plane(columns as usize) * rows as usize, 0);
        }
    }
}

/// A turn that has to be refused, made of one that has not: table or product are damaged, or the steps done are too many.
pub fn disturbed(random: &mut Random, turn: &Call) -> Call {
    let mut call = turn.clone();
    let part = random.of(&[Part::Table, Part::Result]);
    let n = call.b_size.1;
    match random.below(4) {
        0 if n > 0 && call.found(part) > 0 => cells(random, &mut call, Fault::Stray(part)),
        1 if n % 64 > 0 && call.found(part) > 0 => cells(random, &mut call, Fault::Padding(part)),
        2 => length(random, &mut call, part),
        _ => call.given[4] = total(&call) + 1,
    }
    call
}
