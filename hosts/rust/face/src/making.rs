//! Calls made from a seed: legal ones, and ones with one, two or three faults at once, so that the order of refusals is seen. Cells are wrong at one
//! place or at several, so that the first place is seen too.

use crate::call::{bytes, words, Call, Name, NAMES};
use crate::digits::{list, words_of_plane, Digits};
use crate::guard::noise;
use crate::quotes::default_width;
use crate::random::Random;
use crate::spoil;

const SIZES: [u64; 10] = [0, 1, 2, 3, 5, 8, 31, 63, 64, 64];
const BIG: [u64; 10] = [65, 66, 128, 1023, 1024, 1025, 1 << 32, 1 << 63, u64::MAX, (1 << 32) + 1];
const WIDE: [u64; 6] = [9, 10, 64, 255, 1 << 40, u64::MAX];
/// Digits above 2, some of which a narrower number would hold as 0, 1 or 2.
const ABOVE: [u64; 10] = [3, 3, 4, 255, 256, 257, 258, (1 << 32) + 1, 1 << 63, u64::MAX];

#[derive(Clone, Copy, PartialEq)]
enum Fault {
    Count,
    Misfit,
    Width,
    Length,
    Stray,
    Padding,
    Cells,
    Noise,
    Steps,
    RecordLength,
    Digit,
}

const FAULTS: [Fault; 11] = [
    Fault::Count,
    Fault::Misfit,
    Fault::Width,
    Fault::Length,
    Fault::Stray,
    Fault::Padding,
    Fault::Cells,
    Fault::Noise,
    Fault::Steps,
    Fault::RecordLength,
    Fault::Digit,
];

/// Sizes and width of a call before its buffers are made.
struct Plan {
    name: Name,
    a_size: (u64, u64),
    b_size: (u64, u64),
    width: u64,
}

pub fn name(random: &mut Random) -> Name {
    // Turns have most to go wrong.
    if random.once_in(4) {
        Name::Turn
    } else {
        random.of(&NAMES)
    }
}

fn size(random: &mut Random) -> u64 {
    match random.below(4) {
        0 => random.of(&SIZES),
        1 => random.below(65) as u64,
        _ => random.below(12) as u64,
    }
}

fn plan(random: &mut Random, name: Name) -> Plan {
    let (m, l, n) = (size(random), size(random), size(random));
    Plan {
        name,
        a_size: (m, l),
        b_size: if name == Name::Combination { (m, l) } else { (l, n) },
        width: if (name == Name::Open || name.counts()) && random.once_in(3) { 0 } else { 1 + random.below(8) as u64 },
    }
}

impl Plan {
    fn count(&mut self, random: &mut Random) -> &mut u64 {
        match random.below(if self.name.has_b() { 4 } else { 2 }) {
            0 => &mut self.a_size.0,
            1 => &mut self.a_size.1,
            2 => &mut self.b_size.0,
            _ => &mut self.b_size.1,
        }
    }

    fn table_rows(&self) -> u64 {
        match self.width {
            0 => 1 << default_width(self.a_size.0, self.a_size.1),
            1..=8 => 1 << self.width,
            _ => 2,
        }
    }
}

/// A legal buffer of this size; noise where no buffer can have it.
fn legal(random: &mut Random, rows: u64, columns: u64) -> Vec<u8> {
    if rows > 1024 || columns > 1024 || rows * columns > 20_000 {
        return noise(random, 48);
    }
    bytes(&Digits::random(random, rows as usize, columns as usize).words())
}

/// A buffer that is only overwritten: of the right length, any bytes.
fn overwritten(random: &mut Random, rows: u64, columns: u64) -> Vec<u8> {
    let length = legal(random, rows, columns).len();
    noise(random, length)
}

/// One call by itself: nothing that went before matters to it.
pub fn single(random: &mut Random) -> Call {
    let name = name(random);
    let mut faults = Vec::new();
    for _ in 0..random.of(&[0, 0, 1, 1, 1, 2, 2, 2, 3]) {
        faults.push(random.of(&FAULTS));
    }
    let has = |fault| faults.contains(&fault);
    let mut plan = plan(random, name);
    let mut shared = false;
    if name.has_b() && random.once_in(8) {
        plan.b_size = plan.a_size;
        if matches!(name, Name::Product | Name::Open | Name::Turn) {
            plan.a_size.1 = plan.a_size.0;
            plan.b_size = plan.a_size;
        }
        shared = true;
    }
    if has(Fault::Misfit) && name.has_b() {
        let other = size(random);
        *plan.count(random) = other;
    }
    if has(Fault::Count) {
        *plan.count(random) = random.of(&BIG);
        if random.once_in(3) {
            *plan.count(random) = random.of(&BIG);
        }
    }
    if has(Fault::Width) && (name.is_job() || name.counts()) {
        plan.width = if name == Name::Turn && random.once_in(2) { 0 } else { random.of(&WIDE) };
    }
    let mut call = made(random, &plan);
    call.shared = shared;
    if has(Fault::Digit) && name == Name::Combination {
        call.digit = random.of(&ABOVE);
    }
    for fault in &faults {
        match fault {
            Fault::Stray if name.looks_at() > 0 => cells(random, &mut call, &plan, true),
            Fault::Padding if name.looks_at() > 0 => cells(random, &mut call, &plan, false),
            Fault::Cells => many_cells(random, &mut call, &plan),
            Fault::Noise if random.once_in(2) => {
                let length = any_buffer(random, &mut call).len();
                *any_buffer(random, &mut call) = noise(random, length);
            }
            _ => {}
        }
    }
    if has(Fault::Length) {
        let buffer = any_buffer(random, &mut call);
        new_length(random, buffer);
    }
    if name == Name::Turn {
        call.record = record(random, &plan, &call.a, has(Fault::Steps));
    }
    if has(Fault::RecordLength) && name.is_job() && random.once_in(2) {
        new_length(random, &mut call.record);
    }
    if call.shared {
        call.b = call.a.clone();
    }
    call
}

fn made(random: &mut Random, plan: &Plan) -> Call {
    let (a, b) = (plan.a_size, plan.b_size);
    let job = plan.name.is_job();
    let turn = plan.name == Name::Turn;
    // A turn has one l: its B has as many rows as A has columns, whatever the plan says.
    let b = if turn { (a.1, b.1) } else { b };
    let result = match plan.name {
        Name::Check => (0, 0),
        Name::Product | Name::Open | Name::Turn => (a.0, b.1),
        _ => a,
    };
    let counts = plan.name.counts();
    Call {
        name: plan.name,
        a_size: a,
        b_size: b,
        width: plan.width,
        digit: random.below(3) as u64,
        budget: random.budget(),
        record: if job { noise(random, 56) } else { Vec::new() },
        a: if counts { Vec::new() } else { legal(random, a.0, a.1) },
        b: if plan.name.has_b() { legal(random, b.0, b.1) } else { Vec::new() },
        table: match (job, turn) {
            (false, _) => Vec::new(),
            (true, true) => legal(random, plan.table_rows(), b.1),
            (true, false) => overwritten(random, plan.table_rows(), b.1),
        },
        product: match (turn, counts) {
            (true, _) => legal(random, result.0, result.1),
            (_, true) => noise(random, 8),
            _ => overwritten(random, result.0, result.1),
        },
        shared: false,
    }
}

/// A record for a turn: steps done anywhere in the list or, on request, beyond it. The last two words are anything, since no turn reads them.
fn record(random: &mut Random, plan: &Plan, a: &[u8], beyond: bool) -> Vec<u8> {
    let (m, l, n, width) = (plan.a_size.0, plan.a_size.1, plan.b_size.1, plan.width);
    let countable = m <= 64 && l <= 64 && (1..=8).contains(&width) && a.len() == 16 * words_of_plane(l as usize) * m as usize;
    let total = if countable {
        list(&Digits::of_words(m as usize, l as usize, &words(a)), width as usize).len() as u64
    } else {
        random.below(300) as u64
    };
    let steps = if beyond {
        random.of(&[total + 1, total + 1, total + 2, 2 * total + 1, 1 << 32, (1 << 32) + total, 1 << 63, u64::MAX])
    } else {
        match random.below(4) {
            0 => 0,
            1 => total,
            _ => random.below(total as usize + 1) as u64,
        }
    };
    let noise = random.word();
    let mut made = vec![m, l, n, width, steps, random.of(&[0, 1, steps, noise]), random.of(&[0, 1, noise])];
    // Once in a while a record of noise.
    if random.once_in(200) {
        made = (0..7).map(|_| random.word()).collect();
    }
    bytes(&made)
}

/// A buffer that the call looks at, or writes.
fn any_buffer<'a>(random: &mut Random, call: &'a mut Call) -> &'a mut Vec<u8> {
    let has_b = call.name.has_b() && !call.shared;
    match random.below(6) {
        _ if call.name.counts() => &mut call.product,
        0 | 1 => &mut call.a,
        2 | 3 if has_b => &mut call.b,
        4 if call.name.is_job() => &mut call.table,
        5 if call.name != Name::Check => &mut call.product,
        _ => &mut call.a,
    }
}

fn new_length(random: &mut Random, buffer: &mut Vec<u8>) {
    let now = buffer.len();
    let then = match random.below(9) {
        0 => now + 1,
        1 => now.saturating_sub(1),
        2 => now + 8,
        3 => now.saturating_sub(8),
        4 => now + 16,
        5 => 0,
        6 => 2 * now + 4,
        7 => now.saturating_sub(16),
        _ => random.below(100),
    };
    buffer.resize(then, random.word() as u8);
}

/// Sets signs without unit in real columns, or padding bits, of a buffer that the call looks at.
fn cells(random: &mut Random, call: &mut Call, plan: &Plan, stray: bool) {
    let number = 1 + random.below(call.name.looks_at());
    cells_of(random, call, plan, number, stray);
}

/// Both, in half of the buffers that it looks at.
fn many_cells(random: &mut Random, call: &mut Call, plan: &Plan) {
    for number in 1..=call.name.looks_at() {
        for stray in [true, false] {
            if random.once_in(2) {
                cells_of(random, call, plan, number, stray);
            }
        }
    }
}

/// A buffer that has no such place, or not the length of its matrix, stays as it is.
fn cells_of(random: &mut Random, call: &mut Call, plan: &Plan, number: usize, stray: bool) {
    let (m, l, n) = (plan.a_size.0, plan.a_size.1, call.b_size.1);
    let (buffer, rows, columns) = match number {
        2 if !call.shared => (&mut call.b, call.b_size.0, n),
        3 => (&mut call.table, plan.table_rows(), n),
        4 => (&mut call.product, m, n),
        _ => (&mut call.a, m, l),
    };
    if rows > 1024 || columns > 1024 {
        return;
    }
    let (rows, columns) = (rows as usize, columns as usize);
    let mut held = words(buffer);
    if held.len() == 2 * words_of_plane(columns) * rows {
        spoil::cells(random, (rows, columns), &mut held, stray);
        *buffer = bytes(&held);
    }
}

/// The opening of a job; the turns follow with what it leaves.
pub fn job(random: &mut Random) -> Call {
    let mut plan = plan(random, Name::Open);
    // Jobs of a few hundred steps, each of which several turns share.
    if plan.width > 6 && random.once_in(2) {
        plan.width -= 5;
    }
    made(random, &plan)
}
