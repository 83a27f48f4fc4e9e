//! Sizes from 0 to 1,024, at the edges of words, mixed so that no call has much more cells than its cap.

use crate::call::Name;
use crate::random::Random;

/// Words a plane that every request with rows has to meet: short rows, and longer ones with every number of words left over after fours.
pub const CLASSES: [usize; 8] = [1, 2, 3, 4, 5, 6, 15, 16];

/// Counts at which the code takes another way: one pair of words, four pairs.
const EDGES: [u64; 8] = [63, 64, 65, 65, 128, 256, 257, 1023];

const ROWS: [u64; 22] = [1, 1, 2, 2, 2, 3, 4, 5, 8, 17, 63, 64, 65, 127, 128, 129, 191, 256, 257, 640, 1023, 1024];

/// Products that are large in two or three of their sizes. A run of the default count meets each, the last and largest once.
const LARGE: [(u64, u64, u64); 8] = [
    (1024, 5, 1024),
    (1023, 1024, 65),
    (65, 1024, 1024),
    (1024, 128, 960),
    (128, 1023, 257),
    (1024, 64, 1023),
    (3, 1024, 1024),
    (1024, 1024, 1024),
];

const LARGE_PLAIN: [(u64, u64); 4] = [(1024, 1024), (1023, 961), (1024, 65), (129, 1023)];

/// Sizes of A and of B.
pub type Sizes = ((u64, u64), (u64, u64));

/// A count whose row has `q` words a plane: the first and the last such, one beside them, a few columns, or any.
pub fn of_class(random: &mut Random, q: usize) -> u64 {
    let (first, last) = (64 * q as u64 - 63, 64 * q as u64);
    match random.below(5) {
        0 => first,
        1 => first + 1,
        2 => last - 1,
        3 => last,
        _ if q == 1 && random.once_in(2) => few(random),
        _ => first + random.below(64) as u64,
    }
}

/// So few columns of A that its list has three blocks at most, in many widths.
fn few(random: &mut Random) -> u64 {
    1 + random.below(24) as u64
}

pub fn any(random: &mut Random) -> u64 {
    match random.below(8) {
        0 | 1 => {
            let q = 1 + random.below(16);
            of_class(random, q)
        }
        2..=4 => random.of(&EDGES),
        _ => {
            let q = random.of(&CLASSES);
            of_class(random, q)
        }
    }
}

/// A number of rows; few where more would go beyond `most`.
pub fn rows(random: &mut Random, most: u64) -> u64 {
    let rows = random.of(&ROWS);
    if rows <= most {
        rows
    } else {
        1 + random.below(most.clamp(1, 8) as usize) as u64
    }
}

/// The sizes of the `turn`-th legal call of a request. The classes of A's columns and of B's columns (of a transpose's rows) come in every
/// combination; each fifth call has any, or a short list.
pub fn legal(random: &mut Random, name: Name, turn: usize) -> Sizes {
    if is_large(name, turn) {
        return large(name, turn / 13);
    }
    let (p, q) = if turn % 5 == 4 { (1 + random.below(16), 1 + random.below(16)) } else { (CLASSES[turn % 8], CLASSES[turn / 8 % 8]) };
    let (l, n) = (of_class(random, p), of_class(random, q));
    let short = name.has_width() && turn % 5 == 4 || name.reads().is_empty() && turn % 2 == 0;
    let l = if short { few(random) } else { l };
    let cells = if random.once_in(12) { 300_000 } else { 30_000 };
    let mut sizes = match name {
        Name::Tally => plain(1, l),
        Name::Transpose => plain(n, l),
        Name::Width | Name::Quote => plain(rows(random, 1024), l),
        Name::Opening | Name::Turn => ((rows(random, cells / l.max(n)), l), (l, n)),
        Name::Product => ((rows(random, 100 * cells / (l * n)), l), (l, n)),
        _ => plain(rows(random, cells / l), l),
    };
    if turn % 11 == 3 {
        without_cells(random, name, &mut sizes);
    }
    sizes
}

fn plain(rows: u64, columns: u64) -> Sizes {
    ((rows, columns), (rows, columns))
}

/// Whether the `turn`-th legal call is one of the few large ones. Tallies and transposes are as large without it, and jobs begin with openings.
pub fn is_large(name: Name, turn: usize) -> bool {
    turn % 13 == 12 && !matches!(name, Name::Tally | Name::Transpose | Name::Width | Name::Quote | Name::Opening)
}

fn large(name: Name, turn: usize) -> Sizes {
    if !name.multiplies() {
        let (rows, columns) = LARGE_PLAIN[turn % LARGE_PLAIN.len()];
        return plain(rows, columns);
    }
    // The longest list takes too long to walk: only a whole product has it.
    let kinds = if name == Name::Product { LARGE.len() } else { LARGE.len() - 1 };
    let (m, l, n) = LARGE[turn % kinds];
    ((m, l), (l, n))
}

/// Makes one of the counts 0.
fn without_cells(random: &mut Random, name: Name, sizes: &mut Sizes) {
    let (a, b) = (&mut sizes.0, &mut sizes.1);
    match random.below(3) {
        0 if name != Name::Tally => a.0 = 0,
        1 if name.multiplies() => b.1 = 0,
        _ => a.1 = 0,
    }
    if name.multiplies() {
        b.0 = a.1;
    } else {
        *b = *a;
    }
}

/// Sizes of a call that is to be damaged: small, since most such calls are refused, and all counts above 0.
pub fn damaged(random: &mut Random, name: Name) -> Sizes {
    let (l, n) = (any(random), any(random));
    match name {
        Name::Tally => plain(1, l),
        name if name.multiplies() => {
            // One of l and n is short: B has both.
            let (l, n) = if random.once_in(2) { (l.min(70), n) } else { (l, n.min(70)) };
            ((rows(random, 20_000 / l.max(n)), l), (l, n))
        }
        _ => plain(rows(random, 20_000 / l), l),
    }
}
