//! Faults put into what a buffer holds, often several at once: of all of them the first is the one that a word names.

use crate::digits::{put, words_of_plane, At};
use crate::random::Random;

/// A count from `from` to below `to`: often one of the ends, or beside the edge of a word.
fn edge(random: &mut Random, from: usize, to: usize) -> usize {
    let any = from + random.below(to - from);
    let word = any / 64 * 64;
    match random.below(6) {
        0 => from,
        1 => to - 1,
        2 => random.of(&[word, word + 63]).clamp(from, to - 1),
        _ => any,
    }
}

/// One place or several in these rows and columns. The first is anywhere, the others behind it: in its row or below.
pub fn places(random: &mut Random, rows: usize, (from, to): (usize, usize)) -> Vec<At> {
    let (i, j) = (edge(random, 0, rows), edge(random, from, to));
    let others = random.of(&[0, 0, 0, 1, 2, 5]);
    let one_row = random.once_in(2);
    let mut places = vec![(i, j)];
    for _ in 0..others {
        let row = if one_row { i } else { edge(random, i, rows) };
        let column = edge(random, if row == i { j } else { from }, to);
        places.push((row, column));
    }
    places
}

/// Sets sign without unit in real columns of a legal buffer, or padding bits in either plane or both, if it has a place for them.
pub fn cells(random: &mut Random, (rows, columns): (usize, usize), words: &mut [u64], stray: bool) {
    let between = if stray { (0, columns) } else { (columns, 64 * words_of_plane(columns)) };
    if rows == 0 || between.0 == between.1 {
        return;
    }
    for at in places(random, rows, between) {
        let bits = if stray { (false, true) } else { random.of(&[(true, false), (false, true), (true, true)]) };
        put(columns, words, at, bits);
    }
}
