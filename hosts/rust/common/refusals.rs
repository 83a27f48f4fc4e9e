//! What a refusal says, in one word: a number and, with some of them, the first place at fault.

use crate::digits::{faulty, words_of_plane, At};

/// A test that holds.
pub struct Refusal {
    pub number: u8,
    /// The buffer that is at fault, counted from 1 in the order in which a call looks at them; 0 where the number has no place.
    pub buffer: usize,
    /// All places at fault, by row and then column.
    places: Vec<At>,
    last_row: usize,
    /// The first column that can be at fault so, and the last.
    columns: (usize, usize),
}

/// What a run tells apart of the places in words, to see that it met each.
pub const KINDS: [(&str, fn(&Refusal) -> bool); 8] = [
    ("first row", |held| held.at().0 == 0),
    ("last of several rows", |held| held.at().0 > 0 && held.at().0 == held.last_row),
    ("row between", |held| held.at().0 > 0 && held.at().0 < held.last_row),
    ("first column", |held| held.at().1 == held.columns.0),
    ("last column", |held| held.at().1 == held.columns.1),
    ("others in its row", |held| held.places[1..].iter().any(|(i, _)| *i == held.at().0)),
    ("others below", |held| held.places.iter().any(|(i, _)| *i > held.at().0)),
    ("beyond the first word", |held| held.at().1 >= 64),
];

impl Refusal {
    pub fn without_place(number: u8) -> Refusal {
        Refusal { number, buffer: 0, places: Vec::new(), last_row: 0, columns: (0, 0) }
    }

    /// None where no place is at fault. The columns that can be are those from `from` to below `to`.
    pub fn at_first(number: u8, buffer: usize, places: Vec<At>, rows: usize, (from, to): (usize, usize)) -> Option<Refusal> {
        let (last_row, columns) = (rows.saturating_sub(1), (from, to.saturating_sub(1)));
        (!places.is_empty()).then_some(Refusal { number, buffer, places, last_row, columns })
    }

    /// The place that counts.
    pub fn at(&self) -> At {
        self.places.first().copied().unwrap_or((0, 0))
    }

    pub fn word(&self) -> u64 {
        let (row, column) = self.at();
        self.number as u64 + (1 << 8) * self.buffer as u64 + (1 << 16) * row as u64 + (1 << 32) * column as u64
    }
}

/// What is wrong with the cells of a buffer: 5 before 6.
pub fn of_cells(buffer: usize, rows: usize, columns: usize, words: &[u64]) -> Vec<Refusal> {
    let (stray, padded) = faulty(rows, columns, words);
    let stray = Refusal::at_first(5, buffer, stray, rows, (0, columns));
    let padded = Refusal::at_first(6, buffer, padded, rows, (columns, 64 * words_of_plane(columns)));
    stray.into_iter().chain(padded).collect()
}

/// A word in its parts.
pub fn text(word: u64) -> String {
    format!("{word:x} (number {}, buffer {}, row {}, column {})", word % 256, word / 256 % 256, word / 65536 % 65536, word >> 32)
}
