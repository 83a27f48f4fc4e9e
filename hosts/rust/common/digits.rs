//! Matrices of digits, one byte a digit, and what document 01 says of them, written out as plainly as can be. Nothing here knows how the
//! library does it: the product is the schoolbook one, and a buffer is judged bit by bit.

use crate::random::Random;

#[derive(Clone, PartialEq, Debug)]
pub struct Digits {
    pub rows: usize,
    pub columns: usize,
    pub cells: Vec<u8>,
}

impl Digits {
    pub fn zero(rows: usize, columns: usize) -> Digits {
        Digits { rows, columns, cells: vec![0; rows * columns] }
    }

    /// 1 in even columns and 2 in odd ones, in every row: the plan whose list of row steps is as long as its quote.
    pub fn witness(rows: usize, columns: usize) -> Digits {
        let mut made = Digits::zero(rows, columns);
        for (place, cell) in made.cells.iter_mut().enumerate() {
            *cell = 1 + (place % columns % 2) as u8;
        }
        made
    }

    /// Random digits in one of five styles: uniform, sparse, the witness, all 2, all 0.
    pub fn random(random: &mut Random, rows: usize, columns: usize) -> Digits {
        let mut made = Digits::zero(rows, columns);
        let style = random.below(8);
        if style == 4 {
            return Digits::witness(rows, columns);
        }
        for cell in made.cells.iter_mut() {
            *cell = match style {
                0 => 0,
                1 => 2,
                2 | 3 => {
                    if random.once_in(16) {
                        1 + random.below(2) as u8
                    } else {
                        0
                    }
                }
                _ => random.below(3) as u8,
            };
        }
        made
    }

    pub fn at(&self, i: usize, j: usize) -> u8 {
        self.cells[i * self.columns + j]
    }

    pub fn row(&self, i: usize) -> &[u8] {
        &self.cells[i * self.columns..(i + 1) * self.columns]
    }

    pub fn row_mut(&mut self, i: usize) -> &mut [u8] {
        &mut self.cells[i * self.columns..(i + 1) * self.columns]
    }

    /// The only legal buffer that holds these digits.
    pub fn words(&self) -> Vec<u64> {
        let q = words_of_plane(self.columns);
        let mut words = vec![0; 2 * q * self.rows];
        for i in 0..self.rows {
            for j in 0..self.columns {
                let digit = self.at(i, j);
                words[i * 2 * q + j / 64] |= u64::from(digit != 0) << (j % 64);
                words[i * 2 * q + q + j / 64] |= u64::from(digit == 2) << (j % 64);
            }
        }
        words
    }

    /// The digits that a legal buffer holds.
    pub fn of_words(rows: usize, columns: usize, words: &[u64]) -> Digits {
        let q = words_of_plane(columns);
        let mut made = Digits::zero(rows, columns);
        for i in 0..rows {
            for j in 0..columns {
                let unit = words[i * 2 * q + j / 64] >> (j % 64) & 1;
                let sign = words[i * 2 * q + q + j / 64] >> (j % 64) & 1;
                made.cells[i * columns + j] = (unit + sign) as u8;
            }
        }
        made
    }
}

/// The words of one plane of a row.
pub fn words_of_plane(columns: usize) -> usize {
    columns / 64 + if columns % 64 == 0 { 0 } else { 1 }
}

/// Row and column of a place, which may be beyond the last column.
pub type At = (usize, usize);

/// The places where a real column holds sign without unit, and those where a padding bit is set: row by row, and in a row column by column.
pub fn faulty(rows: usize, columns: usize, words: &[u64]) -> (Vec<At>, Vec<At>) {
    let q = words_of_plane(columns);
    let mut stray = Vec::new();
    let mut padded = Vec::new();
    for i in 0..rows {
        for j in 0..64 * q {
            let unit = words[i * 2 * q + j / 64] >> (j % 64) & 1 == 1;
            let sign = words[i * 2 * q + q + j / 64] >> (j % 64) & 1 == 1;
            if j < columns && sign && !unit {
                stray.push((i, j));
            }
            if j >= columns && (sign || unit) {
                padded.push((i, j));
            }
        }
    }
    (stray, padded)
}

/// Whether there is the one, and whether there is the other.
pub fn faults(rows: usize, columns: usize, words: &[u64]) -> (bool, bool) {
    let (stray, padded) = faulty(rows, columns, words);
    (!stray.is_empty(), !padded.is_empty())
}

/// Sets the two bits of one place, which may be a padding place.
pub fn put(columns: usize, words: &mut [u64], (i, j): At, (unit, sign): (bool, bool)) {
    let q = words_of_plane(columns);
    let bit = 1u64 << (j % 64);
    for (plane, on) in [(0, unit), (1, sign)] {
        let word = &mut words[(2 * i + plane) * q + j / 64];
        *word = if on { *word | bit } else { *word & !bit };
    }
}

/// Two matrices of one size, cell by cell: by the digit 0 the first, by 1 their sum, by 2 their difference.
pub fn combined(mut a: Digits, b: &Digits, digit: u64) -> Digits {
    for (x, y) in a.cells.iter_mut().zip(&b.cells) {
        *x = match digit {
            0 => *x,
            1 => (*x + *y) % 3,
            _ => (*x + 3 - *y) % 3,
        };
    }
    a
}

/// The schoolbook product. A sum is at most four times the columns of A, which are 1,024 or fewer.
pub fn product(a: &Digits, b: &Digits) -> Digits {
    let mut made = Digits::zero(a.rows, b.columns);
    for i in 0..a.rows {
        let mut sums = vec![0u16; b.columns];
        for t in 0..a.columns {
            let digit = a.at(i, t) as u16;
            for (sum, other) in sums.iter_mut().zip(b.row(t)) {
                *sum += digit * *other as u16;
            }
        }
        for (cell, sum) in made.row_mut(i).iter_mut().zip(&sums) {
            *cell = (sum % 3) as u8;
        }
    }
    made
}

/// One entry of the list of row steps.
#[derive(Clone, Copy, PartialEq, Debug)]
pub enum Step {
    /// table row `row` becomes table row `from` plus row `of_b` of B
    Table { row: usize, from: usize, of_b: usize },
    /// table row `from` is added to row `row` of the product
    Add { row: usize, from: usize },
    /// table row `from` is subtracted from row `row` of the product
    Subtract { row: usize, from: usize },
}

/// The list of row steps, walked as document 01 writes it, one entry after the other.
pub fn list(a: &Digits, width: usize) -> Vec<Step> {
    let mut steps = Vec::new();
    let mut first = 0;
    while first < a.columns {
        let w = if a.columns - first < width { a.columns - first } else { width };
        for x in 1..1usize << w {
            let mut bit = 0;
            while x >> bit & 1 == 0 {
                bit += 1;
            }
            steps.push(Step::Table { row: x, from: x - (1 << bit), of_b: first + bit });
        }
        for i in 0..a.rows {
            let mut p = 0;
            let mut n = 0;
            for t in 0..w {
                match a.at(i, first + t) {
                    1 => p += 1 << t,
                    2 => n += 1 << t,
                    _ => {}
                }
            }
            if p != 0 {
                steps.push(Step::Add { row: i, from: p });
            }
            if n != 0 {
                steps.push(Step::Subtract { row: i, from: n });
            }
        }
        first += w;
    }
    steps
}

/// Carries steps of the list out, on table and product as they are found.
pub fn walk(steps: &[Step], b: &Digits, table: &mut Digits, product: &mut Digits) {
    for step in steps {
        match *step {
            Step::Table { row, from, of_b } => {
                let mut made = table.row(from).to_vec();
                add_times(&mut made, 1, b.row(of_b));
                table.row_mut(row).copy_from_slice(&made);
            }
            Step::Add { row, from } => add_times(product.row_mut(row), 1, table.row(from)),
            // Two times a digit is its negation.
            Step::Subtract { row, from } => add_times(product.row_mut(row), 2, table.row(from)),
        }
    }
}

fn add_times(row: &mut [u8], times: u8, other: &[u8]) {
    for (x, y) in row.iter_mut().zip(other) {
        *x = (*x + times * *y) % 3;
    }
}
