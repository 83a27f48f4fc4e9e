//! One request with all that is handed in.

use crate::digits::words_of_plane;
use crate::quotes::default_width;

#[derive(Clone, Copy, PartialEq, Debug)]
pub enum Name {
    Check,
    Pack,
    Unpack,
    Combination,
    Negation,
    Scaling,
    Transpose,
    Tally,
    Width,
    Quote,
    Total,
    Opening,
    Turn,
    Product,
}

pub const NAMES: [Name; 14] = [
    Name::Check,
    Name::Pack,
    Name::Unpack,
    Name::Combination,
    Name::Negation,
    Name::Scaling,
    Name::Transpose,
    Name::Tally,
    Name::Width,
    Name::Quote,
    Name::Total,
    Name::Opening,
    Name::Turn,
    Name::Product,
];

/// The buffers that a request can have: unpacked cells, and four of words. `Result` stands for every result; a job's is its product.
#[derive(Clone, Copy, PartialEq, Debug)]
pub enum Part {
    Cells,
    A,
    B,
    Table,
    Result,
}

impl Name {
    pub fn text(self) -> &'static str {
        [
            "check",
            "pack",
            "unpack",
            "combination",
            "negation",
            "scaling",
            "transpose",
            "tally",
            "width",
            "quote",
            "total",
            "opening",
            "turn",
            "product",
        ][self as usize]
    }

    /// The buffers whose contents it reads, in the order in which they are looked at.
    pub fn reads(self) -> &'static [Part] {
        match self {
            Name::Width | Name::Quote => &[],
            Name::Pack => &[Part::Cells],
            Name::Combination | Name::Opening | Name::Product => &[Part::A, Part::B],
            Name::Turn => &[Part::A, Part::B, Part::Table, Part::Result],
            _ => &[Part::A],
        }
    }

    /// The buffers that it only overwrites.
    pub fn overwrites(self) -> &'static [Part] {
        match self {
            Name::Check | Name::Tally | Name::Width | Name::Quote | Name::Total | Name::Turn => &[],
            Name::Unpack => &[Part::Cells],
            Name::Opening | Name::Product => &[Part::Table, Part::Result],
            _ => &[Part::Result],
        }
    }

    pub fn parts(self) -> Vec<Part> {
        [self.reads(), self.overwrites()].concat()
    }

    /// Whether B is a factor: A's columns are B's rows, and the result is m by n.
    pub fn multiplies(self) -> bool {
        matches!(self, Name::Opening | Name::Turn | Name::Product)
    }

    pub fn has_digit(self) -> bool {
        matches!(self, Name::Combination | Name::Scaling)
    }

    pub fn has_width(self) -> bool {
        self.multiplies() || matches!(self, Name::Width | Name::Quote | Name::Total)
    }

    /// The words that come back beside the answer: a tally's counts and its yes or no, a width, steps, a record.
    pub fn given(self) -> usize {
        match self {
            Name::Tally => 4,
            Name::Width | Name::Quote | Name::Total => 1,
            Name::Opening | Name::Turn => 7,
            _ => 0,
        }
    }

    /// The numbers with a place that it can give, each with a buffer.
    pub fn places(self) -> Vec<(u8, usize)> {
        if self == Name::Pack {
            return vec![(8, 1)];
        }
        (1..=self.reads().len()).flat_map(|buffer| [(5, buffer), (6, buffer)]).collect()
    }

    /// The numbers that it can give, by document 01.
    pub fn numbers(self) -> &'static [u8] {
        match self {
            Name::Pack => &[0, 1, 4, 8],
            Name::Combination => &[0, 1, 2, 4, 8, 5, 6],
            Name::Scaling => &[0, 1, 4, 8, 5, 6],
            Name::Width | Name::Quote => &[0, 1, 3],
            Name::Total => &[0, 1, 3, 4, 5, 6],
            Name::Opening | Name::Product => &[0, 1, 2, 3, 4, 5, 6],
            Name::Turn => &[0, 1, 3, 4, 5, 6, 7],
            _ => &[0, 1, 4, 5, 6],
        }
    }
}

/// Buffers that a request does not have are empty. The sizes, the width and the steps done of a turn stand in its record too.
#[derive(Clone)]
pub struct Call {
    pub name: Name,
    pub a_size: (u64, u64),
    pub b_size: (u64, u64),
    pub width: u64,
    pub digit: u8,
    pub budget: u32,
    pub given: Vec<u64>,
    pub cells: Vec<u8>,
    pub a: Vec<u64>,
    pub b: Vec<u64>,
    pub table: Vec<u64>,
    pub result: Vec<u64>,
    /// A and B are one buffer in memory.
    pub shared: bool,
}

/// What a call can write.
pub struct Written {
    pub given: Vec<u64>,
    pub cells: Vec<u8>,
    pub table: Vec<u64>,
    pub result: Vec<u64>,
}

impl Call {
    pub fn counts(&self) -> Vec<u64> {
        let (a, b) = (self.a_size, self.b_size);
        match self.name {
            Name::Tally => vec![a.1],
            Name::Turn => vec![a.0, a.1, b.1],
            name if name.reads().contains(&Part::B) => vec![a.0, a.1, b.0, b.1],
            _ => vec![a.0, a.1],
        }
    }

    /// The width meant; none where it is out of range.
    pub fn meant(&self) -> Option<usize> {
        match self.width {
            0 if self.name != Name::Turn => Some(default_width(self.a_size.0, self.a_size.1) as usize),
            1..=8 => Some(self.width as usize),
            _ => None,
        }
    }

    /// Rows and columns of one of its matrices; none for sizes that no buffer can have.
    pub fn size(&self, part: Part) -> Option<(usize, usize)> {
        let (a, b) = (self.a_size, self.b_size);
        let (rows, columns) = match part {
            Part::Cells | Part::A => a,
            Part::B => b,
            Part::Table => (1 << self.meant()?, b.1),
            Part::Result if self.name.multiplies() => (a.0, b.1),
            Part::Result if self.name == Name::Transpose => (a.1, a.0),
            Part::Result => a,
        };
        if rows > 1024 || columns > 1024 {
            return None;
        }
        Some((rows as usize, columns as usize))
    }

    /// The exact length of one of its buffers.
    pub fn length(&self, part: Part) -> Option<usize> {
        let (rows, columns) = self.size(part)?;
        Some(if part == Part::Cells { rows * columns } else { 2 * words_of_plane(columns) * rows })
    }

    /// The length that it has.
    pub fn found(&self, part: Part) -> usize {
        match part {
            Part::Cells => self.cells.len(),
            _ => self.words(part).len(),
        }
    }

    pub fn words(&self, part: Part) -> &[u64] {
        match part {
            Part::Cells => &[],
            Part::A => &self.a,
            Part::B => &self.b,
            Part::Table => &self.table,
            Part::Result => &self.result,
        }
    }

    /// For a part that has words.
    pub fn words_mut(&mut self, part: Part) -> &mut Vec<u64> {
        match part {
            Part::Cells | Part::A => &mut self.a,
            Part::B => &mut self.b,
            Part::Table => &mut self.table,
            Part::Result => &mut self.result,
        }
    }

    /// The call in a line, without what its buffers hold.
    pub fn text(&self) -> String {
        let lengths: Vec<String> = self.name.parts().iter().map(|part| format!("{part:?} {}", self.found(*part))).collect();
        format!(
            "{} A {:?} B {:?} width {} digit {} budget {} record {:?} shared {}; lengths: {}",
            self.name.text(),
            self.a_size,
            self.b_size,
            self.width,
            self.digit,
            self.budget,
            self.given,
            self.shared,
            lengths.join(", ")
        )
    }
}
