//! One call with all that is handed in.

#[derive(Clone, Copy, PartialEq, Debug)]
pub enum Name {
    Check,
    Combination,
    Negation,
    Product,
    Width,
    Quote,
    Open,
    Turn,
}

pub const NAMES: [Name; 8] =
    [Name::Check, Name::Combination, Name::Negation, Name::Product, Name::Width, Name::Quote, Name::Open, Name::Turn];

impl Name {
    pub fn text(self) -> &'static str {
        ["check", "combination", "negation", "product", "width", "quote", "open", "turn"][self as usize]
    }

    pub fn has_b(self) -> bool {
        !matches!(self, Name::Check | Name::Negation | Name::Width | Name::Quote)
    }

    /// Whether it gives a count, from A's sizes and a width.
    pub fn counts(self) -> bool {
        matches!(self, Name::Width | Name::Quote)
    }

    pub fn is_job(self) -> bool {
        matches!(self, Name::Open | Name::Turn)
    }

    /// The buffers whose cells it looks at.
    pub fn looks_at(self) -> usize {
        match self {
            Name::Width | Name::Quote => 0,
            Name::Check | Name::Negation => 1,
            Name::Turn => 4,
            _ => 2,
        }
    }

    /// The numbers with a place that the call can give, each with a buffer.
    pub fn places(self) -> Vec<(u8, usize)> {
        (1..=self.looks_at()).flat_map(|buffer| [(5, buffer), (6, buffer)]).collect()
    }

    /// The numbers that the call can give, by document 01.
    pub fn numbers(self) -> &'static [u8] {
        match self {
            Name::Check | Name::Negation => &[0, 1, 4, 5, 6, 11],
            Name::Combination => &[0, 1, 2, 4, 5, 6, 8, 11],
            Name::Product => &[0, 1, 2, 4, 5, 6, 11],
            Name::Width | Name::Quote => &[0, 1, 3, 4, 11],
            Name::Open => &[0, 1, 2, 3, 4, 5, 6, 11],
            Name::Turn => &[0, 1, 3, 4, 5, 6, 7, 11],
        }
    }
}

/// Buffers that a call does not have are empty. `product` stands for every result, a count too. Sizes of a turn stand in its record.
#[derive(Clone, Debug)]
pub struct Call {
    pub name: Name,
    pub a_size: (u64, u64),
    pub b_size: (u64, u64),
    pub width: u64,
    pub digit: u64,
    pub budget: u32,
    pub record: Vec<u8>,
    pub a: Vec<u8>,
    pub b: Vec<u8>,
    pub table: Vec<u8>,
    pub product: Vec<u8>,
    /// A and B are one buffer in memory.
    pub shared: bool,
}

/// What a call can write.
#[derive(Clone, PartialEq, Debug)]
pub struct Written {
    pub record: Vec<u8>,
    pub table: Vec<u8>,
    pub product: Vec<u8>,
}

pub fn words(bytes: &[u8]) -> Vec<u64> {
    bytes.chunks_exact(8).map(|chunk| chunk.iter().rev().fold(0, |word, byte| word << 8 | *byte as u64)).collect()
}

pub fn bytes(words: &[u64]) -> Vec<u8> {
    let mut made = Vec::with_capacity(8 * words.len());
    for word in words {
        for place in 0..8 {
            made.push((word >> (8 * place)) as u8);
        }
    }
    made
}
