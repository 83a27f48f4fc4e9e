//! A job's file as the store writes it.

use crate::ledger;
use crate::random::Random;
use crate::store::Held;

/// The file's first words, each eight bytes, lowest byte first. The lengths of the five buffers follow, then the buffers, then the check sum.
pub const SITE: usize = 1;
pub const TURNS: usize = 2;
pub const SOLD: usize = 3;
pub const FINISHED: usize = 4;
pub const LENGTHS: usize = 5;
pub const WORDS: usize = 10;

/// The buffers, and the words of the first of them.
pub const RECORD: usize = 0;
pub const A: usize = 1;
pub const B: usize = 2;
pub const TABLE: usize = 3;
pub const PRODUCT: usize = 4;
pub const BUFFERS: usize = 5;
pub const STEPS: usize = 4;
pub const MADE: usize = 5;
pub const ENDED: usize = 6;

/// The longest file: its words, the record, three matrices of 64 by 64, a table of 256 rows, the check sum.
pub const LARGEST: usize = 8 * WORDS + 56 + 3 * 1024 + 4096 + 8;

pub struct JobFile {
    pub words: [u64; WORDS],
    pub parts: Vec<Vec<u8>>,
}

fn word(bytes: &[u8], at: usize) -> u64 {
    let mut eight = [0; 8];
    eight.copy_from_slice(&bytes[8 * at..8 * at + 8]);
    u64::from_le_bytes(eight)
}

/// FNV-1a.
fn check_sum(bytes: &[u8]) -> u64 {
    bytes.iter().fold(0xcbf2_9ce4_8422_2325, |sum, byte| (sum ^ u64::from(*byte)).wrapping_mul(0x100_0000_01b3))
}

pub fn with_sum(mut bytes: Vec<u8>) -> Vec<u8> {
    let sum = check_sum(&bytes);
    bytes.extend(sum.to_le_bytes());
    bytes
}

pub fn name(site: usize) -> String {
    format!("site-{site}.job")
}

impl JobFile {
    /// A file that a store has written.
    pub fn read(held: &Held, site: usize) -> Result<JobFile, String> {
        let bytes = held.get(&name(site)).and_then(|bytes| bytes.clone()).ok_or(format!("there is no file of site {site}"))?;
        if bytes.len() < 8 * WORDS + 8 {
            return Err(format!("the file of site {site} is short"));
        }
        let mut made = JobFile { words: [0; WORDS], parts: Vec::new() };
        let mut at = 8 * WORDS;
        for i in 0..WORDS {
            made.words[i] = word(&bytes, i);
        }
        for i in 0..BUFFERS {
            let end = at + made.words[LENGTHS + i] as usize;
            made.parts.push(bytes[at..end].to_vec());
            at = end;
        }
        if made.bytes() != bytes {
            return Err(format!("the file of site {site} is not of the form known here"));
        }
        Ok(made)
    }

    /// The whole file, with the right check sum.
    pub fn bytes(&self) -> Vec<u8> {
        with_sum(self.body())
    }

    /// Without the check sum.
    pub fn body(&self) -> Vec<u8> {
        let mut bytes: Vec<u8> = self.words.iter().flat_map(|word| word.to_le_bytes()).collect();
        bytes.extend(self.parts.concat());
        bytes
    }

    pub fn record(&self, at: usize) -> u64 {
        word(&self.parts[RECORD], at)
    }

    pub fn set_record(&mut self, at: usize, to: u64) {
        self.parts[RECORD][8 * at..8 * at + 8].copy_from_slice(&to.to_le_bytes());
    }

    /// Gives a buffer another length, and the bytes for it.
    pub fn resize(&mut self, buffer: usize, length: usize, random: &mut Random) {
        self.parts[buffer].resize_with(length, || random.word() as u8);
        self.words[LENGTHS + buffer] = length as u64;
    }

    pub fn turns(&self) -> u64 {
        self.words[TURNS]
    }

    /// The ledger's line of its last turn.
    pub fn line(&self) -> Vec<u8> {
        ledger::line([self.words[SITE], self.words[TURNS], self.record(STEPS) - self.words[SOLD], self.words[SOLD]])
    }
}
