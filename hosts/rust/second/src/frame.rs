//! The text frames of document 01, and what the program multiply has to print for any input at all.

use crate::digits::{faults, list, product, words_of_plane, Digits};
use crate::quotes::default_width;

/// Above this the program refuses with 11; above the next with 1.
const PROGRAM_LIMIT: usize = 128;
const LIMIT: usize = 1024;

/// What multiply prints.
pub fn answer(input: &[u8]) -> Vec<u8> {
    match multiply(input) {
        Ok(text) => text,
        Err(number) => format!("refused {:02x}\n", number).into_bytes(),
    }
}

/// A matrix as its text says: any words, legal or not.
pub struct Read {
    pub rows: usize,
    pub columns: usize,
    pub words: Vec<u64>,
}

fn multiply(input: &[u8]) -> Result<Vec<u8>, u8> {
    let mut rest = input;
    let a = matrix(&mut rest)?;
    let b = matrix(&mut rest)?;
    if !rest.is_empty() {
        return Err(10);
    }
    if a.columns != b.rows {
        return Err(2);
    }
    for m in [&a, &b] {
        match faults(m.rows, m.columns, &m.words) {
            (true, _) => return Err(5),
            (false, true) => return Err(6),
            (false, false) => {}
        }
    }
    let a = Digits::of_words(a.rows, a.columns, &a.words);
    let b = Digits::of_words(b.rows, b.columns, &b.words);
    let mut text = written(&product(&a, &b));
    let width = default_width(a.rows as u64, a.columns as u64);
    text.extend(format!("{:08x}\n", list(&a, width as usize).len()).bytes());
    Ok(text)
}

/// Takes a line of `digits` digits and its byte 10 from the front.
fn line<'a>(rest: &mut &'a [u8], digits: usize) -> Result<&'a [u8], u8> {
    let end = rest.iter().position(|byte| *byte == b'\n').ok_or(10)?;
    let taken = &rest[..end];
    if taken.len() != digits || taken.iter().any(|byte| value(*byte).is_none()) {
        return Err(10);
    }
    *rest = &rest[end + 1..];
    Ok(taken)
}

fn value(byte: u8) -> Option<u64> {
    b"0123456789abcdef".iter().position(|digit| *digit == byte).map(|at| at as u64)
}

fn number(digits: &[u8]) -> u64 {
    digits.iter().fold(0, |sum, digit| sum * 16 + value(*digit).unwrap())
}

/// Takes a matrix from the front, or says why it cannot.
pub fn matrix(rest: &mut &[u8]) -> Result<Read, u8> {
    let header = line(rest, 8)?;
    let rows = number(&header[..4]) as usize;
    let columns = number(&header[4..]) as usize;
    if rows > LIMIT || columns > LIMIT {
        return Err(1);
    }
    if rows > PROGRAM_LIMIT || columns > PROGRAM_LIMIT {
        return Err(11);
    }
    let in_row = 2 * words_of_plane(columns);
    let mut words = Vec::new();
    for _ in 0..rows {
        let row = line(rest, 16 * in_row)?;
        words.extend(row.chunks(16).map(number));
    }
    Ok(Read { rows, columns, words })
}

/// A matrix as text.
pub fn written(m: &Digits) -> Vec<u8> {
    lines(m.rows, m.columns, &m.words()).concat()
}

/// The lines of a buffer, header first, each with its byte 10.
pub fn lines(rows: usize, columns: usize, words: &[u64]) -> Vec<Vec<u8>> {
    let in_row = 2 * words_of_plane(columns);
    let mut lines = vec![format!("{:04x}{:04x}\n", rows, columns).into_bytes()];
    for i in 0..rows {
        let mut line = String::new();
        for word in &words[i * in_row..(i + 1) * in_row] {
            line += &format!("{:016x}", word);
        }
        lines.push((line + "\n").into_bytes());
    }
    lines
}
