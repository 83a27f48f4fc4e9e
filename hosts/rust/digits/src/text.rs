//! Matrices in text, read strictly and with a sentence for what is not of the form.

use crate::digits::{faults, words_of_plane, Digits};

/// What a text holds: matrices, and after them the total that multiply prints; or its refusal.
#[derive(Default)]
pub struct Text {
    pub matrices: Vec<Digits>,
    pub total: Option<u64>,
    pub refused: Option<String>,
}

/// What a refusal's number means, as document 01 has it.
pub fn meaning(number: &str) -> &'static str {
    match number {
        "01" => "a row or column count is above 1,024",
        "02" => "A's columns aren't B's rows",
        "05" => "a cell has sign without unit",
        "06" => "a bit is set beyond the last column",
        "0a" => "the text is not two matrices of the form, one after the other",
        "0b" => "a row or column count is above 128, the limit of the program",
        _ => "multiply gives no such number",
    }
}

/// The lines of a text that are still to be read, and the number of the next.
struct Lines<'a> {
    rest: &'a [u8],
    at: usize,
}

impl<'a> Lines<'a> {
    /// Takes a line of `digits` hexadecimal digits; `what` names it in a sentence.
    fn take(&mut self, digits: usize, what: &str) -> Result<&'a [u8], String> {
        let at = self.at;
        if self.rest.is_empty() {
            return Err(format!("line {at}: the text ends where {what} is wanted"));
        }
        let length = self.rest.iter().position(|byte| *byte == b'\n').unwrap_or(self.rest.len());
        let line = &self.rest[..length];
        if let Some(column) = line.iter().position(|byte| value(*byte).is_none()) {
            let character = String::from_utf8_lossy(&line[column..]).chars().next().unwrap_or(' ');
            return Err(format!("line {at}, column {}: {character:?} is not a hexadecimal digit (0-9, a-f)", column + 1));
        }
        if line.len() != digits {
            return Err(format!("line {at} has {} digits, and {what} has {digits}", line.len()));
        }
        if length == self.rest.len() {
            return Err(format!("line {at} is not ended by byte 10"));
        }
        self.rest = &self.rest[length + 1..];
        self.at += 1;
        Ok(line)
    }
}

fn value(byte: u8) -> Option<u64> {
    (byte as char).to_digit(16).filter(|_| !byte.is_ascii_uppercase()).map(u64::from)
}

fn number(digits: &[u8]) -> u64 {
    digits.iter().filter_map(|digit| value(*digit)).fold(0, |sum, digit| sum * 16 + digit)
}

/// What a text holds, or a sentence that begins with the line.
pub fn read(bytes: &[u8]) -> Result<Text, String> {
    let mut text = Text::default();
    if let Some(number) = refusal(bytes) {
        text.refused = Some(number);
        return Ok(text);
    }
    let mut lines = Lines { rest: bytes, at: 1 };
    while text.matrices.is_empty() || !lines.rest.is_empty() {
        let header = lines.take(8, "a header")?;
        if lines.rest.is_empty() && !text.matrices.is_empty() {
            text.total = Some(number(header));
        } else {
            text.matrices.push(matrix(&mut lines, number(&header[..4]) as usize, number(&header[4..]) as usize)?);
        }
    }
    Ok(text)
}

/// The number of a text that is one refusal line.
fn refusal(bytes: &[u8]) -> Option<String> {
    let digits = bytes.strip_prefix(b"refused ")?.strip_suffix(b"\n")?;
    let right = digits.len() == 2 && digits.iter().all(|digit| value(*digit).is_some());
    if right {
        String::from_utf8(digits.to_vec()).ok()
    } else {
        None
    }
}

/// The rows that a header has announced.
fn matrix(lines: &mut Lines, rows: usize, columns: usize) -> Result<Digits, String> {
    let in_row = 2 * words_of_plane(columns);
    let mut words = Vec::new();
    for i in 0..rows {
        let line = lines.take(16 * in_row, &format!("row {} of {rows} (columns: {columns})", i + 1))?;
        let row: Vec<u64> = line.chunks(16).map(number).collect();
        match faults(1, columns, &row) {
            (true, _) => return Err(format!("line {}: a cell has sign without unit", lines.at - 1)),
            (false, true) => return Err(format!("line {}: a bit is set beyond the last column", lines.at - 1)),
            (false, false) => words.extend(row),
        }
    }
    Ok(Digits::of_words(rows, columns, &words))
}
