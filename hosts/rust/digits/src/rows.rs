//! Rows of digits as a person writes them.

use crate::Digits;

/// What a header's four hexadecimal digits can say.
const MOST: usize = 65_535;

/// The matrix that the lines of a file are, or a sentence that begins with the place.
pub fn read(bytes: &[u8]) -> Result<Digits, String> {
    let mut found: Vec<(usize, Vec<u8>)> = Vec::new();
    for (at, line) in lines(bytes).iter().enumerate() {
        if !line.starts_with(b"#") {
            found.push((at + 1, row(line).map_err(|(column, what)| format!("line {}, column {column}: {what}", at + 1))?));
        }
    }
    // Blank lines at the end are no rows, unless there is nothing else.
    if let Some(last) = found.iter().rposition(|(_, row)| !row.is_empty()) {
        found.truncate(last + 1);
    }
    let columns = found.last().map_or(0, |(_, row)| row.len());
    if let Some((line, _)) = found.iter().find(|(_, row)| row.is_empty() != (columns == 0)) {
        return Err(format!("line {line} is blank, and rows come after it"));
    }
    if let Some((first, (line, row))) = found.first().zip(found.iter().find(|(_, row)| row.len() != found[0].1.len())) {
        return Err(format!("line {line} has {}, and line {} has {}", count(row.len(), "digit"), first.0, count(first.1.len(), "digit")));
    }
    for (counted, what) in [(found.len(), "row"), (columns, "column")] {
        if counted > MOST {
            return Err(format!("{}, and a matrix in text has at most 65,535", count(counted, what)));
        }
    }
    Ok(Digits { rows: found.len(), columns, cells: found.into_iter().flat_map(|(_, row)| row).collect() })
}

fn count(n: usize, what: &str) -> String {
    format!("{n} {what}{}", if n == 1 { "" } else { "s" })
}

/// The lines, without what ends them: byte 10, or CR LF. What follows the last byte 10 is a line only if there is something.
fn lines(bytes: &[u8]) -> Vec<&[u8]> {
    let mut lines: Vec<&[u8]> = bytes.split(|byte| *byte == b'\n').collect();
    if matches!(lines.last(), Some(last) if last.is_empty()) {
        lines.pop();
    }
    lines.into_iter().map(|line| line.strip_suffix(b"\r").unwrap_or(line)).collect()
}

/// The digits of a line, or the place and the character that is none.
fn row(line: &[u8]) -> Result<Vec<u8>, (usize, String)> {
    let mut digits = Vec::new();
    for (at, character) in String::from_utf8_lossy(line).chars().enumerate() {
        match character {
            '0'..='2' => digits.push(character as u8 - b'0'),
            ' ' | '\t' => {}
            _ => return Err((at + 1, format!("{character:?} is not one of the digits 0, 1, 2"))),
        }
    }
    Ok(digits)
}

/// A line a row, with a blank between digits.
pub fn written(matrix: &Digits) -> String {
    let mut text = String::new();
    for i in 0..matrix.rows {
        let row: Vec<String> = matrix.row(i).iter().map(u8::to_string).collect();
        text += &(row.join(" ") + "\n");
    }
    text
}
