//! Turns rows of digits, as a person writes them, into matrices in text, and back.
//!
//! It is for people at a shell and judges nothing: what it cannot read it refuses with a sentence that names the file and the line. Sizes are
//! those that a header can say, up to 65,535; whether `multiply` takes them is for `multiply` to answer.

#[path = "../../common/digits.rs"]
#[allow(dead_code)]
mod digits;
#[path = "../../second/src/frame.rs"]
#[allow(dead_code)]
mod frame;
#[path = "../../common/quotes.rs"]
#[allow(dead_code)]
mod quotes;
#[path = "../../common/random.rs"]
#[allow(dead_code)]
mod random;
mod rows;
mod text;

use digits::Digits;
use std::ffi::OsString;
use std::fmt::Display;
use std::io::{stderr, stdin, stdout, ErrorKind, Read, Write};
use std::process::exit;
use text::Text;

const USAGE: &str = "\
usage: ./digits to-text [FILE..]      rows of digits become matrices in text, one for each file
       ./digits to-digits [FILE..]    matrices in text become rows of digits
       ./digits --help                shows this

Without a file, or where a file is -, standard input is read.

Digits: a line a row, of digits 0, 1 and 2, with or without blanks and tabs between them; lines end with byte 10 or with CR LF, the last one may
lack it. A line that begins with # is a note and is skipped. Blank lines at the end are skipped, unless all lines are blank: then each is a row of
no columns. A file without rows is 0 by 0: digits cannot say the columns of a matrix without rows.

Text: as README.md has it under 'A matrix in text', one matrix or several. A last line of eight digits after a matrix is the total that multiply
prints, and is shown as a note. A line such as 'refused 02' is shown with what it means.

Status: 0 done; 1 a refusal of multiply was read; 2 something could not be read or written, and a sentence says what.
";

/// Why there is no answer, as a sentence.
type Failure = String;

/// A file that is read: its name is - for standard input.
struct Source(OsString);

impl Source {
    fn is_input(&self) -> bool {
        self.0 == "-"
    }

    fn is_option(&self) -> bool {
        !self.is_input() && self.0.to_string_lossy().starts_with('-')
    }

    /// A sentence about it.
    fn sentence(&self, what: impl Display) -> Failure {
        let name = if self.is_input() { "standard input".into() } else { self.0.to_string_lossy() };
        format!("{name}: {what}")
    }

    fn bytes(&self) -> Result<Vec<u8>, Failure> {
        let mut bytes = Vec::new();
        let read = if self.is_input() { stdin().read_to_end(&mut bytes).map(|_| bytes) } else { std::fs::read(&self.0) };
        read.map_err(|error| self.sentence(error))
    }
}

fn main() {
    let mut words = std::env::args_os().skip(1);
    let command = words.next().unwrap_or_default();
    let mut files: Vec<Source> = words.map(Source).collect();
    let alone = files.is_empty();
    if alone {
        files.push(Source("-".into()));
    }
    let right = !files.iter().any(Source::is_option) && files.iter().filter(|file| file.is_input()).count() <= 1;
    let done = match command.to_str() {
        Some("--help" | "-h") if alone => write(USAGE.as_bytes()).map(|_| 0),
        Some("to-text") if right => to_text(&files),
        Some("to-digits") if right => to_digits(&files),
        _ => {
            let _ = stderr().write_all(USAGE.as_bytes());
            Ok(2)
        }
    };
    exit(done.unwrap_or_else(|why| {
        let _ = writeln!(stderr(), "digits: {why}");
        2
    }))
}

/// Writes all, or says why not. A reader that has gone away wants no more, and is no fault.
fn write(bytes: &[u8]) -> Result<(), Failure> {
    let mut out = stdout();
    match out.write_all(bytes).and_then(|_| out.flush()) {
        Err(error) if error.kind() != ErrorKind::BrokenPipe => Err(format!("standard output cannot be written: {error}")),
        _ => Ok(()),
    }
}

fn to_text(files: &[Source]) -> Result<i32, Failure> {
    let mut text = Vec::new();
    for file in files {
        let matrix = rows::read(&file.bytes()?).map_err(|why| file.sentence(why))?;
        text.extend(frame::written(&matrix));
    }
    write(&text).map(|_| 0)
}

fn to_digits(files: &[Source]) -> Result<i32, Failure> {
    let mut texts = Vec::new();
    for file in files {
        texts.push(text::read(&file.bytes()?).map_err(|why| file.sentence(why))?);
    }
    let several = texts.iter().map(|text| text.matrices.len()).sum::<usize>() > 1;
    let mut shown = String::new();
    for text in &texts {
        shown += &show(text, several);
    }
    write(shown.as_bytes())?;
    Ok(texts.iter().any(|text| text.refused.is_some()) as i32)
}

/// What is shown of one text. Sizes are a note where there are several matrices; where digits cannot say them, standard error does.
fn show(text: &Text, several: bool) -> String {
    let mut shown = String::new();
    for matrix in &text.matrices {
        if several {
            shown += &format!("# {} by {}\n", matrix.rows, matrix.columns);
        } else if matrix.rows == 0 && matrix.columns > 0 {
            let _ = writeln!(stderr(), "a matrix of 0 rows and {} columns: without a row, digits cannot say its columns", matrix.columns);
        }
        shown += &rows::written(matrix);
    }
    if let Some(total) = text.total {
        shown += &format!("# {total} row step{}\n", if total == 1 { "" } else { "s" });
    }
    if let Some(number) = &text.refused {
        let _ = writeln!(stderr(), "refused {number}: {}", text::meaning(number));
        shown += &format!("refused {number}\n");
    }
    shown
}
