//! Inputs of every kind, made from a seed: half of them legal ones at every combination of the boundary sizes, half damaged.

use crate::digits::{words_of_plane, Digits};
use crate::frame::lines;
use crate::random::Random;

pub struct Input {
    /// What was done, in words.
    pub kind: String,
    pub bytes: Vec<u8>,
    /// After `bytes` this byte comes again and again, for as long as the program reads.
    pub endless: Option<u8>,
    /// The number that document 01 gives for this kind, where the kind alone decides it (0: done).
    pub meant: Option<u8>,
}

/// Sizes at which something changes: none, one, two; 7 and 8 columns, for which the default can be as wide; a word, the limit, and their neighbours.
const BOUNDARY: [usize; 10] = [0, 1, 2, 7, 8, 63, 64, 65, 127, 128];
/// Sizes with at least one cell and one padding place.
const WITH_PADDING: [usize; 9] = [1, 2, 3, 5, 7, 63, 65, 66, 127];

pub fn make(seed: u64, index: u64) -> Input {
    let mut random = Random::new(seed, index);
    if index % 2 == 0 {
        boundary(&mut random, index / 2)
    } else {
        damaged(&mut random, index / 2)
    }
}

/// The first hundred hold every pair of boundary sizes in each two of the three places, the first thousand every combination.
fn boundary(random: &mut Random, nth: u64) -> Input {
    let (i, j, shift) = (nth % 10, nth / 10 % 10, nth / 100);
    let size = |at: u64| BOUNDARY[(at % 10) as usize];
    let (m, l, n) = (size(i), size(j), size(i + j + shift));
    let draft = Draft::legal(random, m, l, n);
    draft.input(format!("legal, {m} by {l} times {l} by {n}"), Some(0))
}

#[derive(Clone, Copy, PartialEq, Debug)]
enum Side {
    A,
    B,
}

/// One buffer of words and the sizes that its header says.
struct Part {
    rows: usize,
    columns: usize,
    words: Vec<u64>,
}

impl Part {
    fn random(random: &mut Random, rows: usize, columns: usize) -> Part {
        let digits = Digits::random(random, rows, columns);
        Part { rows, columns, words: digits.words() }
    }

    /// Column `j` of row `i` gets these bits.
    fn set(&mut self, i: usize, j: usize, unit: bool, sign: bool) {
        let q = words_of_plane(self.columns);
        for (plane, bit) in [(0, unit), (1, sign)] {
            let word = &mut self.words[(2 * i + plane) * q + j / 64];
            *word &= !(1 << (j % 64));
            *word |= (bit as u64) << (j % 64);
        }
    }

    fn stray(&mut self, random: &mut Random) {
        let (i, j) = (random.below(self.rows), random.below(self.columns));
        self.set(i, j, false, true);
    }

    /// Sets one padding place; there is one.
    fn pad(&mut self, random: &mut Random) {
        let end = 64 * words_of_plane(self.columns);
        let i = random.below(self.rows);
        let j = match random.below(3) {
            0 => self.columns,
            1 => end - 1,
            _ => self.columns + random.below(end - self.columns),
        };
        let (unit, sign) = random.of(&[(true, false), (false, true), (true, true)]);
        self.set(i, j, unit, sign);
    }
}

struct Draft {
    a: Part,
    b: Part,
}

impl Draft {
    fn legal(random: &mut Random, m: usize, l: usize, n: usize) -> Draft {
        let a = Part::random(random, m, l);
        let b = Part::random(random, l, n);
        Draft { a, b }
    }

    /// A legal input of sizes that have padding everywhere.
    fn with_padding(random: &mut Random) -> Draft {
        let (m, l, n) = (random.of(&WITH_PADDING), random.of(&WITH_PADDING), random.of(&WITH_PADDING));
        Draft::legal(random, m, l, n)
    }

    fn part(&mut self, side: Side) -> &mut Part {
        match side {
            Side::A => &mut self.a,
            Side::B => &mut self.b,
        }
    }

    fn lines(&self) -> Text {
        let a = lines(self.a.rows, self.a.columns, &self.a.words);
        let header_b = a.len();
        let mut all = a;
        all.extend(lines(self.b.rows, self.b.columns, &self.b.words));
        Text { lines: all, header_b }
    }

    fn input(&self, kind: String, meant: Option<u8>) -> Input {
        self.lines().input(kind, meant)
    }
}

/// The lines of an input, each with its byte 10, and which of them is B's header.
struct Text {
    lines: Vec<Vec<u8>>,
    header_b: usize,
}

impl Text {
    fn input(&self, kind: String, meant: Option<u8>) -> Input {
        Input { kind, bytes: self.lines.concat(), endless: None, meant }
    }

    fn header(&mut self, side: Side) -> &mut Vec<u8> {
        match side {
            Side::A => &mut self.lines[0],
            Side::B => &mut self.lines[self.header_b],
        }
    }

    /// A line that holds at least one digit.
    fn line(&mut self, random: &mut Random) -> &mut Vec<u8> {
        let mut at = random.below(self.lines.len());
        if self.lines[at].len() < 2 {
            at = 0;
        }
        &mut self.lines[at]
    }
}

fn side(random: &mut Random) -> Side {
    random.of(&[Side::A, Side::B])
}

/// Bytes that are no digits of document 01, and some that other readers take for digits.
const NO_DIGIT: [u8; 20] =
    [b'g', b'G', b'/', b':', b'`', b'@', b' ', b'\t', 0, 255, 0x80, b'-', b'+', b'x', b'_', b'\r', 11, 0xb2, b'A' + 128, b'0' + 128];

const BAD_LINES: usize = 11;

/// Faults of the lines, which all are 10.
fn bad_line(random: &mut Random, text: &mut Text, which: usize) -> &'static str {
    match which % BAD_LINES {
        0 => {
            let s = side(random);
            let header = text.header(s);
            header[random.below(8)] = random.of(&NO_DIGIT);
            "a byte of a header that is no digit"
        }
        1 => {
            let line = text.line(random);
            let at = random.below(line.len() - 1);
            line[at] = random.of(&NO_DIGIT);
            "a byte of a line that is no digit"
        }
        2 => {
            let line = text.line(random);
            let at = random.below(line.len() - 1);
            line[at] = random.of(b"ABCDEF");
            "upper case"
        }
        3 => {
            let line = text.line(random);
            let at = line.len() - 1;
            line.insert(at, b'\r');
            "byte 13 before byte 10"
        }
        4 => {
            let line = text.line(random);
            let gone = 1 + random.below(line.len() - 1);
            line.drain(..gone);
            "a line cut short"
        }
        5 => {
            let line = text.line(random);
            let at = random.below(line.len());
            line.insert(at, random.of(b"0123456789abcdef"));
            "a digit too many"
        }
        6 => {
            let line = text.line(random);
            let at = random.below(line.len() - 1);
            line.insert(at, b'\n');
            "a byte 10 within a line"
        }
        7 => {
            let at = random.below(text.lines.len());
            let copy = if text.lines[at].len() > 9 { text.lines[at].clone() } else { b"\n".to_vec() };
            let end = text.lines.len();
            text.lines.insert(end, copy);
            "a line after B"
        }
        8 => {
            let line = text.line(random);
            line.splice(0..0, *b"0000000000000000");
            "a word too many"
        }
        9 => {
            let line = text.line(random);
            line.insert(0, random.of(b" 0\t+"));
            "a byte before a line"
        }
        _ => {
            let line = text.line(random);
            let at = line.len() - 1;
            line[at] = random.of(b" 0\r\x00\x0b\xff");
            "another byte in place of byte 10"
        }
    }
}

/// A header above a limit, before other lines or at the input's end.
fn over_header(random: &mut Random, text: &mut Text) -> (String, u8) {
    const ABOVE: [usize; 8] = [129, 130, 1023, 1024, 1025, 1026, 0x8000, 0xffff];
    let s = side(random);
    let (big, other) = (random.of(&ABOVE), random.of(&[0, 1, 64, 128, 129, 1024, 1025]));
    let (rows, columns) = random.of(&[(big, other), (other, big)]);
    *text.header(s) = format!("{rows:04x}{columns:04x}\n").into_bytes();
    let mut number = if rows > 1024 || columns > 1024 { 1 } else { 11 };
    let at = if s == Side::A { 0 } else { text.header_b };
    let after = random.below(4);
    if after == 0 || after == 1 {
        text.lines.truncate(at + 1);
    }
    if after == 0 {
        text.lines[at].pop();
        number = 10;
    }
    (format!("header {rows} by {columns} of {s:?}, ending {after}"), number)
}

fn damaged(random: &mut Random, nth: u64) -> Input {
    let mut draft = Draft::with_padding(random);
    let (m, l, n) = (draft.a.rows, draft.a.columns, draft.b.columns);
    match nth % 25 {
        0 => {
            let (m, l, n) = (random.below(129), random.below(129), random.below(129));
            Draft::legal(random, m, l, n).input(format!("legal, {m} by {l} times {l} by {n}"), Some(0))
        }
        1 | 2 | 3 | 4 => {
            let mut text = draft.lines();
            let which = nth / 25 * 4 + nth % 25;
            let kind = bad_line(random, &mut text, which as usize);
            text.input(kind.to_string(), Some(10))
        }
        5 => {
            let mut input = draft.input("no last byte 10".to_string(), Some(10));
            input.bytes.pop();
            input
        }
        6 => {
            let mut input = draft.input(String::new(), Some(10));
            let end = random.below(input.bytes.len());
            input.bytes.truncate(end);
            input.kind = format!("ends after {end} bytes");
            input
        }
        7 => {
            let mut input = draft.input("text after B".to_string(), Some(10));
            let more = match random.below(6) {
                0 => b"\n".to_vec(),
                1 => vec![random.word() as u8],
                2 => b"00000000\n".to_vec(),
                3 => vec![0],
                4 => input.bytes.clone(),
                _ => vec![b'\n'; 1 + random.below(9)],
            };
            input.bytes.extend(more);
            input
        }
        8 | 9 => {
            let mut text = draft.lines();
            let (kind, number) = over_header(random, &mut text);
            // A header of A stands before all that could go wrong; one of B stands behind A's legal lines.
            text.input(kind, Some(number))
        }
        10 => large(random),
        11 => {
            let rows = random.of(&[l + 1, l - 1, 0, 1, 4, 64, 128]);
            draft.b = Part::random(random, rows, n);
            let meant = if rows == l { 0 } else { 2 };
            draft.input(format!("{m} by {l} times {rows} by {n}"), Some(meant))
        }
        12 | 13 => {
            let s = side(random);
            draft.part(s).stray(random);
            draft.input(format!("sign without unit in {s:?}"), Some(5))
        }
        14 | 15 => {
            let s = side(random);
            draft.part(s).pad(random);
            draft.input(format!("a padding bit in {s:?}"), Some(6))
        }
        16 => {
            draft.a = Part::random(random, m + 1, l);
            draft.a.stray(random);
            draft.a.pad(random);
            draft.input("5 and 6 in A".to_string(), Some(5))
        }
        17 => {
            draft.a.pad(random);
            draft.b.stray(random);
            draft.input("6 in A, 5 in B".to_string(), Some(6))
        }
        18 => {
            draft.b = Part::random(random, l + 1, n);
            let s = side(random);
            draft.part(s).stray(random);
            draft.input(format!("sizes that don't fit, 5 in {s:?}"), Some(2))
        }
        19 => {
            draft.a.stray(random);
            draft.b = Part::random(random, l + 1, n);
            let mut text = draft.lines();
            let which = random.below(BAD_LINES);
            let kind = bad_line(random, &mut text, which);
            text.input(format!("2 and 5 and {kind}"), Some(10))
        }
        20 => {
            let mut text = draft.lines();
            let which = random.below(BAD_LINES);
            let first = bad_line(random, &mut text, which);
            let (second, _) = over_header(random, &mut text);
            text.input(format!("{first}; {second}"), None)
        }
        21 => two_headers(random, &draft),
        22 => bytes_changed(random, &draft),
        23 => small(random),
        _ => long(random, &draft),
    }
}

/// A bad row of A before a header of B above a limit, or a header of A above a limit before a bad row of B.
fn two_headers(random: &mut Random, draft: &Draft) -> Input {
    let mut text = draft.lines();
    let number = random.of(&[129usize, 1025]);
    let header = format!("{number:04x}{:04x}\n", draft.b.columns).into_bytes();
    let last_of_a = text.header_b - 1;
    let end = text.lines.len() - 1;
    if random.once_in(2) {
        *text.header(Side::B) = header;
        text.lines[last_of_a][5] = b'g';
        text.input(format!("bad row of A, then {number} rows in B"), Some(10))
    } else {
        *text.header(Side::A) = header;
        text.lines[end][5] = b'g';
        text.input(format!("{number} rows in A, then a bad row of B"), Some(if number == 129 { 11 } else { 1 }))
    }
}

/// A whole legal matrix above a limit, so that only the limit is against it.
fn large(random: &mut Random) -> Input {
    let (rows, columns, number) = random.of(&[
        (129, 1, 11),
        (1, 129, 11),
        (129, 129, 11),
        (1024, 1, 11),
        (1, 1024, 11),
        (1025, 1, 1),
        (1, 1025, 1),
        (1025, 129, 1),
        (129, 1025, 1),
        (0, 129, 11),
        (129, 0, 11),
        (0, 1025, 1),
        (1025, 0, 1),
    ]);
    let big = Part::random(random, rows, columns);
    let draft = if random.once_in(2) {
        let b = Part::random(random, columns, 1);
        Draft { a: big, b }
    } else {
        // A itself is within the limit.
        let a = Part::random(random, 1, if rows > 128 { 128 } else { rows });
        Draft { a, b: big }
    };
    draft.input(format!("a whole matrix of {rows} by {columns}"), Some(number))
}

fn bytes_changed(random: &mut Random, draft: &Draft) -> Input {
    let mut input = draft.input(String::new(), None);
    let times = 1 + random.below(4);
    let how = random.below(4);
    for _ in 0..times {
        if input.bytes.is_empty() {
            break;
        }
        let at = random.below(input.bytes.len());
        match how {
            0 => input.bytes[at] ^= 1 << random.below(8),
            1 => input.bytes[at] = random.of(b"0123456789abcdef\n"),
            2 => input.bytes.insert(at, random.of(b"0f\n\r G\x00")),
            _ => {
                input.bytes.remove(at);
            }
        }
    }
    input.kind = format!("{times} bytes {}", ["flipped", "changed", "inserted", "removed"][how]);
    input
}

/// Inputs of a few bytes.
fn small(random: &mut Random) -> Input {
    let (bytes, meant): (&[u8], u8) = random.of(&[
        (&b""[..], 10),
        (b"\n", 10),
        (b"\n\n", 10),
        (b"0", 10),
        (b"00000000", 10),
        (b"00000000\n", 10),
        (b"0000000000000000", 10),
        (b"00000000\n00000000\n", 0),
        (b"00000000\r\n00000000\r\n", 10),
        (b"00000000\n00000000\n\n", 10),
        (b"00000000\n00000000", 10),
        (b"\n00000000\n00000000\n", 10),
        (b"00000000\n\n00000000\n", 10),
        (b"00030000\n\n\n\n00000000\n", 0),
        (b"00030000\n\n\n\n00000005\n", 0),
        (b"00030000\n\n\n00000005\n", 10),
        (b"00030000\n\n\n\n\n00000005\n", 10),
        (b"00000005\n00050000\n\n\n\n\n\n", 0),
        (b"00000003\n00040000\n\n\n\n\n", 2),
        (b"00000081\n", 11),
        (b"00000401\n", 1),
        (b"00810401\n", 1),
        (b"04010081\n", 1),
        (b"00000081", 10),
        (b"00000401", 10),
        (b"00000000\n00810401\n", 1),
        (b"00000000\nffffffff\n", 1),
        (b"00000000\nFFFFFFFF\n", 10),
        (b"\xef\xbb\xbf00000000\n00000000\n", 10),
    ]);
    Input { kind: "a few bytes".to_string(), bytes: bytes.to_vec(), endless: None, meant: Some(meant) }
}

/// Input far longer than the form allows, or endless.
fn long(random: &mut Random, draft: &Draft) -> Input {
    let mut input = draft.input(String::new(), Some(10));
    let filler = random.of(b"0\nf x\x00");
    let start = match random.below(4) {
        0 => 0,
        1 => 9,
        2 => random.below(input.bytes.len()),
        _ => input.bytes.len(),
    };
    input.bytes.truncate(start);
    if random.once_in(4) {
        input.bytes.resize(start + 300_000, filler);
        input.kind = format!("300,000 times byte {filler} after {start} bytes");
    } else {
        input.endless = Some(filler);
        input.kind = format!("byte {filler} for ever after {start} bytes");
    }
    // A legal beginning of a header may go on with zeros: 129 and more can come of it.
    input.meant = None;
    input
}
