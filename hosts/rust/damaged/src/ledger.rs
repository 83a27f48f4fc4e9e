//! The ledger as the store writes it, and what can be wrong with it.

use crate::random::Random;
use crate::store::Held;
use crate::trial::{noise, Case, Verdict, SITES};

/// The bytes of a line: four numbers, each at the right end of eight places, with a space or byte 10 behind it.
pub const LINE: usize = 36;

/// Site, turn of that site, steps done before, steps sold.
pub fn line([site, turn, before, sold]: [u64; 4]) -> Vec<u8> {
    format!("{site:8} {turn:8} {before:8} {sold:8}\n").into_bytes()
}

type Lines = Vec<Vec<u8>>;

/// The lines that are whole.
pub fn lines(held: &Held) -> Lines {
    let bytes = held.get("ledger").and_then(|bytes| bytes.clone()).unwrap_or_default();
    bytes.chunks_exact(LINE).map(|line| line.to_vec()).collect()
}

pub fn numbers(line: &[u8]) -> [u64; 4] {
    let text = String::from_utf8_lossy(line);
    let mut made = [0; 4];
    for (number, text) in made.iter_mut().zip(text.split_whitespace()) {
        *number = text.parse().unwrap_or(u64::MAX);
    }
    made
}

fn site_of(line: &[u8]) -> u64 {
    numbers(line)[0]
}

/// The last line of one of the sites.
fn a_last_line(random: &mut Random, lines: &Lines) -> usize {
    let last = |at: &usize| lines[at + 1..].iter().all(|line| site_of(line) != site_of(&lines[*at]));
    random.of(&(0..lines.len()).filter(last).collect::<Vec<usize>>())
}

/// Two lines of one site.
fn two_of_a_site(random: &mut Random, lines: &Lines) -> (usize, usize) {
    loop {
        let (i, j) = (random.below(lines.len()), random.below(lines.len()));
        if i < j && site_of(&lines[i]) == site_of(&lines[j]) {
            return (i, j);
        }
    }
}

/// What the store says.
const FORM: &str = "is not of the form";
const NO_SITE: &str = "the ledger has a line of site ";
const TWICE: &str = "the ledger sells a step twice, or leaves one out: ";
const AGREE: &str = "file and ledger do not agree";

pub enum Judged {
    /// Refused with one of these.
    Said(&'static [&'static str]),
    /// Well, with so many lines made up for.
    Well(usize),
}

use Judged::{Said, Well};

type Make = fn(&mut Random, &mut Lines);

/// A crash leaves half a line at the end, which is taken away, or lacks the last line of a site, which is made up for.
pub const KINDS: [(&str, Make, Judged); 21] = [
    ("as it was", |_, _| {}, Well(0)),
    ("half a line at the end", half_line, Well(0)),
    ("fewer bytes at the end than a line has", few_bytes, Well(0)),
    ("the last line cut short", |random, lines| lines.last_mut().unwrap().truncate(random.below(LINE)), Well(1)),
    ("the last line of a site lacks", last_lacks, Well(1)),
    ("a number too large, or with a sign", no_number, Said(&[FORM])),
    ("the same numbers in another form", other_form, Said(&[FORM])),
    ("a byte that is no digit", no_digit, Said(&[FORM])),
    ("a byte too few or too many", shifted, Said(&[FORM])),
    ("any bytes", any_bytes, Said(&[FORM])),
    ("a site that there is not", |random, lines| number(random, lines, 0, &[SITES as u64, 1000, 99_999_999]), Said(&[NO_SITE])),
    ("another turn", |random, lines| more(random, lines, 1), Said(&[TWICE])),
    ("from another step on", |random, lines| more(random, lines, 2), Said(&[TWICE])),
    ("other steps sold", |random, lines| more(random, lines, 3), Said(&[TWICE, AGREE])),
    ("other steps sold in the last line of a site", last_differs, Said(&[AGREE])),
    ("turn 0", |random, lines| number(random, lines, 1, &[0]), Said(&[TWICE])),
    ("a line twice", twice, Said(&[TWICE])),
    ("two lines of a site in each other's place", exchanged, Said(&[TWICE])),
    ("a line lacks", lacks, Said(&[TWICE])),
    ("steps beyond eight digits", beyond, Said(&[TWICE, AGREE])),
    ("no line", |_, lines| lines.clear(), Said(&[AGREE])),
];

/// Damages the ledger of a folder that was right. `nth` gives the kind; the last of all is a folder of that name.
pub fn damage(random: &mut Random, nth: usize, held: &Held) -> Case {
    let mut held = held.clone();
    let kind = nth % (KINDS.len() + 1);
    if kind == KINDS.len() {
        held.insert("ledger".to_string(), None);
        return Case { text: "ledger: a folder for a file".to_string(), held, verdict: Verdict::Refused(vec!["ledger: ".to_string()]) };
    }
    let (text, make, judged) = &KINDS[kind];
    let mut lines = lines(&held);
    make(random, &mut lines);
    held.insert("ledger".to_string(), Some(lines.concat()));
    let verdict = match judged {
        Said(texts) => Verdict::Refused(texts.iter().map(|text| text.to_string()).collect()),
        Well(made_up) => Verdict::Well(*made_up),
    };
    Case { text: format!("ledger: {text}"), held, verdict }
}

fn half_line(random: &mut Random, lines: &mut Lines) {
    let [site, turn, before, sold] = numbers(&lines[lines.len() - 1]);
    let mut half = line([site, turn + 1, before + sold, 3]);
    half.truncate(1 + random.below(LINE - 1));
    lines.push(half);
}

fn few_bytes(random: &mut Random, lines: &mut Lines) {
    let length = 1 + random.below(LINE - 1);
    lines.push(noise(random, length));
}

fn last_lacks(random: &mut Random, lines: &mut Lines) {
    lines.remove(a_last_line(random, lines));
}

fn last_differs(random: &mut Random, lines: &mut Lines) {
    let at = a_last_line(random, lines);
    let [site, turn, before, sold] = numbers(&lines[at]);
    lines[at] = line([site, turn, before, sold + 1]);
}

fn no_number(random: &mut Random, lines: &mut Lines) {
    let at = random.below(lines.len());
    let text = match random.below(6) {
        0 => "18446744073709551616 1 0 5",
        1 => "0 18446744073709551617 0 5",
        2 => "0 1 0 99999999999999999999",
        3 => "      -1        1        0        5",
        4 => "       0        1        0       -5",
        _ => "     0x1        1        0        1",
    };
    lines[at] = format!("{text:<35}\n").into_bytes();
}

fn other_form(random: &mut Random, lines: &mut Lines) {
    let at = random.below(lines.len());
    let [site, turn, before, sold] = numbers(&lines[at]);
    let text = match random.below(7) {
        0 => format!("{site:08} {turn:8} {before:8} {sold:8}\n"),
        1 => format!("{site:8} {turn:8} {before:8} {sold:08}\n"),
        2 => format!("{site:8} {turn:8} {before:<8} {sold:8}\n"),
        3 => format!("{site:8} {turn:+8} {before:8} {sold:8}\n"),
        4 => format!("{site:8}\t{turn:8} {before:8} {sold:8}\n"),
        5 => format!("{site:8} {turn:8} {before:8} {sold:8}\r"),
        _ => format!("{site:8} {turn:8} {before:8} {:8}\n", ""),
    };
    lines[at] = text.into_bytes();
}

/// In the place of a number's last digit; `/` and `:` stand beside the digits.
fn no_digit(random: &mut Random, lines: &mut Lines) {
    let (at, which) = (random.below(lines.len()), random.below(4));
    lines[at][9 * which + 7] = random.of(b"/:/:x\xff");
}

/// Not in the last line: there a byte too few leaves half a line.
fn shifted(random: &mut Random, lines: &mut Lines) {
    let (at, place) = (random.below(lines.len() - 1), random.below(LINE));
    if random.once_in(2) {
        lines[at].remove(place);
    } else {
        lines[at].insert(place, random.of(b" 0\0x"));
    }
}

fn any_bytes(random: &mut Random, lines: &mut Lines) {
    let length = LINE * (1 + random.below(4)) + random.below(LINE);
    let any = noise(random, length);
    if random.once_in(2) {
        lines.clear();
    }
    lines.push(any);
}

/// Gives a line another number.
fn number(random: &mut Random, lines: &mut Lines, which: usize, to: &[u64]) {
    let at = random.below(lines.len());
    let mut found = numbers(&lines[at]);
    found[which] = random.of(to);
    lines[at] = line(found);
}

fn more(random: &mut Random, lines: &mut Lines, which: usize) {
    let at = random.below(lines.len());
    let mut found = numbers(&lines[at]);
    found[which] = random.of(&[found[which] + 1, found[which] + 1_000_000, 99_999_999]);
    lines[at] = line(found);
}

fn twice(random: &mut Random, lines: &mut Lines) {
    let copy = lines[random.below(lines.len())].clone();
    lines.insert(random.below(lines.len() + 1), copy);
}

fn exchanged(random: &mut Random, lines: &mut Lines) {
    let (i, j) = two_of_a_site(random, lines);
    lines.swap(i, j);
}

fn lacks(random: &mut Random, lines: &mut Lines) {
    let (i, _) = two_of_a_site(random, lines);
    lines.remove(i);
}

/// Ahead of the file, as far as eight digits go and then on.
fn beyond(random: &mut Random, lines: &mut Lines) {
    let [site, turn, before, sold] = numbers(&lines[a_last_line(random, lines)]);
    let steps = before + sold;
    lines.push(line([site, turn + 1, steps, 99_999_999]));
    lines.push(line([site, turn + 2, (steps + 99_999_999) % 100_000_000, 99_999_999]));
}
