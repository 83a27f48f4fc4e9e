//! The second program beside `multiply`: it makes many inputs from a seed, says by itself what document 01 wants printed for each, runs
//! `multiply` on each and compares. It shares no code with the library: schoolbook product, one digit a byte, its own reader of frames, its own
//! walk of the list of row steps.
//!
//!     second --program PATH [--runner 'WORDS'] [--count N] [--seed S] [--only INDEX] [--jobs J] [--keep FOLDER]
//!     second --judge      prints what multiply has to print for standard input, so that the samples judge this program too
//!
//! An input that makes a difference stays in the folder; the exit status is then 1, as it is where there was no input.

#[path = "../../common/digits.rs"]
#[allow(dead_code)]
mod digits;
mod frame;
mod inputs;
#[path = "../../common/quotes.rs"]
mod quotes;
#[path = "../../common/random.rs"]
#[allow(dead_code)]
mod random;
mod running;

use random::Random;
use std::collections::BTreeMap;
use std::fs;
use std::io::{stdin, stdout, Read, Write};
use std::path::PathBuf;
use std::process::exit;
use std::sync::atomic::{AtomicU64, Ordering};
use std::sync::Mutex;

struct Options {
    words: Vec<String>,
    count: u64,
    seed: u64,
    only: Option<u64>,
    jobs: usize,
    keep: PathBuf,
}

fn usage(why: &str) -> ! {
    eprintln!("second: {why}");
    eprintln!("usage: second --program PATH [--runner 'WORDS'] [--count N] [--seed S] [--only INDEX] [--jobs J] [--keep FOLDER]");
    exit(2)
}

fn options() -> Options {
    let mut runner = Vec::new();
    let mut program = None;
    let mut made = Options {
        words: Vec::new(),
        count: 2000,
        seed: 1,
        only: None,
        jobs: std::thread::available_parallelism().map_or(2, |n| n.get()).clamp(1, 4),
        keep: std::env::temp_dir(),
    };
    let mut words = std::env::args().skip(1);
    while let Some(name) = words.next() {
        let value = words.next().unwrap_or_else(|| usage(&format!("{name} has no value")));
        let number = || value.parse::<u64>().unwrap_or_else(|_| usage(&format!("{name} wants a number")));
        match name.as_str() {
            "--program" => program = Some(value),
            "--runner" => runner = value.split_whitespace().map(String::from).collect(),
            "--count" => made.count = number(),
            "--seed" => made.seed = number(),
            "--only" => made.only = Some(number()),
            "--jobs" => made.jobs = number().clamp(1, 64) as usize,
            "--keep" => made.keep = PathBuf::from(value),
            _ => usage(&format!("no option {name}")),
        }
    }
    made.words = runner;
    made.words.push(program.unwrap_or_else(|| usage("which program?")));
    made
}

/// What one input came to.
struct Outcome {
    answer: String,
    difference: Option<String>,
}

/// The bytes about place `at`, as text.
fn shown(bytes: &[u8], at: usize) -> String {
    let start = at.saturating_sub(60).min(bytes.len());
    let end = (at + 60).min(bytes.len());
    let before = if start > 0 { ".." } else { "" };
    let after = if end < bytes.len() { ".." } else { "" };
    format!("{before}{:?}{after}", String::from_utf8_lossy(&bytes[start..end]))
}

fn first_difference(x: &[u8], y: &[u8]) -> usize {
    x.iter().zip(y).take_while(|(p, q)| p == q).count()
}

fn compare(options: &Options, index: u64) -> Outcome {
    let input = inputs::make(options.seed, index);
    // Where the input never ends, what comes within the form has decided long before this.
    let mut whole = input.bytes.clone();
    if let Some(filler) = input.endless {
        whole.resize(whole.len() + 100_000, filler);
    }
    let expected = frame::answer(&whole);
    let answer = match expected.strip_prefix(b"refused ") {
        Some(number) => String::from_utf8_lossy(&number[..2]).into_owned(),
        None => "00".to_string(),
    };
    let file = options.keep.join(format!("second-{}-{index}.in", options.seed));
    let mut found = Vec::new();
    if let Some(meant) = input.meant {
        if answer != format!("{meant:02x}") {
            found.push(format!("  this program itself is wrong: the input was made to give {meant:02x}"));
        }
    }
    let mut random = Random::new(!options.seed, index);
    let ran = fs::write(&file, &input.bytes).and_then(|_| running::run(&options.words, &input, &file, &mut random));
    match ran {
        Ok(ran) => {
            if let Some(ended) = ran.ended {
                found.push(format!("  ended with {ended}"));
            }
            if ran.output != expected {
                let at = first_difference(&expected, &ran.output);
                let (want, got) = (shown(&expected, at), shown(&ran.output, at));
                found.push(format!("  from byte {at} on:\n  expected {want}\n  got      {got}"));
            }
        }
        Err(error) => found.push(format!("  {error}")),
    }
    let difference = if found.is_empty() {
        let _ = fs::remove_file(&file);
        None
    } else {
        Some(format!("seed {} index {index} ({}), input in {}\n{}", options.seed, input.kind, file.display(), found.join("\n")))
    };
    Outcome { answer, difference }
}

/// Prints what multiply has to print for standard input.
fn judge() -> std::io::Result<()> {
    let mut input = Vec::new();
    stdin().read_to_end(&mut input)?;
    stdout().write_all(&frame::answer(&input))
}

fn main() {
    if std::env::args().skip(1).eq(["--judge".to_string()]) {
        exit(judge().is_err() as i32);
    }
    let options = options();
    let (first, end) = match options.only {
        Some(index) => (index, index + 1),
        None => (0, options.count),
    };
    let next = AtomicU64::new(first);
    let answers = Mutex::new(BTreeMap::new());
    let differ = AtomicU64::new(0);
    std::thread::scope(|scope| {
        for _ in 0..options.jobs {
            scope.spawn(|| loop {
                let index = next.fetch_add(1, Ordering::Relaxed);
                if index >= end {
                    break;
                }
                let outcome = compare(&options, index);
                *answers.lock().unwrap().entry(outcome.answer).or_insert(0u64) += 1;
                if let Some(text) = outcome.difference {
                    // A wrong program differs everywhere: the first few say enough.
                    if differ.fetch_add(1, Ordering::Relaxed) < 10 {
                        println!("{text}");
                    }
                }
            });
        }
    });
    let answers = answers.into_inner().unwrap();
    let counted: Vec<String> = answers.iter().map(|(answer, count)| format!("{answer}: {count}")).collect();
    println!("answers by number: {}", counted.join(", "));
    let differ = differ.into_inner();
    if end == first {
        println!("no input was made, nothing is compared");
    }
    println!("{} inputs, {differ} differ", end - first);
    exit((differ > 0 || end == first) as i32)
}
