//! Compares products that multiply prints with those of PARI/GP, which shares nothing with the library nor with the second program.
//!
//!     peer --program PATH [--runner 'WORDS'] [--count N] [--seed S] >SCRIPT
//!
//! It makes N pairs of matrices, 1 to 128 rows and columns (gp's matrices of no columns forget their rows), runs multiply on each, and writes a
//! script for gp: A, B and the product that multiply printed, as digits; gp multiplies A and B modulo 3 and says where the two differ.

#[path = "../rust/common/digits.rs"]
#[allow(dead_code)]
mod digits;
#[path = "../rust/second/src/frame.rs"]
#[allow(dead_code)]
mod frame;
#[path = "../rust/common/quotes.rs"]
#[allow(dead_code)]
mod quotes;
#[path = "../rust/common/random.rs"]
#[allow(dead_code)]
mod random;

use digits::Digits;
use random::Random;
use std::io::Write;
use std::process::{exit, Command, Stdio};

fn usage() -> ! {
    eprintln!("usage: peer --program PATH [--runner 'WORDS'] [--count N] [--seed S]");
    exit(2)
}

/// What the program prints for this input.
fn printed(words: &[String], input: &[u8]) -> std::io::Result<Vec<u8>> {
    let mut child = Command::new(&words[0]).args(&words[1..]).stdin(Stdio::piped()).stdout(Stdio::piped()).spawn()?;
    child.stdin.take().unwrap().write_all(input)?;
    Ok(child.wait_with_output()?.stdout)
}

/// A matrix for gp.
fn gp(name: &str, m: &Digits) -> String {
    let cells: Vec<String> = m.cells.iter().map(|cell| cell.to_string()).collect();
    format!("v=[{}];{name}=matrix({},{},i,j,v[(i-1)*{}+j]);\n", cells.join(","), m.rows, m.columns, m.columns)
}

fn main() {
    let (mut runner, mut program, mut count, mut seed) = (Vec::new(), None, 100, 1);
    let mut options = std::env::args().skip(1);
    while let (Some(option), Some(value)) = (options.next(), options.next()) {
        match option.as_str() {
            "--program" => program = Some(value),
            "--runner" => runner = value.split_whitespace().map(String::from).collect(),
            "--count" => count = value.parse().unwrap_or_else(|_| usage()),
            "--seed" => seed = value.parse().unwrap_or_else(|_| usage()),
            _ => usage(),
        }
    }
    let mut words: Vec<String> = runner;
    words.push(program.unwrap_or_else(|| usage()));
    println!("equal=0;");
    for index in 0..count {
        let mut random = Random::new(seed, index);
        let (m, l, n) = (1 + random.below(128), 1 + random.below(128), 1 + random.below(128));
        let (a, b) = (Digits::random(&mut random, m, l), Digits::random(&mut random, l, n));
        let output = match printed(&words, &[frame::written(&a), frame::written(&b)].concat()) {
            Ok(output) => output,
            Err(error) => {
                eprintln!("peer: {}: {error}", words.join(" "));
                exit(1)
            }
        };
        let product = match frame::matrix(&mut &output[..]) {
            Ok(read) => Digits::of_words(read.rows, read.columns, &read.words),
            Err(_) => {
                eprintln!("peer: pair {index}: multiply printed {:?}", String::from_utf8_lossy(&output));
                exit(1)
            }
        };
        print!("{}{}{}", gp("A", &a), gp("B", &b), gp("P", &product));
        println!(
            "if(lift((A*Mod(1,3))*(B*Mod(1,3)))==P,equal++,print(\"pair {index} of seed {seed} differs: {m} by {l} times {l} by {n}\"));"
        );
    }
    println!(
        "print(equal,\" of {count} products of multiply, 1 to 128 rows and columns, equal those of PARI/GP \",version(),\" modulo 3\");"
    );
    println!("quit(equal!={count});");
}
