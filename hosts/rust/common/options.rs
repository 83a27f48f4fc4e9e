//! The options of a host that makes its calls from a seed.

use std::process::exit;

/// The values of `--count N` and `--seed S`; without them `count` and 1. Anything else ends the program with status 2.
pub fn count_and_seed(program: &str, count: u64) -> (u64, u64) {
    let (mut count, mut seed) = (count, 1);
    let mut options = std::env::args().skip(1);
    while let Some(option) = options.next() {
        let value = options.next().and_then(|value| value.parse::<u64>().ok());
        match (option.as_str(), value) {
            ("--count", Some(value)) => count = value,
            ("--seed", Some(value)) => seed = value,
            _ => {
                eprintln!("usage: {program} [--count N] [--seed S]");
                exit(2)
            }
        }
    }
    (count, seed)
}
