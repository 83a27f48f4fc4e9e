//! The store beside damaged files, wrong calls and other stores. It runs the store as a user does; of its sources it shares nothing, and knows the
//! form of its files by itself.
//!
//!     damaged --program PATH --room FOLDER [--runner 'WORDS'] [--count N] [--seed S]
//!
//! Of N folders two in three have a job's file that is damaged, and one a ledger. A folder that is judged wrongly stays where it is, and the exit
//! status is then 1.

mod calls;
mod jobdamage;
mod jobfile;
mod ledger;
#[path = "../../common/random.rs"]
#[allow(dead_code)]
mod random;
mod store;
mod together;
mod trial;

use random::Random;
use std::path::{Path, PathBuf};
use std::process::exit;
use std::sync::atomic::{AtomicU64, Ordering};
use store::{Held, Store};

struct Options {
    store: Store,
    room: PathBuf,
    count: u64,
    seed: u64,
}

fn usage(why: &str) -> ! {
    eprintln!("damaged: {why}");
    eprintln!("usage: damaged --program PATH --room FOLDER [--runner 'WORDS'] [--count N] [--seed S]");
    exit(2)
}

fn options() -> Options {
    let (mut runner, mut program, mut room) = (Vec::new(), None, None);
    let (mut count, mut seed) = (360, 1);
    let mut words = std::env::args().skip(1);
    while let Some(name) = words.next() {
        let value = words.next().unwrap_or_else(|| usage(&format!("{name} has no value")));
        let number = || value.parse::<u64>().unwrap_or_else(|_| usage(&format!("{name} wants a number")));
        match name.as_str() {
            "--program" => program = Some(value),
            "--runner" => runner = value.split_whitespace().map(String::from).collect(),
            "--room" => room = Some(PathBuf::from(value)),
            "--count" => count = number(),
            "--seed" => seed = number(),
            _ => usage(&format!("no option {name}")),
        }
    }
    runner.push(program.unwrap_or_else(|| usage("which program?")));
    Options { store: Store { words: runner }, room: room.unwrap_or_else(|| usage("which folder?")), count, seed }
}

/// Judges one damaged folder.
fn one(options: &Options, bases: &[Held], index: u64) -> Result<(), String> {
    let mut random = Random::new(options.seed, index);
    let base = &bases[random.below(bases.len())];
    let nth = (index / 3 * 2 + index % 3) as usize;
    let case =
        if is_job(index) { jobdamage::damage(&mut random, nth, base)? } else { ledger::damage(&mut random, (index / 3) as usize, base) };
    let folder = options.room.join(format!("case-{index}"));
    let judged = trial::judge(&options.store, &folder, &case);
    if judged.is_ok() {
        let _ = std::fs::remove_dir_all(&folder);
    }
    judged.map_err(|complaint| format!("seed {} index {index}, {} ({}): {complaint}", options.seed, case.text, folder.display()))
}

fn is_job(index: u64) -> bool {
    index % 3 != 2
}

/// All damaged folders, some at a time. Gives how many were judged wrongly.
fn damages(options: &Options, bases: &[Held]) -> u64 {
    let (next, wrong) = (AtomicU64::new(0), AtomicU64::new(0));
    let jobs = std::thread::available_parallelism().map_or(2, |n| n.get()).clamp(2, 4);
    std::thread::scope(|scope| {
        for _ in 0..jobs {
            scope.spawn(|| loop {
                let index = next.fetch_add(1, Ordering::Relaxed);
                if index >= options.count {
                    break;
                }
                if let Err(complaint) = one(options, bases, index) {
                    if wrong.fetch_add(1, Ordering::Relaxed) < 10 {
                        println!("{complaint}");
                    }
                }
            });
        }
    });
    wrong.into_inner()
}

fn bases(store: &Store, room: &Path) -> Result<Vec<Held>, String> {
    Ok(vec![trial::under_way(store, &room.join("under-way"))?, trial::finished(store, &room.join("finished"))?])
}

fn all(options: &Options) -> Result<u64, String> {
    let (store, room) = (&options.store, &options.room);
    if options.count < 3 * jobdamage::KINDS.len().max(ledger::KINDS.len() + 1) as u64 {
        return Err("not every kind of damage was tried".to_string());
    }
    let bases = bases(store, room)?;
    let mut calls = calls::Calls::new(store, room);
    // What waits for others is done beside what does not.
    let (away, wrong) = std::thread::scope(|scope| {
        let away = scope.spawn(|| together::all(store, room));
        calls.all();
        let wrong = damages(options, &bases);
        (away.join().unwrap_or_else(|_| Err("no end".to_string())), wrong)
    });
    let mut wrong = wrong + calls.complaints.len() as u64;
    for complaint in calls.complaints.iter().take(10) {
        println!("{complaint}");
    }
    let away = away.unwrap_or_else(|complaint| {
        println!("stores on one folder: {complaint}");
        wrong += 1;
        0
    });
    let jobs = (0..options.count).filter(|index| is_job(*index)).count() as u64;
    println!(
        "{} folders ({jobs} files of jobs and {} ledgers damaged), {} calls, {away} stores turned away from a folder in use: {wrong} judged wrongly",
        options.count,
        options.count - jobs,
        calls.tried
    );
    Ok(wrong)
}

fn main() {
    let options = options();
    match all(&options) {
        Ok(wrong) => exit((wrong > 0) as i32),
        Err(complaint) => {
            println!("nothing was compared: {complaint}");
            exit(1)
        }
    }
}
