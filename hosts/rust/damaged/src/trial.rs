//! One folder with something wrong in it: the store runs on it, and its end is judged.

use crate::jobfile::{name, JobFile, LARGEST};
use crate::ledger;
use crate::random::Random;
use crate::store::{changes, ended, held, put, Held, Store, WELL};
use std::fs;
use std::path::Path;
use std::thread::sleep;
use std::time::{Duration, Instant};

/// The sites of a folder here, and the seed of what they send: the first one has the largest job that there is, another one a list without a step.
pub const SITES: usize = 6;
const SITES_TEXT: &str = "6";
const FOLDER_SEED: &str = "174";
pub const LARGEST_SITE: usize = 0;

pub enum Verdict {
    /// Status 1, one sentence that holds one of these, and a folder in which no byte has changed.
    Refused(Vec<String>),
    /// Finished, with this many lines made up for, and found right by an audit.
    Well(usize),
    /// Finished or refused, and so the audit.
    Either,
}

pub struct Case {
    pub text: String,
    pub held: Held,
    pub verdict: Verdict,
}

pub fn noise(random: &mut Random, length: usize) -> Vec<u8> {
    (0..length).map(|_| random.word() as u8).collect()
}

/// Runs the store on the folder to its end, in as few turns as can be.
pub fn go_on(store: &Store, folder: &Path) -> Result<crate::store::Ended, String> {
    store.run(&["run", &folder.to_string_lossy(), SITES_TEXT, FOLDER_SEED, "4294967295"])
}

pub fn audit(store: &Store, folder: &Path) -> Result<crate::store::Ended, String> {
    store.run(&["audit", &folder.to_string_lossy(), SITES_TEXT, FOLDER_SEED])
}

pub fn judge(store: &Store, folder: &Path, case: &Case) -> Result<(), String> {
    put(folder, &case.held)?;
    let found = go_on(store, folder)?;
    let after = held(folder)?;
    match &case.verdict {
        Verdict::Refused(parts) => {
            found.turned_away(crate::store::WRONG, parts)?;
            let mut before = case.held.clone();
            before.retain(|name, bytes| name != "ledger" || *bytes != Some(Vec::new()));
            let changed = changes(&before, &after);
            if !changed.is_empty() {
                return Err(format!("refused, and yet these changed: {changed:?}"));
            }
            Ok(())
        }
        Verdict::Well(made_up) => {
            found.well(*made_up)?;
            let (before, after) = (ledger::lines(&case.held).concat(), ledger::lines(&after).concat());
            if !after.starts_with(&before) {
                return Err("the ledger's lines have changed".to_string());
            }
            audit(store, folder)?.well(0)
        }
        Verdict::Either => {
            found.orderly()?;
            if found.status == Some(WELL) {
                audit(store, folder)?.orderly()?;
            }
            Ok(())
        }
    }
}

/// Waits until the ledger has so many lines.
pub fn wait_for_lines(folder: &Path, lines: usize) -> Result<(), String> {
    let start = Instant::now();
    let enough = (lines * ledger::LINE) as u64;
    while fs::metadata(folder.join("ledger")).map_or(0, |found| found.len()) < enough {
        if start.elapsed() > Duration::from_secs(60) {
            return Err("a store that was started writes no lines".to_string());
        }
        sleep(Duration::from_millis(1));
    }
    Ok(())
}

/// A folder that a store was killed in, when each site's job had some turns; a ledger that lacks a line has it.
pub fn under_way(store: &Store, folder: &Path) -> Result<Held, String> {
    let mut child = store.start(&["run", &folder.to_string_lossy(), SITES_TEXT, FOLDER_SEED, "9"])?;
    let waited = wait_for_lines(folder, 10 * SITES);
    let _ = child.kill();
    ended(child)?;
    waited?;
    let mut found = held(folder)?;
    let mut lines = ledger::lines(&found);
    for site in 0..SITES {
        let file = JobFile::read(&found, site)?;
        let written = lines.iter().filter(|line| ledger::numbers(line)[0] == site as u64).count() as u64;
        if file.turns() == written + 1 {
            lines.push(file.line());
        }
    }
    found.insert("ledger".to_string(), Some(lines.concat()));
    found.retain(|name, _| !name.ends_with(".new"));
    Ok(found)
}

/// A folder in which all sites have their products.
pub fn finished(store: &Store, folder: &Path) -> Result<Held, String> {
    store.run(&["run", &folder.to_string_lossy(), SITES_TEXT, FOLDER_SEED, "300"])?.well(0)?;
    audit(store, folder)?.well(0)?;
    let found = held(folder)?;
    let largest = found.get(&name(LARGEST_SITE)).and_then(|bytes| bytes.as_ref().map(|bytes| bytes.len()));
    if largest != Some(LARGEST) {
        return Err(format!("site {LARGEST_SITE} has not the largest job: {largest:?} bytes for {LARGEST}"));
    }
    Ok(found)
}
