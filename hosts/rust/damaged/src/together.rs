//! Several stores on one folder: one has it, the others are turned away and write nothing.

use crate::store::{changes, ended, held, Ended, Store, IN_USE, WELL};
use crate::trial::wait_for_lines;
use std::fs;
use std::path::Path;
use std::process::{Child, Command};
use std::thread::sleep;
use std::time::{Duration, Instant};

const IN_USE_TEXT: &str = "is in use by another store";
/// Stores that are started at once on a new folder, and how often.
const CROWD: usize = 5;
const ROUNDS: usize = 4;

/// How many stores were turned away.
pub fn all(store: &Store, room: &Path) -> Result<usize, String> {
    let mut away = beside_one_that_stands(store, &room.join("stands"))?;
    away += beside_one_that_runs(store, &room.join("runs"))?;
    for round in 0..ROUNDS {
        away += crowd(store, &room.join(format!("crowd-{round}")))?;
    }
    Ok(away)
}

fn turned_away(ended: Ended) -> Result<usize, String> {
    ended.turned_away(IN_USE, &[IN_USE_TEXT.to_string()]).map(|_| 1)
}

fn signal(child: &Child, name: &str) -> Result<(), String> {
    // A shell has this command built in.
    let sent = Command::new("sh").args(["-c", &format!("kill -{name} {}", child.id())]).status();
    match sent {
        Ok(status) if status.success() => Ok(()),
        _ => Err(format!("signal {name} was not sent")),
    }
}

/// A signal that is sent is not yet taken: the system says when the process stands (T, behind the name in brackets).
fn wait_for_stop(child: &Child) -> Result<(), String> {
    let start = Instant::now();
    while start.elapsed() < Duration::from_secs(60) {
        let state = fs::read_to_string(format!("/proc/{}/stat", child.id())).map_err(|error| error.to_string())?;
        if state.rsplit(')').next().map_or(false, |rest| rest.starts_with(" T")) {
            return Ok(());
        }
        sleep(Duration::from_millis(1));
    }
    Err("a store that was to stand goes on".to_string())
}

/// The first store, with work for much longer than this takes, stands still while others come: whatever changes in the folder is theirs. Then it is
/// killed, and has kept nothing: the next one starts at once.
fn beside_one_that_stands(store: &Store, folder: &Path) -> Result<usize, String> {
    let path = folder.to_string_lossy();
    let mut first = store.start(&["run", &path, "20", "4", "1"])?;
    let found = while_it_stands(store, folder, &path, &first);
    let _ = first.kill();
    ended(first)?;
    let away = found?;
    let next = store.run(&["run", &path, "20", "4", "4294967295"])?;
    next.well(next.said.lines().count())?;
    store.run(&["audit", &path, "20", "4"])?.well(0)?;
    Ok(away)
}

fn while_it_stands(store: &Store, folder: &Path, path: &str, first: &Child) -> Result<usize, String> {
    wait_for_lines(folder, 20)?;
    signal(first, "STOP")?;
    wait_for_stop(first)?;
    let before = held(folder)?;
    let mut away = turned_away(store.run(&["run", path, "20", "4", "1"])?)?;
    away += turned_away(store.run(&["audit", path, "20", "4"])?)?;
    away += turned_away(store.run(&["run", path, "1", "9", "9"])?)?;
    let changed = changes(&before, &held(folder)?);
    if !changed.is_empty() {
        return Err(format!("turned away, and yet these changed: {changed:?}"));
    }
    Ok(away)
}

/// Others come for as long as the first one runs; it comes to its end as if they had not.
fn beside_one_that_runs(store: &Store, folder: &Path) -> Result<usize, String> {
    let path = folder.to_string_lossy();
    let mut first = store.start(&["run", &path, "3", "4", "25"])?;
    // Else the others could have the folder before it.
    let found = wait_for_lines(folder, 1).and_then(|_| while_it_runs(store, &path, &mut first));
    // Where something is wrong the first one is not left behind.
    if found.is_err() {
        let _ = first.kill();
    }
    let first = ended(first)?;
    let away = found?;
    first.well(0)?;
    store.run(&["audit", &path, "3", "4"])?.well(0)?;
    Ok(away)
}

fn while_it_runs(store: &Store, path: &str, first: &mut Child) -> Result<usize, String> {
    let mut away = 0;
    while first.try_wait().map_err(|error| error.to_string())?.is_none() {
        let other = store.run(&["run", path, "3", "4", "25"])?;
        // It may have found the first one at its end.
        match other.status {
            Some(WELL) => other.well(0)?,
            _ => away += turned_away(other)?,
        }
        sleep(Duration::from_millis(250));
    }
    Ok(away)
}

/// Each has the folder or is turned away, and in the end the ledger is right.
fn crowd(store: &Store, folder: &Path) -> Result<usize, String> {
    let path = folder.to_string_lossy();
    let started: Vec<Result<Child, String>> = (0..CROWD).map(|_| store.start(&["run", &path, "2", "1", "40"])).collect();
    let ended: Vec<Result<Ended, String>> = started.into_iter().map(|child| child.and_then(ended)).collect();
    let mut away = 0;
    for ended in ended {
        let ended = ended?;
        match ended.status {
            Some(WELL) => ended.well(0)?,
            _ => away += turned_away(ended)?,
        }
    }
    if away == CROWD {
        return Err("a crowd in which nobody had the folder".to_string());
    }
    store.run(&["audit", &path, "2", "1"])?.well(0)?;
    Ok(away)
}
