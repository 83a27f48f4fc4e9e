//! Runs the store as a user does, and says how it ended; folders as they stand before and after.

use std::collections::BTreeMap;
use std::fs;
use std::io::Read;
use std::path::Path;
use std::process::{Child, Command, Stdio};
use std::thread::sleep;
use std::time::{Duration, Instant};

/// Longer than any run here takes on a loaded machine.
const PATIENCE: Duration = Duration::from_secs(120);

/// Its statuses, as the head of store.c gives them.
pub const WELL: i32 = 0;
pub const WRONG: i32 = 1;
pub const MISUSED: i32 = 2;
pub const IN_USE: i32 = 3;

pub struct Store {
    /// The program, with the words before it.
    pub words: Vec<String>,
}

#[derive(Debug)]
pub struct Ended {
    /// None if a signal ended it.
    pub status: Option<i32>,
    pub printed: String,
    pub said: String,
}

impl Store {
    pub fn start(&self, words: &[&str]) -> Result<Child, String> {
        let mut command = Command::new(&self.words[0]);
        command.args(&self.words[1..]).args(words).stdin(Stdio::null()).stdout(Stdio::piped()).stderr(Stdio::piped());
        command.spawn().map_err(|error| format!("{}: {error}", self.words[0]))
    }

    pub fn run(&self, words: &[&str]) -> Result<Ended, String> {
        ended(self.start(words)?)
    }
}

/// Waits for its end. What the store prints is short: no pipe is ever full.
pub fn ended(mut child: Child) -> Result<Ended, String> {
    let start = Instant::now();
    let status = loop {
        match child.try_wait().map_err(|error| error.to_string())? {
            Some(status) => break status,
            None if start.elapsed() > PATIENCE => {
                let _ = child.kill();
                let _ = child.wait();
                return Err(format!("killed: no end after {} s", PATIENCE.as_secs()));
            }
            None => sleep(Duration::from_millis(2)),
        }
    };
    let (mut printed, mut said) = (Vec::new(), Vec::new());
    child.stdout.take().unwrap().read_to_end(&mut printed).map_err(|error| error.to_string())?;
    child.stderr.take().unwrap().read_to_end(&mut said).map_err(|error| error.to_string())?;
    let text = |bytes: Vec<u8>| String::from_utf8_lossy(&bytes).into_owned();
    Ok(Ended { status: status.code(), printed: text(printed), said: text(said) })
}

impl Ended {
    /// Turned away with this status: nothing is printed, and one sentence on standard error holds one of these parts. A sanitizer's report or a
    /// signal is no sentence.
    pub fn turned_away(&self, status: i32, parts: &[String]) -> Result<(), String> {
        let sentence = self.said.starts_with("store: ") && self.said.ends_with('\n') && self.said.lines().count() == 1;
        if self.status == Some(status)
            && self.printed.is_empty()
            && sentence
            && (parts.is_empty() || parts.iter().any(|part| self.said.contains(part.as_str())))
        {
            return Ok(());
        }
        Err(format!("expected status {status} and one sentence with one of {parts:?}, got {self:?}"))
    }

    /// All is well: one line is printed, and standard error says nothing but this many lines that were made up for.
    pub fn well(&self, made_up: usize) -> Result<(), String> {
        let lines = self.said.lines().filter(|line| line.starts_with("made up for: ")).count();
        if self.status == Some(WELL) && self.printed.lines().count() == 1 && lines == made_up && self.said.lines().count() == made_up {
            return Ok(());
        }
        Err(format!("expected status 0 and {made_up} lines made up for, got {self:?}"))
    }

    /// Either of the two, whatever was made up for.
    pub fn orderly(&self) -> Result<(), String> {
        let made_up = self.said.lines().take_while(|line| line.starts_with("made up for: ")).count();
        if self.status == Some(WELL) {
            return self.well(made_up);
        }
        let rest = self.said.split_inclusive('\n').skip(made_up).collect();
        Ended { status: self.status, printed: self.printed.clone(), said: rest }.turned_away(WRONG, &[])
    }
}

/// What a folder holds: bytes by name, and nothing for a folder in it. An empty ledger is as good as none.
pub type Held = BTreeMap<String, Option<Vec<u8>>>;

pub fn held(folder: &Path) -> Result<Held, String> {
    let mut found = Held::new();
    for entry in fs::read_dir(folder).map_err(|error| format!("{}: {error}", folder.display()))? {
        let path = entry.map_err(|error| error.to_string())?.path();
        let name = path.file_name().unwrap().to_string_lossy().into_owned();
        let bytes = if path.is_dir() { None } else { Some(fs::read(&path).map_err(|error| error.to_string())?) };
        if name != "ledger" || bytes != Some(Vec::new()) {
            found.insert(name, bytes);
        }
    }
    Ok(found)
}

/// Makes a new folder that holds this.
pub fn put(folder: &Path, what: &Held) -> Result<(), String> {
    let made = || -> std::io::Result<()> {
        if folder.exists() {
            fs::remove_dir_all(folder)?;
        }
        fs::create_dir(folder)?;
        for (name, bytes) in what {
            match bytes {
                Some(bytes) => fs::write(folder.join(name), bytes)?,
                None => fs::create_dir(folder.join(name))?,
            }
        }
        Ok(())
    };
    made().map_err(|error| format!("{}: {error}", folder.display()))
}

/// The names whose bytes differ.
pub fn changes(before: &Held, after: &Held) -> Vec<String> {
    let names = before.keys().chain(after.keys()).filter(|name| before.get(*name) != after.get(*name));
    let mut names: Vec<String> = names.cloned().collect();
    names.sort();
    names.dedup();
    names
}
