//! The store called with words that it has to refuse.

use crate::store::{held, Ended, Store, MISUSED, WELL, WRONG};
use std::fs;
use std::path::Path;

/// What is no number in decimal digits. Many readers take some of them.
const NO_NUMBERS: [&str; 19] =
    ["", " ", " 5", "5 ", "\t5", "5\n", "+5", "-1", "-0", "--5", "0x5", "5x", "x", "1e3", "5.0", "1,000", "1_000", "٣", "５"];

/// What is one, and 64 bits do not hold it.
const TOO_LARGE: [&str; 3] = ["18446744073709551616", "18446744073709551621", "100000000000000000000000000000000000000005"];

/// The calls tried so far, and the complaints.
pub struct Calls<'a> {
    store: &'a Store,
    room: &'a Path,
    pub tried: usize,
    pub complaints: Vec<String>,
}

impl<'a> Calls<'a> {
    pub fn new(store: &'a Store, room: &'a Path) -> Calls<'a> {
        Calls { store, room, tried: 0, complaints: Vec::new() }
    }

    /// All of them. Nothing that is refused makes a folder.
    pub fn all(&mut self) {
        self.usage();
        self.numbers();
        if self.room.join("none").exists() {
            self.complaints.push("a call that was refused has made a folder".to_string());
        }
        self.folders();
        self.accepted();
    }

    fn call(&mut self, words: &[&str], test: impl Fn(&Ended) -> Result<(), String>) {
        self.tried += 1;
        if let Err(complaint) = self.store.run(words).and_then(|ended| test(&ended)) {
            self.complaints.push(format!("store {words:?}: {complaint}"));
        }
    }

    /// Words that are no call at all are answered by the two that there are.
    fn usage(&mut self) {
        let none = self.path("none");
        let calls: [&[&str]; 12] = [
            &[],
            &["run"],
            &["audit"],
            &["help"],
            &["--help"],
            &["", &none, "3", "1", "5"],
            &["Run", &none, "3", "1", "5"],
            &["run", &none, "3", "1"],
            &["run", &none, "3", "1", "5", "5"],
            &["audit", &none, "3"],
            &["audit", &none, "3", "1", "5"],
            &["sell", &none, "3", "1", "5"],
        ];
        for words in calls {
            self.call(words, |ended| {
                let usage = ended.said.starts_with("usage: store run FOLDER SITES SEED MOST") && ended.said.lines().count() == 1;
                if ended.status == Some(MISUSED) && ended.printed.is_empty() && usage {
                    return Ok(());
                }
                Err(format!("expected status 2 and the usage, got {ended:?}"))
            });
        }
    }

    fn numbers(&mut self) {
        let none = self.path("none");
        let misused = |name: &'static str| move |ended: &Ended| ended.turned_away(MISUSED, &[format!("{name} has to be a number from ")]);
        for text in NO_NUMBERS.into_iter().chain(TOO_LARGE) {
            self.call(&["run", &none, text, "1", "5"], misused("SITES"));
            self.call(&["run", &none, "3", text, "5"], misused("SEED"));
            self.call(&["run", &none, "3", "1", text], misused("MOST"));
        }
        for text in ["", "-1", "0", "1000001", "18446744073709551615", "18446744073709551617"] {
            self.call(&["run", &none, text, "1", "5"], misused("SITES"));
            self.call(&["audit", &none, text, "1"], misused("SITES"));
        }
        for text in ["0", "4294967296", "4294967297", "18446744073709551615"] {
            self.call(&["run", &none, "3", "1", text], misused("MOST"));
        }
        self.call(&["audit", &none, "3", "-1"], misused("SEED"));
        self.call(&["run", "", "3", "1", "5"], |ended| ended.turned_away(MISUSED, &["FOLDER".to_string()]));
    }

    /// Folders that are none.
    fn folders(&mut self) {
        let file = self.path("a-file");
        let empty = self.path("empty");
        let long = self.path(&"x".repeat(300));
        let longer = self.path(&"x/".repeat(3000));
        let mut made = fs::write(&file, "kept");
        made = made.and_then(|_| fs::create_dir_all(&empty));
        if let Err(error) = made {
            self.complaints.push(error.to_string());
        }
        let refused = |part: String| move |ended: &Ended| ended.turned_away(WRONG, &[part.clone()]);
        for folder in [file.clone(), self.path("a-file/below"), self.path("no-parent/below"), long, longer] {
            // The name itself may be too long to be said.
            let part = folder.chars().take(100).collect::<String>();
            self.call(&["run", &folder, "3", "1", "5"], refused(part.clone()));
            self.call(&["audit", &folder, "3", "1"], refused(part));
        }
        self.call(&["audit", &self.path("nowhere"), "3", "1"], refused("nowhere".to_string()));
        self.call(&["audit", &empty, "3", "1"], refused("ledger".to_string()));
        let kept = fs::read(&file).map_or(false, |bytes| bytes == b"kept");
        let still = held(Path::new(&empty)).map_or(false, |held| held.is_empty());
        if !kept || !still || self.room.join("nowhere").exists() || self.room.join("no-parent").exists() {
            self.complaints.push("a call that was refused has written".to_string());
        }
    }

    /// The ends of each range are accepted, a folder once more, and then other sites or another seed are not.
    fn accepted(&mut self) {
        let folder = self.path("accepted");
        let well = |ended: &Ended| ended.well(0);
        let refused = |part: &str| {
            let parts = [part.to_string()];
            move |ended: &Ended| ended.turned_away(WRONG, &parts)
        };
        self.call(&["run", &folder, "1", "18446744073709551615", "4294967295"], well);
        self.call(&["run", &folder, "2", "18446744073709551615", "4294967295"], well);
        self.call(&["audit", &folder, "2", "18446744073709551615"], well);
        self.call(&["run", &folder, "1", "18446744073709551615", "5"], refused("the ledger has a line of site 1"));
        self.call(&["audit", &folder, "1", "18446744073709551615"], refused("the ledger has a line of site 1"));
        self.call(&["audit", &folder, "3", "18446744073709551615"], refused("site 2 is not finished"));
        self.call(&["run", &folder, "2", "0", "5"], refused("another job than the site's"));
        self.call(&["audit", &folder, "2", "0"], refused("another job than the site's"));
        self.call(&["audit", &folder, "2", "18446744073709551615"], |ended| match ended.status {
            Some(WELL) => Ok(()),
            _ => Err(format!("the folder has changed: {ended:?}")),
        });
    }

    fn path(&self, name: &str) -> String {
        self.room.join(name).to_string_lossy().into_owned()
    }
}
