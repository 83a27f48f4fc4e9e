//! Runs the program on one input and takes what it prints.

use crate::inputs::Input;
use crate::random::Random;
use std::fs::File;
use std::io::{Read, Write};
use std::path::Path;
use std::process::{Command, Stdio};
use std::sync::mpsc::channel;
use std::thread::spawn;
use std::time::Duration;

/// Longer than any run takes on a loaded machine.
const PATIENCE: Duration = Duration::from_secs(60);
/// More than any answer has.
const MOST_OUTPUT: u64 = 1 << 20;

#[derive(PartialEq)]
pub struct Ran {
    pub output: Vec<u8>,
    /// How the program ended, as text; `None` is status 0.
    pub ended: Option<String>,
}

/// The input comes from a file, where reads are long, or from a pipe in pieces, where they are short. Endless input comes from a pipe alone.
pub fn run(words: &[String], input: &Input, file: &Path, random: &mut Random) -> std::io::Result<Ran> {
    let piped = input.endless.is_some() || random.once_in(2);
    let mut command = Command::new(&words[0]);
    command.args(&words[1..]).stdout(Stdio::piped());
    command.stdin(if piped { Stdio::piped() } else { Stdio::from(File::open(file)?) });
    let mut child = command.spawn()?;
    if let Some(pipe) = child.stdin.take() {
        let piece = 1 + random.below(if input.bytes.len() < 200 { 20 } else { 5000 });
        let (bytes, endless) = (input.bytes.clone(), input.endless);
        spawn(move || feed(pipe, &bytes, piece, endless));
    }
    let stdout = child.stdout.take().unwrap();
    let (sender, receiver) = channel();
    spawn(move || {
        let mut output = Vec::new();
        let read = stdout.take(MOST_OUTPUT).read_to_end(&mut output);
        let _ = sender.send(read.map(|_| output));
    });
    let late = match receiver.recv_timeout(PATIENCE) {
        Ok(output) => {
            let output = output?;
            let status = child.wait()?;
            let ended = if status.code() == Some(0) { None } else { Some(status.to_string()) };
            return Ok(Ran { output, ended });
        }
        Err(late) => late,
    };
    child.kill()?;
    child.wait()?;
    Ok(Ran { output: Vec::new(), ended: Some(format!("killed: no end after {} s ({late})", PATIENCE.as_secs())) })
}

/// Writes until the program stops reading: then the pipe is broken, which is no fault.
fn feed(mut pipe: impl Write, bytes: &[u8], piece: usize, endless: Option<u8>) {
    for part in bytes.chunks(piece) {
        if pipe.write_all(part).is_err() {
            return;
        }
    }
    if let Some(filler) = endless {
        let more = vec![filler; 4096];
        while pipe.write_all(&more).is_ok() {}
    }
}
