//! Running a command on given input.

use std::io::{Read, Write};
use std::process::{Command, ExitStatus, Stdio};
use std::thread;
use std::time::Instant;

pub struct Ran {
    pub output: Vec<u8>,
    /// What it said on standard error.
    pub said: String,
    pub status: ExitStatus,
    /// Whether it took its input to the end.
    pub took_all: bool,
    pub seconds: f64,
}

/// Feeds the input to the command with some more words and collects the output.
/// Each pipe has a thread of its own: were one full while we wait at another,
/// nobody would move.
pub fn run(command: &[String], more: &[String], input: &[u8]) -> Result<Ran, String> {
    let start = Instant::now();
    let failed = |error: std::io::Error| format!("{}: {error}", command[0]);
    let mut child = Command::new(&command[0])
        .args(&command[1..])
        .args(more)
        .stdin(Stdio::piped())
        .stdout(Stdio::piped())
        .stderr(Stdio::piped())
        .spawn()
        .map_err(failed)?;
    let mut stdin = child.stdin.take().expect("a pipe");
    let mut stdout = child.stdout.take().expect("a pipe");
    let mut stderr = child.stderr.take().expect("a pipe");
    let (mut output, mut said) = (Vec::new(), Vec::new());
    let took_all = thread::scope(|scope| {
        // A command that stops early shuts its input; its output tells the rest.
        let fed = scope.spawn(move || stdin.write_all(input).is_ok());
        let heard = scope.spawn(|| stderr.read_to_end(&mut said));
        stdout.read_to_end(&mut output)?;
        heard.join().expect("a thread that reads")?;
        Ok(fed.join().expect("a thread that writes"))
    });
    let took_all = took_all.map_err(failed)?;
    let status = child.wait().map_err(failed)?;
    let said = String::from_utf8_lossy(&said).into_owned();
    Ok(Ran { output, said, status, took_all, seconds: start.elapsed().as_secs_f64() })
}
