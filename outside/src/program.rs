//! Runs a program on a sheet and takes down what it does.

use std::io::{self, Read, Write};
use std::path::Path;
use std::process::{Command, Stdio};
use std::sync::mpsc;
use std::thread;
use std::time::Duration;

const PATIENCE: Duration = Duration::from_secs(20);

/// A program and the arguments it is run with.
#[derive(Clone, Copy)]
pub struct Program<'a> {
    pub path: &'a Path,
    pub arguments: &'a [&'a str],
}

/// What a program did with a sheet.
pub enum Outcome {
    /// It ended, with a status unless a signal ended it.
    Ended { output: Vec<u8>, status: Option<i32> },
    /// It did not end in time and was stopped.
    TookTooLong,
}

impl Outcome {
    /// Whether the program printed exactly this and ended well.
    pub fn is(&self, expected: &str) -> bool {
        matches!(self, Self::Ended { output, status: Some(0) } if output == expected.as_bytes())
    }
}

/// Gives the program the sheet as its standard input. Input and output have a
/// thread each, because either can be larger than a pipe holds.
pub fn run(program: Program, sheet: &[u8]) -> io::Result<Outcome> {
    let mut child = Command::new(program.path)
        .args(program.arguments)
        .stdin(Stdio::piped())
        .stdout(Stdio::piped())
        .stderr(Stdio::null())
        .spawn()?;
    feed(child.stdin.take().expect("standard input is piped"), sheet.to_vec());
    let collected = collect(child.stdout.take().expect("standard output is piped"));
    let Ok(output) = collected.recv_timeout(PATIENCE) else {
        child.kill()?;
        child.wait()?;
        return Ok(Outcome::TookTooLong);
    };
    let status = child.wait()?.code();
    Ok(Outcome::Ended { output: output?, status })
}

fn feed(mut input: impl Write + Send + 'static, sheet: Vec<u8>) {
    thread::spawn(move || {
        // A program may end without reading everything. Whether that was right
        // shows in its output, so a broken pipe is no error here.
        let _ = input.write_all(&sheet);
    });
}

fn collect(mut output: impl Read + Send + 'static) -> mpsc::Receiver<io::Result<Vec<u8>>> {
    let (sender, receiver) = mpsc::channel();
    thread::spawn(move || {
        let mut bytes = Vec::new();
        let result = output.read_to_end(&mut bytes).map(|_| bytes);
        // Nobody waits any longer once the program has been stopped.
        let _ = sender.send(result);
    });
    receiver
}
