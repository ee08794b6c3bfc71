//! A listing program as a test runs it: on a whole input, or fed while it runs. It must end by itself, with status 0, and say
//! nothing on standard error.

#![allow(dead_code)]

use std::fs::File;
use std::io::{PipeWriter, Read, Write, pipe};
use std::process::{Child, Command, Output, Stdio};
use std::sync::mpsc::{Receiver, RecvTimeoutError, Sender, channel};
use std::time::{Duration, Instant};

/// An answer that takes longer does not come.
const PATIENCE: Duration = Duration::from_secs(5);
/// How long nothing has to come where nothing is to be printed.
const SILENCE: Duration = Duration::from_millis(2);

/// Bytes of a text that a report shows.
const SHOWN: usize = 800;

/// Bytes of an input that are written in small pieces.
const IN_PIECES: usize = 4000;

/// What a program printed that ended well.
pub fn good(program: &str, output: Output) -> Result<Vec<u8>, String> {
    if !output.status.success() {
        return Err(format!("{program} ended with {}", output.status));
    }
    if !output.stderr.is_empty() {
        return Err(format!("{program} says {}", String::from_utf8_lossy(&output.stderr).trim_end()));
    }
    Ok(output.stdout)
}

/// Writes the input, the front of it in small pieces: a program reads what is there, and a command may lie across two reads.
fn feed(mut stdin: impl Write, input: &[u8]) -> std::io::Result<()> {
    let (mut front, rest) = input.split_at(input.len().min(IN_PIECES));
    let mut sizes = [1, 7, 24, 25, 26, 61, 300].into_iter().cycle();
    while !front.is_empty() {
        let (piece, after) = front.split_at(sizes.next().unwrap_or(1).min(front.len()));
        stdin.write_all(piece)?;
        stdin.flush()?;
        front = after;
    }
    stdin.write_all(rest)
}

/// What the program prints of the input.
pub fn printed(program: &str, input: &[u8]) -> Result<Vec<u8>, String> {
    let mut child = Command::new(program)
        .stdin(Stdio::piped())
        .stdout(Stdio::piped())
        .stderr(Stdio::piped())
        .spawn()
        .map_err(|e| format!("{program}: {e}"))?;
    let stdin = child.stdin.take().unwrap();
    std::thread::scope(|s| {
        // A program that has met refusal 1 may close its input early.
        s.spawn(move || drop(feed(stdin, input)));
        good(program, child.wait_with_output().map_err(|e| e.to_string())?)
    })
}

/// A program that is fed while it runs.
pub struct Live {
    child: Child,
    stdin: Option<PipeWriter>,
    /// What it prints, as it comes.
    came: Receiver<Vec<u8>>,
}

impl Live {
    /// Starts the program with `first` in its input already; a pipe holds 64 KiB.
    pub fn start(program: &str, first: &[u8]) -> Result<Self, String> {
        let (input, mut stdin) = pipe().map_err(|e| e.to_string())?;
        stdin.write_all(first).map_err(|e| e.to_string())?;
        let mut child = Command::new(program)
            .stdin(input)
            .stdout(Stdio::piped())
            .stderr(Stdio::piped())
            .spawn()
            .map_err(|e| format!("{program}: {e}"))?;
        let (to, came) = channel();
        let stdout = child.stdout.take().unwrap();
        std::thread::spawn(move || pass_on(stdout, &to));
        Ok(Self { child, stdin: Some(stdin), came })
    }

    pub fn send(&mut self, bytes: &[u8]) -> Result<(), String> {
        let stdin = self.stdin.as_mut().ok_or("the input is closed")?;
        stdin.write_all(bytes).map_err(|e| format!("a write to the program: {e}"))
    }

    /// The program prints these bytes and no others, though nothing more is sent.
    pub fn answers(&mut self, expected: &[u8]) -> Result<(), String> {
        let until = Instant::now() + if expected.is_empty() { SILENCE } else { PATIENCE };
        let mut got = Vec::new();
        while got.len() < expected.len() || expected.is_empty() {
            match self.came.recv_timeout(until.saturating_duration_since(Instant::now())) {
                Ok(bytes) => got.extend(bytes),
                Err(_) => break,
            }
        }
        if got == expected {
            return Ok(());
        }
        let [got, expected] = [&got, expected].map(shortened);
        Err(format!("came:\n{got}wanted, with nothing more sent:\n{expected}"))
    }

    /// The input ends; so does the program, and prints nothing more.
    pub fn closes(mut self) -> Result<(), String> {
        drop(self.stdin.take());
        self.ends()
    }

    /// The program ends, though its input is open.
    pub fn ends(&mut self) -> Result<(), String> {
        match self.came.recv_timeout(PATIENCE) {
            Err(RecvTimeoutError::Disconnected) => {}
            Err(RecvTimeoutError::Timeout) => return Err("the program does not end".to_string()),
            Ok(bytes) => return Err(format!("printed at the end: {}", shortened(&bytes))),
        }
        let status = self.child.wait().map_err(|e| e.to_string())?;
        let mut stderr = Vec::new();
        self.child.stderr.take().unwrap().read_to_end(&mut stderr).map_err(|e| e.to_string())?;
        good("the program", Output { status, stdout: Vec::new(), stderr }).map(drop)
    }
}

/// A program that was left waiting is ended.
impl Drop for Live {
    fn drop(&mut self) {
        drop(self.child.kill());
        drop(self.child.wait());
    }
}

fn pass_on(mut stdout: impl Read, to: &Sender<Vec<u8>>) {
    let mut block = vec![0; 1 << 16];
    while let Ok(n @ 1..) = stdout.read(&mut block) {
        if to.send(block[..n].to_vec()).is_err() {
            break;
        }
    }
}

/// A text, or the front of a long one.
pub fn shortened(bytes: &[u8]) -> String {
    let front = String::from_utf8_lossy(&bytes[..bytes.len().min(SHOWN)]);
    let more = if bytes.len() > SHOWN { format!(".. ({} bytes)\n", bytes.len()) } else { String::new() };
    format!("{front}{more}")
}

/// What a program with this input and output says on standard error before it ends.
pub fn complaint(program: &str, stdin: File, stdout: File) -> Result<String, String> {
    let mut child = Command::new(program)
        .stdin(stdin)
        .stdout(stdout)
        .stderr(Stdio::piped())
        .spawn()
        .map_err(|e| format!("{program}: {e}"))?;
    let until = Instant::now() + PATIENCE;
    while child.try_wait().map_err(|e| e.to_string())?.is_none() {
        if Instant::now() > until {
            drop(child.kill());
            drop(child.wait());
            return Err("the program does not end".to_string());
        }
        std::thread::sleep(SILENCE);
    }
    let output = child.wait_with_output().map_err(|e| e.to_string())?;
    Ok(String::from_utf8_lossy(&output.stderr).into_owned())
}
