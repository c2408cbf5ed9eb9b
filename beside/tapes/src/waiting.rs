//! A program whose input does not end: what it answers before it waits for more;
//! and what it says on standard error where reading or writing fails.

use crate::program::Program;
use std::io::{Read, Write};
use std::process::{Command, Stdio};
use std::sync::mpsc::{channel, Receiver};
use std::thread;
use std::time::Duration;

/// How long an answer may take.
const LIMIT: Duration = Duration::from_secs(60);

/// Hands the program one piece of input after the other, and after each waits for
/// its text, with the input still open. Then the program is killed: nothing that
/// was due is lost by it. An error tells which text did not come.
pub fn answers(program: &Program, pieces: &[(&[u8], &str)]) -> Result<(), String> {
    let mut child = Command::new(&program.path)
        .stdin(Stdio::piped())
        .stdout(Stdio::piped())
        .spawn()
        .map_err(|error| error.to_string())?;
    let mut to = child.stdin.take().ok_or("no input")?;
    let from = child.stdout.take().ok_or("no output")?;
    let text = received(from);
    let mut result = Ok(());
    for (at, (piece, wanted)) in pieces.iter().enumerate() {
        to.write_all(piece).map_err(|error| error.to_string())?;
        let came = next(&text, wanted.len());
        if came != wanted.as_bytes() {
            let same = came
                .iter()
                .zip(wanted.bytes())
                .take_while(|(a, b)| **a == *b);
            let (same, came, wanted) = (same.count(), came.len(), wanted.len());
            result = Err(format!(
                "piece {at}: {came} bytes came, {same} of them right, and {wanted} are due"
            ));
            break;
        }
    }
    child.kill().map_err(|error| error.to_string())?;
    child.wait().map_err(|error| error.to_string())?;
    let rest = next(&text, usize::MAX);
    match (result, rest.is_empty()) {
        (Ok(()), false) => Err(format!("{} bytes more came", rest.len())),
        (result, _) => result,
    }
}

/// The bytes of an output as they come.
fn received(mut from: impl Read + Send + 'static) -> Receiver<u8> {
    let (send, receive) = channel();
    thread::spawn(move || {
        let mut part = [0; 4096];
        while let Ok(count @ 1..) = from.read(&mut part) {
            for byte in &part[..count] {
                if send.send(*byte).is_err() {
                    return;
                }
            }
        }
    });
    receive
}

/// The next bytes, so many of them; fewer where no more come in time.
fn next(text: &Receiver<u8>, count: usize) -> Vec<u8> {
    let mut bytes = Vec::new();
    while bytes.len() < count {
        match text.recv_timeout(LIMIT) {
            Ok(byte) => bytes.push(byte),
            Err(_) => break,
        }
    }
    bytes
}

/// What is said on standard error by a line of the shell, in which `$0` is the
/// program: `$0 </dev/null >/dev/full`.
pub fn says(program: &Program, line: &str) -> Result<String, String> {
    let output = Command::new("sh")
        .args(["-c", line])
        .arg(&program.path)
        .stdin(Stdio::null())
        .output()
        .map_err(|error| error.to_string())?;
    Ok(String::from_utf8_lossy(&output.stderr).into_owned())
}
