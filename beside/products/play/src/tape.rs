//! The program `tape`, run on the frames of a day.

use assemble::check::changed;
use assemble::day::Day;
use assemble::echo;
use std::io::{self, BufWriter, Read, Write};
use std::os::unix::process::ExitStatusExt;
use std::path::{Path, PathBuf};
use std::process::{Child, ChildStdin, Command, ExitStatus, Stdio};
use std::sync::{Arc, Mutex, PoisonError};
use std::thread::{self, JoinHandle};

/// The stack that the proved `tape` needs, in KB.
pub const STACK_KB: u32 = 400;

/// The signal of a program that touches memory which it has not.
const SEGMENT: i32 = 11;

/// The most lines of its standard error that are told, and of each the most
/// characters.
const MOST_SAID: usize = 10;
const MOST_OF_A_LINE: usize = 200;

/// Why a play could not go on.
pub enum Broken<E> {
    /// The program cannot be run, or not be read from.
    Tape(String),
    /// What it printed could not be passed on.
    Taken(E),
}

/// The program while it runs.
pub struct Tape {
    child: Child,
    said: JoinHandle<Vec<String>>,
    unread: Arc<Mutex<Option<io::Error>>>,
}

/// How it ended: what is to be told of the program, and of the day.
pub struct Ended {
    pub wrong: Vec<String>,
    pub unread: Option<io::Error>,
}

impl Tape {
    /// Starts the program, the frames of the day on its standard input.
    pub fn start(path: &Path, day: &Arc<Day>) -> Result<Tape, String> {
        let name = echo::name(path);
        let mut child = Command::new(here(path))
            .stdin(Stdio::piped())
            .stdout(Stdio::piped())
            .stderr(Stdio::piped())
            .spawn()
            .map_err(|error| match error.kind() {
                io::ErrorKind::NotFound if !path.exists() => {
                    format!("the program {name} is missing")
                }
                _ => format!("the program {name} cannot be run: {error}"),
            })?;
        let unread = Arc::default();
        feed(child.stdin.take(), Arc::clone(day), Arc::clone(&unread));
        let said = listen(child.stderr.take());
        Ok(Tape {
            child,
            said,
            unread,
        })
    }

    /// Hands on what it prints as it comes, up to its end.
    pub fn print<E>(
        mut self,
        take: &mut dyn FnMut(&[u8]) -> Result<(), E>,
    ) -> Result<Ended, Broken<E>> {
        let output = self.child.stdout.take();
        let result = output.map_or(Ok(()), |output| pass(output, take));
        if result.is_err() {
            // It is of no use any more; its status says nothing.
            self.child.kill().ok();
        }
        let status = self.child.wait();
        result?;
        let status = status.map_err(|error| Broken::Tape(format!("tape: {error}")))?;
        let mut wrong = self.said.join().unwrap_or_default();
        wrong.extend(badly(status));
        let unread = self.unread.lock().unwrap_or_else(PoisonError::into_inner);
        let unread = unread.as_ref().map(again);
        Ok(Ended { wrong, unread })
    }
}

/// A path, so that no other program of that name is looked for.
fn here(path: &Path) -> PathBuf {
    match path.parent() {
        Some(parent) if parent.as_os_str().is_empty() => Path::new(".").join(path),
        _ => path.to_path_buf(),
    }
}

fn again(error: &io::Error) -> io::Error {
    io::Error::other(error.to_string())
}

/// Hands on what is read, piece by piece.
fn pass<E>(
    mut output: impl Read,
    take: &mut dyn FnMut(&[u8]) -> Result<(), E>,
) -> Result<(), Broken<E>> {
    let mut space = vec![0; 1 << 16];
    loop {
        match output.read(&mut space) {
            Ok(0) => return Ok(()),
            Ok(count) => take(&space[..count]).map_err(Broken::Taken)?,
            Err(error) if error.kind() == io::ErrorKind::Interrupted => {}
            Err(error) => return Err(Broken::Tape(format!("reading from tape: {error}"))),
        }
    }
}

/// Feeds the day to the program on a thread of its own. That the program does
/// not read on is no error. A day that cannot be read is noted before its input
/// ends.
fn feed(input: Option<ChildStdin>, day: Arc<Day>, unread: Arc<Mutex<Option<io::Error>>>) {
    let feed = move || {
        let mut input = input.map(|input| BufWriter::with_capacity(1 << 16, input))?;
        for line in day.lines() {
            match line {
                Ok(line) => input.write_all(&line.bytes).ok()?,
                Err(wrong) => {
                    let mut unread = unread.lock().unwrap_or_else(PoisonError::into_inner);
                    *unread = Some(changed(wrong));
                    return None;
                }
            }
        }
        input.flush().ok()
    };
    thread::spawn(feed);
}

/// Takes what the program says on its standard error.
fn listen(error: Option<impl Read + Send + 'static>) -> JoinHandle<Vec<String>> {
    thread::spawn(move || error.map(said).unwrap_or_default())
}

/// The first lines of what is said, and how much more there was.
fn said(mut error: impl Read) -> Vec<String> {
    let mut first = Vec::new();
    let most = MOST_SAID * 1_000;
    error
        .by_ref()
        .take(most as u64)
        .read_to_end(&mut first)
        .ok();
    let more = io::copy(&mut error, &mut io::sink()).unwrap_or(0);
    let mut lines: Vec<String> = (first.split(|byte| *byte == b'\n'))
        .filter(|line| !line.is_empty())
        .map(|line| echo::cut(line, MOST_OF_A_LINE))
        .collect();
    let count = lines.len();
    lines.truncate(MOST_SAID);
    if count > MOST_SAID || more > 0 {
        lines.push("and more".to_string());
    }
    lines
}

/// What is wrong with the end of a program.
fn badly(status: ExitStatus) -> Option<String> {
    match (status.signal(), status.code()) {
        (Some(SEGMENT), _) => Some(format!(
            "ended by signal {SEGMENT}: it may have run out of stack, of which it needs {STACK_KB} KB or more (ulimit -s)"
        )),
        (Some(signal), _) => Some(format!("ended by signal {signal}")),
        (None, Some(0)) => None,
        (None, code) => Some(format!("ended with status {}", code.unwrap_or(-1))),
    }
}
