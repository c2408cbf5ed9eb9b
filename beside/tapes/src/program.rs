//! A program that reads frames and prints lines, run on one input.

use std::ffi::OsString;
use std::fs::File;
use std::io::{self, Read, Write};
use std::path::PathBuf;
use std::process::{Child, Command, ExitStatus, Stdio};
use std::sync::atomic::{AtomicUsize, Ordering};
use std::sync::mpsc::{channel, Receiver};
use std::sync::{Condvar, Mutex, PoisonError};
use std::thread;
use std::time::{Duration, Instant};

/// A program, the words it is given, how its input comes, and how long it may
/// take for one input.
#[derive(Clone, Debug)]
pub struct Program {
    pub path: PathBuf,
    pub words: Vec<String>,
    pub delivery: Delivery,
    pub limit: Duration,
}

/// How an input comes to a program.
#[derive(Clone, Copy, Debug, PartialEq, Eq)]
pub enum Delivery {
    /// Through a pipe, all at once.
    Whole,
    /// Through a pipe, so many bytes at a time, with a pause between them.
    Pieces(usize, Duration),
    /// From a file.
    File,
}

/// How many programs run at a time at most.
pub const AT_ONCE: usize = 2;

static RUNNING: Mutex<usize> = Mutex::new(0);
static ENDED: Condvar = Condvar::new();

/// A place among the programs that run; it is free again when dropped.
struct Place;

impl Place {
    fn wait() -> Place {
        let mut running = RUNNING.lock().unwrap_or_else(PoisonError::into_inner);
        while *running >= AT_ONCE {
            running = ENDED.wait(running).unwrap_or_else(PoisonError::into_inner);
        }
        *running += 1;
        Place
    }
}

impl Drop for Place {
    fn drop(&mut self) {
        *RUNNING.lock().unwrap_or_else(PoisonError::into_inner) -= 1;
        ENDED.notify_one();
    }
}

impl Program {
    pub fn new(path: impl Into<PathBuf>, words: &[&str]) -> Program {
        Program {
            path: path.into(),
            words: words.iter().map(|word| word.to_string()).collect(),
            delivery: Delivery::Whole,
            limit: Duration::from_secs(300),
        }
    }

    /// The program that the variable names, else the one at the path.
    pub fn named(variable: &str, path: &str) -> Program {
        let named: Option<OsString> = std::env::var_os(variable);
        Program::new(
            named.map_or_else(|| PathBuf::from(path), PathBuf::from),
            &[],
        )
    }

    /// What the program prints for this input; or how it failed: it cannot be
    /// run, ends with another status than 0, or does not end in time.
    pub fn run(&self, input: &[u8]) -> Result<Vec<u8>, String> {
        let _place = Place::wait();
        let name = self.path.display();
        let mut command = Command::new(&self.path);
        command.args(&self.words).stdout(Stdio::piped());
        match self.delivery {
            Delivery::File => command.stdin(file_of(input).map_err(|error| error.to_string())?),
            _ => command.stdin(Stdio::piped()),
        };
        let mut child = command
            .spawn()
            .map_err(|error| format!("{name} cannot be run: {error}"))?;
        let start = Instant::now();
        let printed = match self.delivery {
            Delivery::Pieces(piece, pause) => exchange(&mut child, input, piece, pause),
            _ => exchange(&mut child, input, usize::MAX, Duration::ZERO),
        };
        let printed = printed.recv_timeout(self.limit).ok();
        let status = ended(&mut child, start + self.limit).map_err(|error| error.to_string())?;
        match (printed, status) {
            (Some(printed), Some(status)) if status.success() => {
                printed.map_err(|error| format!("reading from {name}: {error}"))
            }
            (Some(_), Some(status)) => Err(format!("{name} ended badly: {status}")),
            _ => Err(format!("{name} did not end in {} s", self.limit.as_secs())),
        }
    }
}

/// The status of a child that ends in time; another is ended.
fn ended(child: &mut Child, latest: Instant) -> io::Result<Option<ExitStatus>> {
    loop {
        if let Some(status) = child.try_wait()? {
            return Ok(Some(status));
        }
        if Instant::now() > latest {
            child.kill()?;
            child.wait()?;
            return Ok(None);
        }
        thread::sleep(Duration::from_micros(200));
    }
}

/// An open file with this content, which no longer has a name.
fn file_of(content: &[u8]) -> io::Result<File> {
    static NEXT: AtomicUsize = AtomicUsize::new(0);
    let number = NEXT.fetch_add(1, Ordering::SeqCst);
    let name = format!("tapes-{}-{number}", std::process::id());
    let path = std::env::temp_dir().join(name);
    std::fs::write(&path, content)?;
    let file = File::open(&path);
    std::fs::remove_file(&path)?;
    file
}

/// Hands the input to the child on one thread, takes what it prints on another.
/// A child may end before it has read all: what it printed then shows it.
fn exchange(
    child: &mut Child,
    input: &[u8],
    piece: usize,
    pause: Duration,
) -> Receiver<io::Result<Vec<u8>>> {
    let (send, receive) = channel();
    let to = child.stdin.take();
    let from = child.stdout.take();
    let input = input.to_vec();
    thread::spawn(move || {
        if let Some(mut to) = to {
            for part in input.chunks(piece) {
                to.write_all(part)?;
                thread::sleep(pause);
            }
        }
        io::Result::Ok(())
    });
    thread::spawn(move || {
        let mut printed = Vec::new();
        let result = match from {
            Some(mut from) => from.read_to_end(&mut printed).map(|_| printed),
            None => Ok(printed),
        };
        // Nobody listens where the program took too long.
        send.send(result).ok();
    });
    receive
}
