//! Standard output, each write checked: text that does not arrive whole is an
//! error.

use std::fs::File;
use std::io::{self, BufWriter, Write};
use std::os::fd::AsFd;
use std::sync::atomic::{AtomicBool, Ordering};

// A standard output that is closed. Before `main` the runtime opens /dev/null in
// its place, which then takes every byte; nothing tells it from a /dev/null that
// was given on purpose and is open to read and write, too. So it is looked at
// earlier: the functions in the section `.init_array` run before the runtime.
static CLOSED: AtomicBool = AtomicBool::new(false);

extern "C" fn look() {
    CLOSED.store(
        io::stdout().as_fd().try_clone_to_owned().is_err(),
        Ordering::Relaxed,
    );
}

#[allow(unsafe_code)]
#[used]
#[link_section = ".init_array"]
static LOOK: extern "C" fn() = look;

/// Standard output through a buffer. The library's own handle says nothing where
/// the descriptor takes no bytes; a second descriptor for the same file does.
pub struct Output {
    buffer: BufWriter<File>,
}

impl Output {
    pub fn new() -> io::Result<Output> {
        if CLOSED.load(Ordering::Relaxed) {
            return Err(io::Error::other("standard output is closed"));
        }
        let file = File::from(io::stdout().as_fd().try_clone_to_owned()?);
        Ok(Output {
            buffer: BufWriter::with_capacity(1 << 16, file),
        })
    }

    /// Writes what is still in the buffer. What was written has arrived only
    /// where this says so.
    pub fn end(mut self) -> io::Result<()> {
        self.buffer.flush()
    }
}

impl Write for Output {
    fn write(&mut self, bytes: &[u8]) -> io::Result<usize> {
        self.buffer.write(bytes)
    }

    fn flush(&mut self) -> io::Result<()> {
        self.buffer.flush()
    }
}

/// Writes this text, all of it, to standard output.
pub fn print(text: &str) -> io::Result<()> {
    let mut output = Output::new()?;
    output.write_all(text.as_bytes())?;
    output.end()
}

/// What is said where standard output fails.
pub fn failed(error: &io::Error) -> String {
    format!("writing the output: {error}")
}

/// Says a line on standard error. Where nobody takes it, nothing more can be said.
pub fn say(line: &str) {
    io::stderr().write_all(format!("{line}\n").as_bytes()).ok();
}
