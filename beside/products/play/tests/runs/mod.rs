//! Runs of the program `play`.

use std::path::{Path, PathBuf};
use std::process::{Command, Output};

pub const PLAY: &str = env!("CARGO_BIN_EXE_play");

/// A file of the repository.
pub fn repository(name: &str) -> PathBuf {
    Path::new(env!("CARGO_MANIFEST_DIR"))
        .join("../../..")
        .join(name)
}

/// The program that the variable TAPE names, else target/bin/tape.
pub fn tape() -> PathBuf {
    let named = std::env::var_os("TAPE");
    named.map_or_else(|| repository("target/bin/tape"), PathBuf::from)
}

/// What a run printed and said, and its status.
pub struct Run {
    pub printed: String,
    pub said: String,
    pub status: Option<i32>,
}

impl From<Output> for Run {
    fn from(output: Output) -> Run {
        Run {
            printed: String::from_utf8(output.stdout).expect("text"),
            said: String::from_utf8(output.stderr).expect("text"),
            status: output.status.code(),
        }
    }
}

pub fn run(command: &mut Command) -> Run {
    command.output().expect("the program runs").into()
}
