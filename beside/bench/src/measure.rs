//! Times of programs, and what is reckoned from them.

use std::fs::{self, File};
use std::path::Path;
use std::process::{Command, Stdio};
use std::time::Instant;

/// The middle one of the numbers by size, or the middle between the two middle
/// ones; nothing if there are none.
pub fn median(numbers: &[f64]) -> Option<f64> {
    let mut sorted = numbers.to_vec();
    sorted.sort_by(f64::total_cmp);
    let middle = sorted.len() / 2;
    match sorted.len() % 2 {
        1 => Some(sorted[middle]),
        _ if sorted.is_empty() => None,
        _ => Some((sorted[middle - 1] + sorted[middle]) / 2.0),
    }
}

/// The times of the two programs, or the costs of one event.
#[derive(Clone, Copy, Debug, PartialEq)]
pub struct Both {
    pub proved: f64,
    pub reckoning: f64,
}

impl Both {
    /// The reckoning's time over the proved program's: 1 or more if the proved
    /// one is at least as fast. Nothing where a time is not above 0.
    pub fn ratio(&self) -> Option<f64> {
        (self.proved > 0.0 && self.reckoning > 0.0).then(|| self.reckoning / self.proved)
    }

    /// What one event costs: the difference of the times with and without the
    /// tail, over the number of its events.
    pub fn cost(with: Both, without: Both, events: usize) -> Both {
        let each = |with: f64, without: f64| (with - without) / events as f64;
        Both {
            proved: each(with.proved, without.proved),
            reckoning: each(with.reckoning, without.reckoning),
        }
    }

    /// Events a second.
    pub fn rates(&self, events: usize) -> Both {
        Both {
            proved: events as f64 / self.proved,
            reckoning: events as f64 / self.reckoning,
        }
    }
}

/// The seconds that a program takes for an input, what it prints thrown away.
pub fn seconds(program: &Path, input: &Path) -> Result<f64, String> {
    let name = program.display();
    let file = File::open(input).map_err(|error| format!("{}: {error}", input.display()))?;
    let mut command = Command::new(program);
    command.stdin(file).stdout(Stdio::null());
    let start = Instant::now();
    let status = command
        .status()
        .map_err(|error| format!("{name} cannot be run: {error}"))?;
    let time = start.elapsed().as_secs_f64();
    match status.success() {
        true => Ok(time),
        false => Err(format!("{name} ended badly: {status}")),
    }
}

/// Plays an input through a program with a library of ours put before the C library,
/// what it prints thrown away. The library writes a file, which a variable of its own
/// names; its bytes are the answer.
pub fn preloaded(
    program: &Path,
    library: &Path,
    input: &Path,
    variable: &str,
    output: &Path,
) -> Result<Vec<u8>, String> {
    let name = program.display();
    let file = File::open(input).map_err(|error| format!("{}: {error}", input.display()))?;
    let status = Command::new(program)
        .env("LD_PRELOAD", library)
        .env(variable, output)
        .stdin(file)
        .stdout(Stdio::null())
        .status()
        .map_err(|error| format!("{name} cannot be run: {error}"))?;
    if !status.success() {
        return Err(format!("{name} ended badly: {status}"));
    }
    let bytes = fs::read(output)
        .map_err(|_| format!("{name} does not take the library {}", library.display()))?;
    // So that no file of an earlier run is taken for one of the next.
    fs::remove_file(output).map_err(|error| format!("{}: {error}", output.display()))?;
    Ok(bytes)
}

/// What a program prints for an input.
pub fn printed(program: &Path, input: &Path) -> Result<Vec<u8>, String> {
    let name = program.display();
    let file = File::open(input).map_err(|error| format!("{}: {error}", input.display()))?;
    let output = Command::new(program)
        .stdin(file)
        .stderr(Stdio::inherit())
        .output()
        .map_err(|error| format!("{name} cannot be run: {error}"))?;
    match output.status.success() {
        true => Ok(output.stdout),
        false => Err(format!("{name} ended badly: {}", output.status)),
    }
}

/// The median times of the two programs for each input: in each round each
/// program plays each input once, the programs in turn.
pub fn medians(
    programs: [&Path; 2],
    inputs: &[&Path],
    rounds: usize,
    time: &mut dyn FnMut(&Path, &Path) -> Result<f64, String>,
) -> Result<Vec<Both>, String> {
    let mut times = vec![[Vec::new(), Vec::new()]; inputs.len()];
    for round in 0..rounds {
        for (input, times) in inputs.iter().zip(&mut times) {
            for turn in 0..2 {
                let which = (round + turn) % 2;
                times[which].push(time(programs[which], input)?);
            }
        }
    }
    let both = |[proved, reckoning]: &[Vec<f64>; 2]| {
        Some(Both {
            proved: median(proved)?,
            reckoning: median(reckoning)?,
        })
    };
    (times.iter().map(both).collect::<Option<Vec<Both>>>()).ok_or("no rounds".to_string())
}
