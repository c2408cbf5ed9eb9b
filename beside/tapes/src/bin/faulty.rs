//! A tape with a fault, for tests of the comparison: `faulty NAME`, or
//! `faulty none` for one that is right. `faulty reads-nothing` ends before it
//! reads, and `faulty reads-once` takes what one read gives for the whole input.

#![forbid(unsafe_code)]
#![deny(warnings)]

use std::fs::File;
use std::io::{self, Read, Write};
use std::os::fd::AsFd;
use std::process::ExitCode;
use std::time::Duration;
use tapes::faults::{faults, printed, Ending, Fault};

fn main() -> io::Result<ExitCode> {
    let name = std::env::args().nth(1).unwrap_or_default();
    if name == "reads-nothing" {
        return Ok(ExitCode::SUCCESS);
    }
    let fault = faults().into_iter().find(|(known, _)| *known == name);
    let once = name == "reads-once";
    if fault.is_none() && name != "none" && !once {
        eprintln!("usage: faulty FAULT");
        return Ok(ExitCode::from(2));
    }
    let fault = fault.map(|(_, fault)| fault);
    let mut input = Vec::new();
    if once {
        input.resize(1 << 20, 0);
        let length = File::from(io::stdin().as_fd().try_clone_to_owned()?).read(&mut input)?;
        input.truncate(length);
    } else {
        io::stdin().lock().read_to_end(&mut input)?;
    }
    let mut output = io::stdout().lock();
    output.write_all(&printed(&input, fault.as_ref()))?;
    output.flush()?;
    match fault {
        Some(Fault::Ending(Ending::Status(status))) => Ok(ExitCode::from(status)),
        Some(Fault::Ending(Ending::Abort)) => std::process::abort(),
        Some(Fault::Ending(Ending::Never)) => loop {
            std::thread::sleep(Duration::from_secs(1));
        },
        _ => Ok(ExitCode::SUCCESS),
    }
}
