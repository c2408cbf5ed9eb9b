//! Programs with a slip: the sources of the reckoning with one edit, built anew.

use std::fs;
use std::path::{Path, PathBuf};
use std::process::Command;
use std::thread;

/// An edit of the reckoning: what it does, the file, and its text before and
/// after, where the text stands once.
pub type Slip = (&'static str, &'static str, &'static str, &'static str);

/// Copies the sources of the reckoning, and of its programs the one that is
/// named, to the folder, with the edit.
fn edited(folder: &Path, program: &str, slip: &Slip) {
    let (name, file, before, after) = slip;
    let from = Path::new(env!("CARGO_MANIFEST_DIR")).join("../reckoning");
    fs::create_dir_all(folder.join("src/bin")).expect("a folder is made");
    let copy = |path: &str| {
        let text = fs::read_to_string(from.join(path)).expect("a source is read");
        let text = if path == format!("src/{file}") {
            let times = text.matches(before).count();
            assert_eq!(times, 1, "the text of '{name}' in {file}");
            text.replacen(before, after, 1)
        } else {
            text
        };
        // An edit may leave a name unused.
        let text = text.replace("#![deny(warnings)]", "");
        fs::write(folder.join(path), text).expect("a source is written");
    };
    copy("Cargo.toml");
    copy("Cargo.lock");
    copy(&format!("src/bin/{program}.rs"));
    for entry in fs::read_dir(from.join("src")).expect("the sources are listed") {
        let entry = entry.expect("a source is listed");
        let name = entry.file_name().into_string().expect("a plain name");
        if name.ends_with(".rs") {
            copy(&format!("src/{name}"));
        }
    }
}

/// The program of the edited reckoning, `tape` or `calls`, built in the folder.
pub fn built(folder: &Path, program: &str, slip: &Slip) -> PathBuf {
    edited(folder, program, slip);
    let output = Command::new(env!("CARGO"))
        .args(["build", "--quiet", "--offline", "--bin", program])
        .current_dir(folder)
        .env("CARGO_TARGET_DIR", folder.join("target"))
        .env("CARGO_PROFILE_DEV_DEBUG", "false")
        .env_remove("RUSTFLAGS")
        .output()
        .expect("cargo runs");
    let said = String::from_utf8_lossy(&output.stderr);
    assert!(output.status.success(), "{}: {said}", slip.0);
    folder.join("target/debug").join(program)
}

/// The slips that nothing shows: two at a time each is built, in a folder of its
/// hand, and `shown` says how its program differs.
pub fn missed(
    folder: &Path,
    program: &str,
    slips: &[Slip],
    shown: impl Fn(PathBuf) -> Option<String> + Sync,
) -> Vec<&'static str> {
    let shown = &shown;
    let missed_by = |hand: usize| {
        let folder = folder.join(hand.to_string());
        let mut missed = Vec::new();
        for slip in slips.iter().skip(hand).step_by(2) {
            match shown(built(&folder, program, slip)) {
                None => missed.push(slip.0),
                Some(different) => println!("{}: {different}", slip.0),
            }
        }
        missed
    };
    thread::scope(|scope| {
        let other = scope.spawn(|| missed_by(1));
        let mut missed = missed_by(0);
        missed.extend(other.join().expect("the other half ends"));
        missed
    })
}
