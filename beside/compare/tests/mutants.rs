//! The comparison finds every codec that is wrong in one place.

#![forbid(unsafe_code)]
#![deny(warnings)]

use compare::agree::{judges, readers, writers};
use compare::mutants::{self, Table};
use compare::{agree, rows};

/// Each wrong codec has a disagreement; those that have none are named.
fn all_found<T>(what: &str, mutants: Vec<(String, T)>, agrees: impl Fn(&T) -> bool) {
    let missed = mutants.iter().filter(|(_, mutant)| agrees(mutant));
    let missed: Vec<&str> = missed.map(|(name, _)| name.as_str()).collect();
    assert!(missed.is_empty(), "wrong {what} not found: {missed:#?}");
    println!("wrong {what} found: {}", mutants.len());
}

#[test]
fn the_table_that_the_wrong_judges_change_is_right() {
    let right = Table::right();
    let result = judges(&|frame| right.judge(frame), &reckoning::frames::judge);
    assert!(result.is_ok(), "{:?}", result.err());
}

#[test]
fn wrong_judges_are_found() {
    all_found("judges", mutants::judges(), |table| {
        judges(&|frame| table.judge(frame), &reckoning::frames::judge).is_ok()
    });
}

#[test]
fn wrong_readers_are_found() {
    all_found("readers", mutants::readers(), |reader| {
        readers(reader, &rows::read).is_ok()
    });
}

#[test]
fn wrong_writers_are_found() {
    all_found("writers", mutants::writers(), |writer| {
        writers(writer, &rows::write).is_ok()
    });
}

#[test]
fn a_disagreement_shows_the_frame_and_both_answers() {
    let wrong = |frame: &[u8]| match frame {
        [6, 0, 6, 0, 0, 1] => 3,
        _ => reckoning::frames::judge(frame),
    };
    let said = judges(&wrong, &reckoning::frames::judge).err().unwrap();
    assert!(said.contains("06 00 06 00 00 01"), "{said}");
    assert!(said.contains("codec:     3"), "{said}");
    assert!(said.contains("reckoning: 0"), "{said}");
    assert_eq!(agree::hex(&[0, 255]), "00 ff");
}
