//! Copies are told apart by their length.

#![forbid(unsafe_code)]
#![deny(warnings)]

use bench::copies::{Bounds, Copies};

/// The sizes as they are: the state, and its four tables.
const STATE: usize = 2_008;
const TABLES: [usize; 4] = [576, 640, 512, 256];

#[test]
fn bounds_from_the_sizes() {
    let bounds = Bounds {
        table: 256,
        whole: 1_984,
        longest: 2_040,
    };
    assert_eq!(Bounds::of(STATE, &TABLES), Some(bounds));
    let one = Bounds {
        table: 40,
        whole: 40,
        longest: 76,
    };
    assert_eq!(Bounds::of(44, &[40]), Some(one));
    assert_eq!(Bounds::of(STATE, &[]), None);
}

#[test]
fn copies_by_their_length() {
    let bounds = Bounds::of(STATE, &TABLES).expect("bounds");
    let of = |lines: &str| Copies::of(lines, bounds);
    let copies = |whole, tables, longer| {
        Some(Copies {
            whole,
            tables,
            longer,
        })
    };
    assert_eq!(of(""), copies(0, 0, 0));
    for (length, wanted) in [
        (0, copies(0, 0, 0)),
        (255, copies(0, 0, 0)),
        (256, copies(0, 7, 0)),
        (1_152, copies(0, 7, 0)),
        (1_983, copies(0, 7, 0)),
        (1_984, copies(7, 0, 0)),
        (2_008, copies(7, 0, 0)),
        (2_040, copies(7, 0, 0)),
        (2_041, copies(0, 0, 7)),
        (65_536, copies(0, 0, 7)),
    ] {
        assert_eq!(of(&format!("{length} 7\n")), wanted, "{length}");
    }
    let lines = "16 1\n256 20\n640 300\n1984 4000\n2008 50000\n3000 600000\n";
    assert_eq!(of(lines), copies(54_000, 320, 600_000));
    for bad in ["512", "512 ", "512 x", "x 512", "512 1 1", "512 1\n\n"] {
        assert_eq!(of(bad), None, "{bad}");
    }
}
