//! The library's reader and writer over rows of other lengths than 20.

#![forbid(unsafe_code)]
#![deny(warnings)]

use compare::codec::{judge, read_into, write_from};

/// Document 01: "Open series 0 is bytes 06 00 06 00 00 01".
const OPEN: [u8; 6] = [6, 0, 6, 0, 0, 1];

#[test]
fn open_series_0() {
    let mut values = [7; 20];
    assert_eq!(read_into(&OPEN, &mut values), 0);
    assert_eq!(values[..3], [6, 0, 1]);
    assert_eq!(values[3..], [0; 17]);
    let mut space = [9; 8];
    assert_eq!(write_from(&values, &mut space), 6);
    assert_eq!(space, [6, 0, 6, 0, 0, 1, 9, 9]);
}

/// Request 2026-01: "series, national bid (4) and offer (4)", "length 13", and "the
/// range in cents (2)", "length 6". A bid above its offer is for the book to refuse.
#[test]
fn national_prices_and_the_range() {
    for (frame, event) in [
        (
            &[13, 0, 9, 0, 31, 0x27, 1, 0, 0, 0x36, 1, 0, 0][..],
            &[9, 31, 295, 310][..],
        ),
        (
            &[13, 0, 9, 0, 0, 0x36, 1, 0, 0, 0x27, 1, 0, 0],
            &[9, 0, 310, 295],
        ),
        (
            &[13, 0, 9, 0, 7, 0, 0, 0, 0, 0x9f, 0x86, 1, 0],
            &[9, 7, 0, 99_999],
        ),
        (&[6, 0, 10, 0, 0x0f, 0x27], &[10, 9_999]),
        (&[6, 0, 10, 0, 0, 0], &[10, 0]),
    ] {
        assert_eq!(judge(frame), 0);
        let mut values = [7; 20];
        assert_eq!(read_into(frame, &mut values), 0);
        assert_eq!(values[..event.len()], *event);
        assert_eq!(values[event.len()..], vec![0; 20 - event.len()]);
        let mut space = vec![9; frame.len()];
        assert_eq!(write_from(&values, &mut space) as usize, frame.len());
        assert_eq!(space, frame);
    }
}

/// Request 2026-04: "a member (2) and a strategy (1), both as in kind 2, and a
/// percentage (1) 0–100; length 8". That the strategy is defined is for the book.
#[test]
fn a_specialist() {
    for (frame, event) in [
        ([8, 0, 11, 0, 1, 0, 0, 0], [11, 1, 0, 0]),
        ([8, 0, 11, 0, 2, 1, 15, 100], [11, 258, 15, 100]),
        ([8, 0, 11, 0, 255, 255, 7, 60], [11, 65_535, 7, 60]),
    ] {
        assert_eq!(judge(&frame), 0);
        let mut values = [7; 20];
        assert_eq!(read_into(&frame, &mut values), 0);
        assert_eq!(values[..4], event);
        assert_eq!(values[4..], [0; 16]);
        let mut space = [9; 10];
        assert_eq!(write_from(&values, &mut space), 8);
        assert_eq!(space[..8], frame);
        assert_eq!(space[8..], [9, 9]);
        assert_eq!(write_from(&values, &mut space[..7]), 1);
    }
    // Each field past its ends; a frame of 7 and of 9 bytes.
    for (frame, answer) in [
        (&[8, 0, 11, 0, 0, 0, 0, 0][..], 3),
        (&[8, 0, 11, 0, 1, 0, 16, 0], 3),
        (&[8, 0, 11, 0, 1, 0, 0, 101], 3),
        (&[8, 0, 11, 0, 1, 0, 0, 255], 3),
        (&[7, 0, 11, 0, 1, 0, 0], 2),
        (&[9, 0, 11, 0, 1, 0, 0, 0, 0], 2),
        (&[9, 0, 11, 0, 0, 0, 16, 101, 0], 2),
        (&[8, 0, 12, 0, 1, 0, 0, 0], 2),
    ] {
        assert_eq!(judge(frame), answer, "{frame:?}");
        let mut values = [7; 20];
        assert_eq!(read_into(frame, &mut values), answer, "{frame:?}");
        assert_eq!(values, [7; 20]);
    }
    for numbers in [
        [0, 0, 0],
        [65_536, 0, 0],
        [1, 16, 0],
        [1, 0, 101],
        [1, 256, 0],
    ] {
        let mut values = [0; 20];
        values[0] = 11;
        values[1..4].copy_from_slice(&numbers);
        assert_eq!(write_from(&values, &mut [9; 10]), 3, "{numbers:?}");
    }
}

#[test]
fn under_20_numbers_are_refused_1_by_the_reader() {
    for count in 0..20 {
        for frame in [&OPEN[..], &OPEN[..5], &[6, 0, 6, 0, 0, 2]] {
            let mut values = vec![7; count];
            assert_eq!(read_into(frame, &mut values), 1);
            assert_eq!(values, vec![7; count]);
        }
    }
}

#[test]
fn numbers_past_20_are_unchanged_by_the_reader() {
    for count in 20..40 {
        let mut values = vec![7; count];
        assert_eq!(read_into(&OPEN, &mut values), 0);
        assert_eq!(values[..3], [6, 0, 1]);
        assert_eq!(values[3..20], [0; 17]);
        assert_eq!(values[20..], vec![7; count - 20]);
    }
}

#[test]
fn all_numbers_are_unchanged_at_a_refusal() {
    for count in 20..40 {
        let mut values = vec![7; count];
        assert_eq!(read_into(&OPEN[..5], &mut values), 2);
        assert_eq!(read_into(&[6, 0, 6, 0, 0, 2], &mut values), 3);
        assert_eq!(values, vec![7; count]);
    }
}

#[test]
fn under_20_numbers_are_refused_3_by_the_writer() {
    let mut values = [0; 20];
    assert_eq!(read_into(&OPEN, &mut values), 0);
    for count in 0..20 {
        let mut space = [9; 8];
        assert_eq!(write_from(&values[..count], &mut space), 3);
        assert_eq!(write_from(&values[..count], &mut []), 3);
        assert_eq!(space, [9; 8]);
    }
}

#[test]
fn numbers_past_20_are_not_written() {
    let mut values = [7; 40];
    assert_eq!(read_into(&OPEN, &mut values), 0);
    for count in 20..40 {
        let mut space = [9; 8];
        assert_eq!(write_from(&values[..count], &mut space), 6);
        assert_eq!(space, [6, 0, 6, 0, 0, 1, 9, 9]);
    }
}
