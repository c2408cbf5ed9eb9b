//! Tests of document 01, "Frames", of kinds 9 and 10 of request 2026-01, and of kind
//! 11 of request 2026-04.

#![forbid(unsafe_code)]
#![deny(warnings)]

use reckoning::frames::{bytes, judge, read, values, write, Event, Leg};
use reckoning::generate::{edge_events, frames, valid_event, Random, LAST_KIND};

#[test]
fn open_series_0_is_the_bytes_of_the_paper() {
    let event = Event::Series {
        series: 0,
        state: 1,
    };
    let mut space = [9u8; 8];
    assert_eq!(write(&event, &mut space), Ok(6));
    assert_eq!(space, [6, 0, 6, 0, 0, 1, 9, 9]);
    assert_eq!(read(&space[..6]), Ok(event));
}

#[test]
fn a_valid_event_is_read_as_written() {
    let mut random = Random::new(1);
    for kind in 1..=LAST_KIND {
        for _ in 0..2_000 {
            let event = valid_event(&mut random, kind);
            let frame = bytes(&event);
            assert_eq!(judge(&frame), 0);
            assert_eq!(read(&frame), Ok(event));
            assert_eq!(values(&event).0, kind);
            for room in 0..frame.len() + 3 {
                let mut space = vec![0xA5; room];
                let answer = write(&event, &mut space);
                if room < frame.len() {
                    assert_eq!(answer, Err(1));
                    assert!(space.iter().all(|byte| *byte == 0xA5));
                } else {
                    assert_eq!(answer, Ok(frame.len()));
                    assert_eq!(space[..frame.len()], frame);
                    assert!(space[frame.len()..].iter().all(|byte| *byte == 0xA5));
                }
            }
        }
    }
}

#[test]
fn the_writer_refuses_what_the_reader_refuses() {
    let mut random = Random::new(2);
    let mut refused = 0;
    for event in edge_events(&mut random) {
        let mut space = [7u8; 64];
        let frame = bytes(&event);
        match write(&event, &mut space) {
            Ok(length) => {
                assert_eq!(read(&space[..length]), Ok(event));
                assert_eq!(space[length..], [7u8; 64][length..]);
            }
            Err(refusal) => {
                refused += 1;
                assert_eq!(refusal, 3);
                assert_eq!(space, [7u8; 64]);
                assert_eq!(write(&event, &mut []), Err(3), "3 before 1");
                assert_ne!(read(&frame), Ok(event));
            }
        }
    }
    assert!(refused > 500);
}

#[test]
fn a_leg_past_the_count_is_refused_by_the_writer() {
    let leg = Leg {
        series: 4,
        side: 1,
        ratio: 2,
    };
    let mut legs = [Leg::default(); 6];
    legs[0] = leg;
    legs[1] = Leg { series: 5, ..leg };
    assert_eq!(
        write(&Event::Strategy { count: 2, legs }, &mut [0; 64]),
        Ok(11)
    );
    legs[5].side = 1;
    assert_eq!(
        write(&Event::Strategy { count: 2, legs }, &mut [0; 64]),
        Err(3)
    );
}

#[test]
fn national_prices_and_a_range_as_bytes() {
    let national = |series, bid, offer| Event::NationalPrices { series, bid, offer };
    let range = |cents| Event::ExecutionRange { cents };
    assert_eq!(
        bytes(&national(2, 300, 99_999)),
        [13, 0, 9, 0, 2, 44, 1, 0, 0, 159, 134, 1, 0]
    );
    assert_eq!(bytes(&range(9_999)), [6, 0, 10, 0, 15, 39]);
    for (event, answer) in [
        (national(31, 0, 0), 0),
        (national(0, 99_999, 99_999), 0),
        // A bid above the offer is for the book to refuse.
        (national(0, 6, 5), 0),
        (national(32, 5, 6), 3),
        (national(0, 100_000, 0), 3),
        (national(0, 0, 100_000), 3),
        (range(0), 0),
        (range(10_000), 3),
        (range(65_535), 3),
    ] {
        let frame = bytes(&event);
        assert_eq!(judge(&frame), answer, "{event:?}");
        let mut space = [7; 16];
        match answer {
            0 => assert_eq!(write(&event, &mut space), Ok(frame.len())),
            _ => assert_eq!(write(&event, &mut space), Err(3)),
        }
    }
    // A frame that is too short or too long.
    for frame in [
        &[5, 0, 10, 0, 0][..],
        &[7, 0, 10, 0, 0, 0, 0],
        &[12, 0, 9, 0, 0, 0, 0, 0, 0, 0, 0, 0],
        &[14, 0, 9, 0, 0, 0, 0, 0, 0, 0, 0, 0, 0, 0],
    ] {
        assert_eq!(judge(frame), 2);
    }
}

#[test]
fn a_specialist_as_bytes() {
    let specialist = |member, strategy, percentage| Event::Specialist {
        member,
        strategy,
        percentage,
    };
    let event = specialist(258, 15, 100);
    let frame = [8, 0, 11, 0, 2, 1, 15, 100];
    assert_eq!(bytes(&event), frame);
    assert_eq!(read(&frame), Ok(event));
    let (kind, list) = values(&event);
    assert_eq!((kind, &list[..4]), (11, &[258, 15, 100, 0][..]));
    // Each field at its ends and past them.
    for (event, answer) in [
        (specialist(1, 0, 0), 0),
        (specialist(65_535, 15, 100), 0),
        (specialist(0, 0, 0), 3),
        (specialist(0, 15, 100), 3),
        (specialist(1, 16, 0), 3),
        (specialist(1, 255, 0), 3),
        (specialist(1, 0, 99), 0),
        (specialist(1, 0, 101), 3),
        (specialist(1, 0, 255), 3),
        (specialist(0, 16, 101), 3),
    ] {
        let frame = bytes(&event);
        assert_eq!(frame.len(), 8);
        assert_eq!(judge(&frame), answer, "{event:?}");
        let mut space = [7; 9];
        match answer {
            0 => {
                assert_eq!(read(&frame), Ok(event));
                assert_eq!(write(&event, &mut space), Ok(8));
                assert_eq!(space[..8], frame);
                assert_eq!(space[8], 7);
                assert_eq!(write(&event, &mut space[..7]), Err(1));
            }
            _ => {
                assert_eq!(read(&frame), Err(3));
                assert_eq!(write(&event, &mut space), Err(3));
                assert_eq!(write(&event, &mut []), Err(3), "3 before 1");
                assert_eq!(space, [7; 9]);
            }
        }
    }
    // Every member, strategy and percentage that a frame can hold.
    for member in 0..=u16::MAX {
        let right = u32::from(member == 0) * 3;
        assert_eq!(judge(&bytes(&specialist(member, 3, 40))), right);
    }
    for byte in 0..=255 {
        let strategy = u32::from(byte > 15) * 3;
        assert_eq!(judge(&bytes(&specialist(7, byte, 40))), strategy);
        let percentage = u32::from(byte > 100) * 3;
        assert_eq!(judge(&bytes(&specialist(7, 3, byte))), percentage);
    }
    // "length 8"; 2 comes before 3, and the next kind is unknown.
    for frame in [
        &[4, 0, 11, 0][..],
        &[7, 0, 11, 0, 1, 0, 0],
        &[7, 0, 11, 0, 0, 0, 16],
        &[9, 0, 11, 0, 1, 0, 0, 40, 0],
        &[9, 0, 11, 0, 0, 0, 16, 101, 0],
        &[7, 0, 11, 0, 1, 0, 0, 40],
        &[9, 0, 11, 0, 1, 0, 0, 40],
        &[8, 1, 11, 0, 1, 0, 0, 40],
        &[8, 0, 11, 1, 1, 0, 0, 40],
        &[8, 0, 12, 0, 1, 0, 0, 40],
        &[5, 0, 12, 0, 0],
        &[6, 0, 12, 0, 0, 0],
    ] {
        assert_eq!(judge(frame), 2, "{frame:?}");
    }
}

#[test]
fn the_count_byte_gives_the_length() {
    assert_eq!(judge(&[4, 0, 1, 0]), 2, "ends before the count byte");
    for count in 0..=255u8 {
        let length = 5 + 3 * usize::from(count);
        let mut frame = vec![0; length];
        frame[..2].copy_from_slice(&(length as u16).to_le_bytes());
        frame[2] = 1;
        frame[4] = count;
        for index in 0..usize::from(count) {
            frame[7 + 3 * index] = 1;
        }
        let expected = if (2..=6).contains(&count) { 0 } else { 3 };
        assert_eq!(judge(&frame), expected);
        frame.push(1);
        assert_eq!(judge(&frame), 2);
        frame[..2].copy_from_slice(&(length as u16 + 1).to_le_bytes());
        assert_eq!(judge(&frame), 2);
    }
}

#[test]
fn all_three_answers_occur_often() {
    let mut counts = [0usize; 4];
    for frame in frames(3, 500) {
        let answer = judge(&frame);
        counts[answer as usize] += 1;
        match read(&frame) {
            Ok(event) => {
                assert_eq!(answer, 0);
                let mut space = vec![0; frame.len()];
                assert_eq!(write(&event, &mut space), Ok(frame.len()));
                assert_eq!(space, frame, "a frame is written as it was read");
            }
            Err(refusal) => assert_eq!(answer, refusal),
        }
    }
    println!("frames by answer 0, 2, 3: {:?}", counts);
    assert!(counts[0] > 1_000 && counts[2] > 1_000 && counts[3] > 500 && counts[1] == 0);
}
