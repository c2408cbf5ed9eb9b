//! Percentiles and the worst by kind are reckoned right. No time is tested.

#![forbid(unsafe_code)]
#![deny(warnings)]

use bench::days::busy_day;
use bench::tails::{
    in_turn, keep_least, kind_of, percentile, tail, timed, times_of, Tail, Timed, KINDS,
};
use bench::text::micro;
use bench::worst::{long_days, LongDay};
use reckoning::book::{Book, SPACE};

#[test]
fn percentiles() {
    assert_eq!(percentile(&[], 500), None);
    for thousandths in [0, 1, 500, 999, 1_000] {
        assert_eq!(percentile(&[7], thousandths), Some(7));
    }
    assert_eq!(percentile(&[3, 8], 500), Some(3));
    assert_eq!(percentile(&[3, 8], 501), Some(8));
    assert_eq!(percentile(&[1, 2, 3], 500), Some(2));
    let numbers: Vec<u64> = (1..=1_000).collect();
    for (thousandths, wanted) in [(500, 500), (990, 990), (999, 999), (1_000, 1_000)] {
        assert_eq!(percentile(&numbers, thousandths), Some(wanted));
    }
    // 99.9 of 100 are 999.999 of 1,001 numbers, which takes 1,000 of them.
    let numbers: Vec<u64> = (1..=1_001).collect();
    assert_eq!(percentile(&numbers, 999), Some(1_000));
    // Of 100 numbers only the last has 99.9 of 100 up to it.
    assert_eq!(percentile(&numbers[..100], 990), Some(99));
    assert_eq!(percentile(&numbers[..100], 999), Some(100));
}

#[test]
fn the_least_of_each_event_is_kept() {
    let mut kept = vec![u64::MAX; 3];
    assert!(keep_least(&mut kept, &[5, 6, 7, 9, 2, 7]));
    assert_eq!(kept, [5, 2, 7]);
    assert!(keep_least(&mut kept, &[8, 3, 1]));
    assert_eq!(kept, [5, 2, 1]);
    for wrong in [&[][..], &[0], &[0; 4], &[0; 5]] {
        assert!(!keep_least(&mut kept, wrong), "{wrong:?}");
        assert_eq!(kept, [5, 2, 1]);
    }
    assert!(!keep_least(&mut [], &[1]));
}

#[test]
fn the_kind_of_an_event() {
    for kind in 1..=11 {
        assert_eq!(kind_of(&[4, 0, kind, 0], 0), kind);
        assert_eq!(kind_of(&[6, 0, kind, 0, 1, 1], 0), kind);
        assert_eq!(kind_of(&[4, 0, kind, 0], 3), 0);
        let name = KINDS[usize::from(kind)];
        assert!(name.starts_with(&format!("{kind} ")), "{name}");
    }
    for none in [&[4, 0, 0, 0][..], &[4, 0, 12, 0], &[4, 0, 1, 1], &[4, 0]] {
        assert_eq!(kind_of(none, 0), 0, "{none:?}");
    }
    assert_eq!(KINDS[0], "refused");
}

fn event(kind: u8, index: usize, nanoseconds: u64) -> Timed {
    Timed {
        kind,
        records: 10 + index,
        day: 2,
        index,
        nanoseconds,
    }
}

#[test]
fn the_tail_of_a_kind() {
    let mut events: Vec<Timed> = (0..2_000)
        .map(|at| event(4, at, 2_000 - at as u64))
        .collect();
    events.push(event(5, 2_000, 9_000));
    events.push(event(4, 2_001, 2_000));
    let own = |kind: u8| tail(events.iter().filter(move |event| event.kind == kind));
    assert_eq!(
        own(4),
        Some(Tail {
            events: 2_001,
            half: 1_001,
            most: 1_981,
            nearly_all: 1_999,
            worst: event(4, 0, 2_000),
        })
    );
    let alone = own(5).expect("an event");
    assert_eq!((alone.events, alone.half, alone.most), (1, 9_000, 9_000));
    assert_eq!(alone.worst, event(5, 2_000, 9_000));
    assert_eq!(own(6), None);
    assert_eq!(micro(1_239), "1.24");
    assert_eq!(micro(105_000), "105.00");
}

/// Each time stands with its own event, and the days' events are what they are alone.
#[test]
fn each_event_has_its_time() {
    let busy = LongDay {
        name: "busy",
        about: "",
        frames: busy_day(600),
    };
    let days = [vec![busy], long_days()].concat();
    let frames = in_turn(&days);
    let alone: usize = days.iter().map(|day| day.frames.len()).sum();
    assert_eq!(frames.len(), alone + days.len());
    let times: Vec<u64> = (0..frames.len() as u64).collect();
    let events = timed(&days, &times);
    assert_eq!(events.len(), alone);
    // The days in turn, in one book, twice.
    let mut book = Book::first();
    for _ in 0..2 {
        let mut answers = Vec::new();
        for frame in &frames {
            answers.push(book.step(frame, SPACE));
        }
        for event in &events {
            let at = event.nanoseconds as usize;
            let frame = &days[event.day].frames[event.index];
            assert_eq!(&frames[at], frame, "{event:?}");
            assert_eq!(event.kind, kind_of(frame, answers[at].answer), "{event:?}");
            assert_eq!(event.records, answers[at].records.len(), "{event:?}");
        }
    }
}

#[test]
fn times_as_bytes() {
    let bytes =
        |numbers: &[u64]| -> Vec<u8> { numbers.iter().flat_map(|n| n.to_le_bytes()).collect() };
    assert_eq!(
        times_of(&bytes(&[20, 300, 70_000])),
        Some((20, vec![300, 70_000]))
    );
    assert_eq!(times_of(&bytes(&[20])), Some((20, vec![])));
    assert_eq!(times_of(&[]), None);
    assert_eq!(times_of(&bytes(&[20, 300])[..15]), None);
}
