//! Tests of what messages show of their input.

#![forbid(unsafe_code)]
#![deny(warnings)]

use assemble::echo::{name, text, word};
use assemble::lines::{Lines, Wrong, LONGEST};

/// Each input, and what is shown of it.
const SHOWN: &[(&[u8], &str)] = &[
    (b"open", "open"),
    ("Ünïcödé".as_bytes(), "Ünïcödé"),
    ("नमस्ते".as_bytes(), "नमस्ते"),
    ("日本語 العربية עברית".as_bytes(), "日本語 العربية עברית"),
    ("e\u{301}".as_bytes(), "e\u{301}"),
    (b"'a\" b", "'a\" b"),
    (b"\x1b[31m", "\\u{1b}[31m"),
    (b"\0\t\r\n\x07\x7f", "\\0\\t\\r\\n\\u{7}\\u{7f}"),
    ("\u{85}\u{9b}".as_bytes(), "\\u{85}\\u{9b}"),
    (
        "\u{202e}\u{2066}\u{200f}".as_bytes(),
        "\\u{202e}\\u{2066}\\u{200f}",
    ),
    (
        "\u{feff}\u{200b}\u{2028}".as_bytes(),
        "\\u{feff}\\u{200b}\\u{2028}",
    ),
    (b"a\xffb\xc3", "a\\xffb\\xc3"),
    (b"\\xff", "\\\\xff"),
];

#[test]
fn what_does_not_print_is_escaped() {
    for (input, shown) in SHOWN {
        assert_eq!(word(input), *shown);
        assert_eq!(text(input), *shown);
    }
}

#[test]
fn a_word_is_cut_at_40_characters() {
    let letters = |count| "ä".repeat(count);
    assert_eq!(word(letters(40)), letters(40));
    assert_eq!(word(letters(41)), letters(38) + "..");
    assert_eq!(word(letters(1_000_000)), letters(38) + "..");
    // No escape is cut in two.
    assert_eq!(word("\x01".repeat(8)), "\\u{1}".repeat(8));
    assert_eq!(word("\x01".repeat(9)), "\\u{1}".repeat(7) + "..");
    assert_eq!(text(letters(41)), letters(41));
}

#[test]
fn the_name_of_a_file_keeps_its_end() {
    assert_eq!(name("days/auction.txt"), "days/auction.txt");
    assert_eq!(name("a".repeat(40)), "a".repeat(40));
    let long = format!("/{}/days/my-day.txt", "folder/".repeat(9));
    let shown = name(&long);
    assert_eq!(shown.chars().count(), 40);
    assert!(shown.starts_with(".."), "{shown}");
    assert!(long.ends_with(&shown[2..]), "{shown}");
    assert_eq!(name("a\x1b\u{202e}"), "a\\u{1b}\\u{202e}");
}

/// The bad lines of a text.
fn bad(text: &[u8]) -> Vec<(u64, String)> {
    let wrong = |line| match line {
        Err(Wrong::Line(number, wrong)) => Some((number, wrong)),
        _ => None,
    };
    Lines::new(text).filter_map(wrong).collect()
}

#[test]
fn messages_show_words_so() {
    let long = "9".repeat(100);
    let nines = "9".repeat(38) + "..";
    let cases = [
        (format!("open {long}"), format!("series {nines} is outside")),
        (format!("{long} 1"), format!("'{nines}' begins no event")),
        (format!("open 1 {long}"), format!("'{nines}' stands after")),
        (
            format!("open x{long}"),
            format!("'x{}..' is no whole", &nines[..37]),
        ),
        (
            format!("cancel {long}"),
            format!("'{nines}' stands in the place of 'member'"),
        ),
        (
            format!("strategy 1 {long}"),
            format!("'{nines}' is no side"),
        ),
        (
            format!("bytes {long}"),
            format!("'{nines}' is not a byte of two"),
        ),
        (
            "open \u{202e}1".to_string(),
            "'\\u{202e}1' is no".to_string(),
        ),
    ];
    for (line, said) in cases {
        let bad = bad(line.as_bytes());
        assert_eq!(bad.len(), 1, "{line}");
        assert!(bad[0].1.contains(&said), "{}", bad[0].1);
    }
    assert!(bad(b"open \xff\x01")[0].1.starts_with("'\\xff\\u{1}' is"));
}

#[test]
fn a_byte_order_mark_is_named() {
    let said = "the file begins with a byte order mark (EF BB BF); store it without one";
    for line in ["open 0", "# a comment", ""] {
        let text = format!("\u{feff}{line}\nopen 0\nopen\n");
        let bad = bad(text.as_bytes());
        assert_eq!(bad[0], (1, said.to_string()));
        assert_eq!((bad.len(), bad[1].0), (2, 3));
    }
    // Elsewhere it is a character like others.
    let bad = bad("open 0\n\u{feff}open 0\n".as_bytes());
    assert!(bad[0].1.starts_with("'\\u{feff}open' begins"), "{bad:?}");
}

/// Its lines end elsewhere, so nothing else of it is told.
#[test]
fn a_byte_order_mark_of_utf_16_is_named() {
    let text = "\u{feff}open 0\n\nopen 99\nwhat\n";
    let little: Vec<u8> = text.encode_utf16().flat_map(u16::to_le_bytes).collect();
    let big: Vec<u8> = text.encode_utf16().flat_map(u16::to_be_bytes).collect();
    for (text, mark) in [
        (&little[..], "FF FE"),
        (&big, "FE FF"),
        (b"\xff\xfe", "FF FE"),
        (b"\xfe\xffopen 0\nopen\n", "FE FF"),
    ] {
        let said = format!(
            "the file begins with a byte order mark ({mark}), that of UTF-16; store it as UTF-8 without one"
        );
        assert_eq!(bad(text), [(1, said)]);
    }
    // Elsewhere they are bytes like others, and one alone is no mark.
    for (text, line, said) in [
        (
            &b"open 0\n\xff\xfeopen 0\n"[..],
            2,
            "'\\xff\\xfeopen' begins",
        ),
        (b"\xffopen 0\nopen 0\n", 1, "'\\xffopen' begins"),
        (b"\xfe", 1, "'\\xfe' begins"),
    ] {
        let bad = bad(text);
        assert_eq!((bad.len(), bad[0].0), (1, line));
        assert!(bad[0].1.starts_with(said), "{bad:?}");
    }
}

#[test]
fn a_line_that_does_not_end_is_not_read_on() {
    let whole = format!("open 0 #{}", "x".repeat(LONGEST - 8));
    assert!(bad(whole.as_bytes()).is_empty());
    assert!(bad(format!("{whole}\nopen 0\n").as_bytes()).is_empty());
    for long in [format!("{whole}x"), format!("{whole}x\nopen\n")] {
        let bad = bad(long.as_bytes());
        assert_eq!((bad.len(), bad[0].0), (1, 1));
        let said = "the line has more than 1000000 bytes; nothing after them is read";
        assert_eq!(bad[0].1, said);
    }
}
