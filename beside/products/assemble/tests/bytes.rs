//! Tests of the lines of bytes.

#![forbid(unsafe_code)]
#![deny(warnings)]

use assemble::assemble;

#[test]
fn bytes_comments_and_blank_lines() {
    let text = b"# open series 0\nbytes 06 00 06 00 00 01\n\n\tbytes\tFf  0a # 11\r\n";
    assert_eq!(assemble(text), Ok(vec![6, 0, 6, 0, 0, 1, 255, 10]));
    assert_eq!(assemble(b""), Ok(vec![]));
    assert_eq!(assemble(b"# only a comment"), Ok(vec![]));
}

#[test]
fn what_is_no_frame_is_passed_on() {
    assert_eq!(assemble(b"bytes 03\nbytes 00 63"), Ok(vec![3, 0, 0x63]));
}

#[test]
fn a_byte_several_times() {
    assert_eq!(assemble(b"bytes 07*3 01*1"), Ok(vec![7, 7, 7, 1]));
    let most = assemble(b"bytes aa*65535").map(|bytes| bytes.len());
    assert_eq!(most, Ok(65_535));
}

/// The one bad line of a text.
fn bad(text: &[u8]) -> (u64, String) {
    match assemble(text) {
        Err(mut bad) if bad.len() == 1 => bad.remove(0),
        other => panic!("{other:?}"),
    }
}

#[test]
fn bad_bytes_are_refused_with_their_line() {
    let digits = "6 006 0x06 g0 +6 -1 *3 6*3 06,00 , \u{e9} \u{ff}\u{ff}";
    let counts = "06* 06*0 06*65536 06*-1 06*+3 06*x 06*3*3 06*99999999999999999999";
    for word in digits.split(' ').chain(counts.split(' ')) {
        let text = format!("bytes 06 00\n# {word}\nbytes 01 {word} 02\n");
        let (line, wrong) = bad(text.as_bytes());
        assert_eq!(line, 3, "{word}");
        assert!(wrong.contains(word), "{wrong}");
    }
    assert_eq!(bad(b"bytes 00\nbytes \xff\xfe").0, 2);
    assert_eq!(bad(b"bytes 00\n\nbytes # none").0, 3);
}

#[test]
fn a_line_stands_for_a_million_bytes_at_most() {
    let most = format!("bytes {} 00*16975", "00*65535 ".repeat(15));
    assert_eq!(assemble(most.as_bytes()).map(|b| b.len()), Ok(1_000_000));
    let (line, wrong) = bad(format!("{most} 00").as_bytes());
    assert_eq!(line, 1);
    assert!(wrong.contains("more than 1000000 bytes"), "{wrong}");
}
