//! Tables as hexadecimal text.

use reference::words::{from_text, to_text};

#[test]
fn text_and_bytes_agree_both_ways() {
    for length in 0..70 {
        let bytes: Vec<u8> = (0..length).map(|place: u8| place.wrapping_mul(37)).collect();
        assert_eq!(from_text(&to_text(&bytes)), Ok(bytes));
    }
}

#[test]
fn comments_and_white_space_are_skipped() {
    let text = "# a table\n10000001 80000200 # first bridge\n\n\t00000001\n";
    assert_eq!(from_text(text), Ok(vec![0x10, 0, 0, 1, 0x80, 0, 2, 0, 0, 0, 0, 1]));
}

#[test]
fn other_text_is_refused_with_its_line() {
    for wrong in ["1234567", "123456789", "G0000000", "+1000000", "-1", "é0000000"] {
        let refused = from_text(&format!("F0000000\n{wrong}\n")).expect_err(wrong);
        assert!(refused.starts_with("line 2: "), "{refused}");
    }
}
