//! Encodings of scripts and of drill output, and how messages show words of them.
//! What reaches a terminal is printable whatever the input holds.

use front::{encode, explain, text};

const SCRIPT: &str = "policy pages 1 frames 1\napprove page 0 frame 0 entry\n";

#[test]
fn a_byte_order_mark_is_left_out() {
    assert_eq!(text(format!("\u{feff}{SCRIPT}").into()).unwrap(), SCRIPT);
    assert_eq!(text(SCRIPT.into()).unwrap(), SCRIPT);
    assert_eq!(text(vec![]).unwrap(), "");
}

#[test]
fn a_mark_elsewhere_is_shown() {
    let joined = text(format!("{SCRIPT}\u{feff}fetch page 0").into()).unwrap();
    let message = encode(&joined).unwrap_err().to_string();
    assert!(message.starts_with("line 3: '\\u{feff}fetch' is no item; "), "{message}");
}

#[test]
fn other_encodings_are_named() {
    let wide = |mark: &str, to_bytes: fn(u16) -> [u8; 2]| -> Vec<u8> {
        format!("{mark}{SCRIPT}").encode_utf16().flat_map(to_bytes).collect()
    };
    let wider = |to_bytes: fn(u32) -> [u8; 4]| -> Vec<u8> {
        format!("\u{feff}{SCRIPT}").chars().flat_map(|c| to_bytes(c.into())).collect()
    };
    let utf16 = "line 1: the text is UTF-16: save it as UTF-8";
    let utf32 = "line 1: the text is UTF-32: save it as UTF-8";
    let zero = "line 1: there is a zero byte, as in UTF-16: save the text as UTF-8";
    let texts = [
        (wide("\u{feff}", u16::to_le_bytes), utf16),
        (wide("\u{feff}", u16::to_be_bytes), utf16),
        (wider(u32::to_le_bytes), utf32),
        (wider(u32::to_be_bytes), utf32),
        (wide("", u16::to_le_bytes), zero),
        (wide("", u16::to_be_bytes), zero),
        (
            b"# 1\n# 2\n# \0\n".to_vec(),
            "line 3: there is a zero byte, as in UTF-16: save the text as UTF-8",
        ),
        (b"# 1\n# \xff\n".to_vec(), "line 2: the text is not UTF-8"),
        (b"\xef\xbb\n".to_vec(), "line 1: the text is not UTF-8"),
    ];
    for (bytes, message) in texts {
        assert_eq!(text(bytes.clone()).unwrap_err().to_string(), message, "{bytes:?}");
    }
}

/// A word that clears a terminal, and turns the direction of writing; how it is shown.
const HOSTILE: (&str, &str) = ("a\u{1b}[2J\u{7}\u{202e}", "a\\u{1b}[2J\\u{7}\\u{202e}");

#[test]
fn control_characters_of_a_script_are_escaped() {
    let (word, shown) = HOSTILE;
    let items = [
        (format!("{word} page 0"), format!("'{shown}' is no item; ")),
        (format!("fetch {word} 0"), format!("'page' is expected, not '{shown}'")),
        (format!("fetch page {word}"), format!("hexadecimal with 0x, not '{shown}'")),
        (format!("fetch page 0 {word}"), format!("'{shown}' is too much on this line")),
    ];
    for (item, expected) in items {
        let message = encode(&format!("{SCRIPT}{item}")).unwrap_err().to_string();
        assert!(message.starts_with("line 3: ") && message.contains(&expected), "{message:?}");
        assert!(!message.contains(char::is_control), "{message:?}");
    }
}

#[test]
fn control_characters_of_drill_output_are_escaped() {
    let (word, shown) = HOSTILE;
    let lines = [
        (word.to_string(), format!("'{shown}' is no line of the drill")),
        (format!("1 {word}"), format!("'1 {shown}' is no line of the drill")),
        (format!("{word} 0 0 0 K 1"), format!("'{shown}' is no kind of call")),
        (format!("1 {word} 0 0 K 1"), format!("a decimal number is expected, not '{shown}'")),
        (format!("1 0 0 0 {word} 1"), format!("the mode is K or U, not '{shown}'")),
        (format!("share {word}"), format!("a decimal number is expected, not '{shown}'")),
    ];
    for (line, expected) in lines {
        let message = explain(&line, None).unwrap_err().to_string();
        assert_eq!(message, format!("line 1: {expected}"));
    }
}

#[test]
fn long_words_are_cut() {
    let cut = |letter: &str| format!("{}...", letter.repeat(40));
    let message = |script: &str| encode(&format!("{SCRIPT}{script}")).unwrap_err().to_string();
    let words = [
        (format!("{} page 0", "é".repeat(41)), format!("line 3: '{}' is no item; ", cut("é"))),
        (
            format!("fetch page {}", "9".repeat(5000)),
            format!("line 3: the page {} does not", cut("9")),
        ),
        (format!("fetch page {}", "x".repeat(5000)), format!("not '{}'", cut("x"))),
    ];
    for (script, expected) in words {
        assert!(message(&script).contains(&expected), "{}", message(&script));
    }
    let line = "1 ".repeat(3000);
    let expected = format!("line 1: '{}...' is no line of the drill", "1 ".repeat(20));
    assert_eq!(explain(&line, None).unwrap_err().to_string(), expected);
    // Exactly 40 characters are shown whole.
    let whole = "w".repeat(40);
    assert!(message(&whole).contains(&format!("'{whole}' is no item")));
}
