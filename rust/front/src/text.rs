//! Text from bytes, and words of it and counts in messages.
//! Editors and shells of some systems write a byte order mark, or UTF-16: the first is left out, the second is named.

use crate::LineError;

const MARK: &[u8] = b"\xef\xbb\xbf";

/// The byte order marks of other encodings, the longer ones first: UTF-32's begins with UTF-16's.
const OTHER_MARKS: [(&[u8], &str); 4] = [
    (b"\xff\xfe\0\0", "UTF-32"),
    (b"\0\0\xfe\xff", "UTF-32"),
    (b"\xff\xfe", "UTF-16"),
    (b"\xfe\xff", "UTF-16"),
];

/// How much of a word a message shows.
const SHOWN: usize = 40;

/// Text from bytes; the error names the line of the first byte that is no text.
pub fn text(mut bytes: Vec<u8>) -> Result<String, LineError> {
    if let Some((_, name)) = OTHER_MARKS.iter().find(|(mark, _)| bytes.starts_with(mark)) {
        return Err(LineError::new(1, format!("the text is {name}: save it as UTF-8")));
    }
    if let Some(at) = bytes.iter().position(|&byte| byte == 0) {
        let message = "there is a zero byte, as in UTF-16: save the text as UTF-8";
        return Err(LineError::new(line_at(&bytes, at), message));
    }
    if bytes.starts_with(MARK) {
        bytes.drain(..MARK.len());
    }
    String::from_utf8(bytes).map_err(|error| {
        let line = line_at(error.as_bytes(), error.utf8_error().valid_up_to());
        LineError::new(line, "the text is not UTF-8")
    })
}

fn line_at(bytes: &[u8], at: usize) -> usize {
    1 + bytes[..at].iter().filter(|&&byte| byte == b'\n').count()
}

/// A word of the input as a message shows it: its beginning, with an escape for each character that is not printed as itself, so
/// that no input reaches the terminal as it is.
pub(crate) fn shown(word: &str) -> String {
    let mut shown: String = word.chars().take(SHOWN).flat_map(char::escape_debug).collect();
    if word.chars().nth(SHOWN).is_some() {
        shown.push_str("...");
    }
    shown
}

/// A count with its noun.
pub(crate) fn counted(count: u64, one: &str, many: &str) -> String {
    format!("{count} {}", if count == 1 { one } else { many })
}
