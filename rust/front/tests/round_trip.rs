//! From script to words over the reference drill: the examples, and every vector written as a script.
//! A vector's script has readable items for all its calls, so the encoder is tried on all of them.

mod common;

use std::fmt::Write;
use std::fs;

use front::{encode, explain};

#[test]
fn examples() {
    for name in ["worked", "hotel"] {
        let input = encode(&common::read(&format!("examples/{name}.script"))).unwrap();
        let printed = common::reference_drill(&input.bytes);
        let explained = explain(&printed, Some(&input)).unwrap();
        assert_eq!(explained, common::read(&format!("examples/{name}.explained")), "{name}");
    }
}

/// The comments of the hotel's script say which calls are refused, and with which number. The explained lines name the line of
/// each call, every one once.
#[test]
fn the_comments_of_the_hotel_are_true() {
    let script = common::read("examples/hotel.script");
    let explained = common::read("examples/hotel.explained");
    let answers = explained.lines().filter_map(|line| line.strip_prefix("line ")).skip(1);
    let answers: Vec<_> = answers.map(|answer| answer.split_once(": ").unwrap()).collect();
    let mut calls = vec![];
    for (at, item) in script.lines().enumerate() {
        let is_call = !item.trim().is_empty()
            && !["#", "policy", "approve"].iter().any(|other| item.starts_with(other));
        if is_call {
            let comment = item.split_once("# refused, ").map(|(_, comment)| comment);
            calls.push(((at + 1).to_string(), item, comment));
        }
    }
    assert_eq!(answers.len(), calls.len());
    for ((named, words), (line, item, comment)) in answers.iter().zip(&calls) {
        assert_eq!(named, line);
        let number = words.split_once("refused: ").map(|(_, words)| words);
        let up_to = |mark| move |text: &str| text.split(mark).next().map(str::to_string);
        assert_eq!(number.and_then(up_to(',')), comment.and_then(up_to(':')), "{item}");
    }
    assert!(calls.iter().filter(|(_, _, comment)| comment.is_some()).count() > 5);
}

fn word(bytes: &[u8], place: usize) -> u16 {
    u16::from_le_bytes([bytes[2 * place], bytes[2 * place + 1]])
}

fn bytes_line(bytes: &[u8]) -> String {
    bytes.iter().fold("bytes".to_string(), |line, byte| format!("{line} {byte}")) + "\n"
}

/// Where the record of a drill input ends, if it is whole.
fn record_end(input: &[u8]) -> Option<usize> {
    let listed = (input.len() >= 8).then(|| usize::from(word(input, 2)))?;
    let end = if (1..=2048).contains(&listed) { 8 + 4 * listed } else { 8 };
    (end <= input.len()).then_some(end)
}

/// A drill input as a script; a record that is cut short is given as bytes.
fn script_of(input: &[u8]) -> String {
    let Some(end) = record_end(input) else {
        return bytes_line(input);
    };
    let [v, f, n, e] = [0, 1, 2, 3].map(|place| word(input, place));
    let mut script = format!("policy pages {v} frames {f} listed {n} entries {e}\n");
    for place in 4..end / 4 + 2 {
        let (page, frame) = (word(input, place), word(input, place + usize::from(n)));
        writeln!(script, "approve page {page} frame {frame}").unwrap();
    }
    for call in input[end..].chunks(16) {
        script.push_str(&call_line(call));
    }
    script
}

fn call_line(call: &[u8]) -> String {
    if call.len() < 16 {
        return bytes_line(call);
    }
    let index = word(call, 1);
    let length = u32::from_le_bytes(call[4..8].try_into().unwrap());
    let value = u64::from_le_bytes(call[8..].try_into().unwrap());
    match call[0] {
        0 => format!("edit page {index} entry {value:#x}\n"),
        1 => format!("synchronise page {index:#x}\n"),
        2 => "synchronise all\n".into(),
        3 => format!("fetch page {index}\n"),
        4 => format!("write address {value} length {length}\n"),
        5 => format!("enter index {index}\n"),
        6 => format!("leave page {index}\n"),
        7 => format!("device-write device {index} address {value:#x} length {length:#x}\n"),
        kind => format!("call kind {kind} index {index} length {length} value {value}\n"),
    }
}

#[test]
fn vectors_as_scripts() {
    let mut compared = 0;
    for file in fs::read_dir(common::vector("")).unwrap() {
        let path = file.unwrap().path();
        if path.extension().is_none_or(|extension| extension != "in") {
            continue;
        }
        let name = path.display();
        let mut input = fs::read(&path).unwrap();
        let expected = fs::read_to_string(path.with_extension("out")).unwrap();
        // The drill reads no further than its 1,024th call.
        input.truncate(record_end(&input).map_or(usize::MAX, |end| end + 16 * 1024));
        let encoded = encode(&script_of(&input)).unwrap();
        assert_eq!(encoded.bytes.len(), input.len(), "{name}");
        assert_eq!(common::reference_drill(&encoded.bytes), expected, "{name}");
        let explained = explain(&expected, Some(&encoded)).unwrap();
        assert_eq!(explained.lines().count(), expected.lines().count(), "{name}");
        // Each refused start is traced to its cause.
        let is_traced = explained.lines().next().unwrap().contains('(');
        assert_eq!(is_traced, !expected.starts_with("S 0 "), "{name}: {explained}");
        compared += 1;
    }
    assert!(compared > 0, "no vector was compared");
}
