//! Runs the drill on every vector of tests/vectors and compares what it prints, byte by byte.
//! No vector at all fails, and so does an input without its expected output, or the other way round.

mod common;

use std::collections::BTreeSet;
use std::fs;
use std::path::{Path, PathBuf};

use reference::{drill_with_mistake, Mistake};

fn vectors() -> PathBuf {
    Path::new(env!("CARGO_MANIFEST_DIR")).join("../../tests/vectors")
}

/// The vectors' files with this extension.
fn files(extension: &str) -> BTreeSet<PathBuf> {
    let folder = vectors();
    let files = fs::read_dir(&folder).unwrap_or_else(|e| panic!("{}: {e}", folder.display()));
    files
        .map(|file| file.expect("the folder can be read").path())
        .filter(|path| path.extension().is_some_and(|found| found == extension))
        .collect()
}

/// The inputs on which a guard with this mistake prints something else, and how many were compared.
fn failures(mistake: Mistake) -> (Vec<PathBuf>, usize) {
    let inputs = files("in");
    assert!(!inputs.is_empty(), "no vector to compare in {}", vectors().display());
    let outputs: BTreeSet<_> = inputs.iter().map(|input| input.with_extension("out")).collect();
    assert_eq!(outputs, files("out"), "each .in has its .out");
    let differs = |path: &&PathBuf| {
        let input = fs::read(path).unwrap();
        let expected = fs::read(path.with_extension("out")).unwrap();
        assert!(!expected.is_empty(), "the .out of {} is empty", path.display());
        let mut printed = Vec::new();
        drill_with_mistake(mistake, &input[..], &mut printed).unwrap();
        printed != expected
    };
    (inputs.iter().filter(differs).cloned().collect(), inputs.len())
}

#[test]
fn every_vector() {
    let (failed, compared) = failures(Mistake::None);
    assert!(failed.is_empty(), "{} of {compared} vectors differ: {failed:?}", failed.len());
    println!("{compared} vectors compared");
}

#[test]
fn the_vectors_see_every_planted_mistake() {
    for mistake in Mistake::PLANTED.into_iter().chain(Mistake::OF_SHARES) {
        let (failed, _) = failures(mistake);
        assert!(!failed.is_empty(), "no vector sees {mistake:?}");
    }
}

/// An input that hands out one byte at a time.
struct OneByte<'a>(&'a [u8]);

impl std::io::Read for OneByte<'_> {
    fn read(&mut self, buffer: &mut [u8]) -> std::io::Result<usize> {
        let count = buffer.len().min(1);
        self.0.read(&mut buffer[..count])
    }
}

#[test]
fn a_slow_input_gives_the_same() {
    let input = fs::read(vectors().join("worked-example.in")).unwrap();
    let expected = fs::read(vectors().join("worked-example.out")).unwrap();
    let mut printed = Vec::new();
    reference::drill(OneByte(&input), &mut printed).unwrap();
    assert_eq!(printed, expected);
}

/// Edits in this number after the policy of the cases, and some bytes more.
fn printed_after_edits(edits: usize, rest: &[u8]) -> String {
    let mut input = common::cases_record();
    input.extend(std::iter::repeat_n(0, 16 * edits));
    input.extend_from_slice(rest);
    let mut printed = Vec::new();
    reference::drill(&input[..], &mut printed).unwrap();
    String::from_utf8(printed).unwrap()
}

#[test]
fn at_most_1024_calls_are_read() {
    let whole = printed_after_edits(1024, &[]);
    assert_eq!(whole.lines().count(), 1 + 1024 + 4 + 1);
    assert_eq!(printed_after_edits(1024, &[9]), whole, "nothing is read after the last call");
    assert_eq!(printed_after_edits(1030, &[]), whole);
    let cut = printed_after_edits(1023, &[9]);
    assert_eq!(cut.lines().nth(1024), Some("X 14 0 0 K 1"), "14 comes before 15");
    assert_eq!(cut.lines().count(), 1 + 1023 + 1 + 4 + 1, "table and share follow an X line");
}
