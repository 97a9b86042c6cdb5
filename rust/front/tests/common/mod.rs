//! Where the examples and vectors are, and the reference drill as a function.
//! Each test file uses a part of it.
#![allow(dead_code)]

use std::fs;
use std::path::{Path, PathBuf};

/// A path below the repository's root.
pub fn path(below_root: &str) -> PathBuf {
    Path::new(env!("CARGO_MANIFEST_DIR")).join("../..").join(below_root)
}

pub fn read(below_root: &str) -> String {
    let path = path(below_root);
    fs::read_to_string(&path).unwrap_or_else(|error| panic!("{}: {error}", path.display()))
}

/// The drill's vectors, or one file of them.
pub fn vector(name: &str) -> PathBuf {
    path("tests/vectors").join(name)
}

/// What the drill over the reference guard prints.
pub fn reference_drill(input: &[u8]) -> String {
    let mut printed = Vec::new();
    reference::drill(input, &mut printed).expect("a drill in memory has no input error");
    String::from_utf8(printed).expect("the drill prints text")
}
