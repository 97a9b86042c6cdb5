//! src/archive.rs links with an archive of the boundary that it declares, and with no other.
//! It is compiled by itself, as it stands and with the next number in the place of its own, and a program is linked with it.

use std::env;
use std::fs;
use std::path::{Path, PathBuf};
use std::process::{Command, Output};

const NAME: &str = "guard_boundary_";

/// Makes one call by its safe function, and does not name the boundary.
const PROGRAM: &str = "fn main() {
    let answer = archive::walk(&[], 0, 1, 0, &mut [0; archive::NUMBERS]);
    assert_eq!(answer, 17);
}
";

fn source() -> String {
    fs::read_to_string(Path::new(env!("CARGO_MANIFEST_DIR")).join("src/archive.rs")).unwrap()
}

/// The number of the boundary that a source declares.
fn number(source: &str) -> u64 {
    let (_, rest) = source.split_once(&format!("fn {NAME}")).expect("a declaration");
    rest.split('(').next().unwrap().parse().expect("a number")
}

/// The folder of the archive, as build.rs has it.
fn archive() -> PathBuf {
    let beside = Path::new(env!("CARGO_MANIFEST_DIR")).join("../../target/staticlib");
    env::var_os("GUARD_ARCHIVE").map_or(beside, PathBuf::from)
}

fn rustc(folder: &Path, words: &[&str]) -> Output {
    let program = env::var_os("RUSTC").unwrap_or("rustc".into());
    let mut command = Command::new(program);
    command
        .current_dir(folder)
        .args(["--edition", "2021", "-L"])
        .arg(archive().canonicalize().unwrap());
    command.args(words).output().expect("rustc is run")
}

/// Compiles a source of declarations and links a program with it, at a level of optimisation.
fn linked(name: &str, source: &str, level: &str) -> Output {
    let folder = Path::new(env!("CARGO_TARGET_TMPDIR")).join(name);
    fs::create_dir_all(&folder).unwrap();
    fs::write(folder.join("archive.rs"), source).unwrap();
    fs::write(folder.join("program.rs"), PROGRAM).unwrap();
    let optimised = format!("opt-level={level}");
    let library = rustc(
        &folder,
        &["--crate-type", "rlib", "-C", &optimised, "-l", "static=exports", "archive.rs"],
    );
    assert!(library.status.success(), "{}", String::from_utf8_lossy(&library.stderr));
    rustc(&folder, &["--extern", "archive=libarchive.rlib", "-C", &optimised, "program.rs"])
}

#[test]
fn the_archive_links() {
    for level in ["0", "3"] {
        let output = linked(&format!("own-{level}"), &source(), level);
        assert!(output.status.success(), "{}", String::from_utf8_lossy(&output.stderr));
    }
}

#[test]
fn an_archive_of_another_boundary_does_not_link() {
    let source = source();
    let number = number(&source);
    let [own, next] = [number, number + 1].map(|number| format!("{NAME}{number}"));
    for level in ["0", "3"] {
        let output = linked(&format!("next-{level}"), &source.replace(&own, &next), level);
        let said = String::from_utf8_lossy(&output.stderr);
        assert!(!output.status.success(), "it links at level {level}");
        let undefined = said.lines().any(|line| line.contains("undefined") && line.contains(&next));
        assert!(undefined, "{said}");
    }
}
