//! Links the archive of the proved library, libexports.a.
//! It stands in target/staticlib of the repository, or in the folder that GUARD_ARCHIVE names.

use std::env;
use std::path::{Path, PathBuf};
use std::process::ExitCode;

const FOLDER: &str = "GUARD_ARCHIVE";
const ARCHIVE: &str = "libexports.a";

fn folder() -> PathBuf {
    match env::var_os(FOLDER) {
        Some(folder) => PathBuf::from(folder),
        None => {
            let package =
                env::var_os("CARGO_MANIFEST_DIR").expect("cargo names the package's folder");
            Path::new(&package).join("../../target/staticlib")
        }
    }
}

fn main() -> ExitCode {
    let folder = folder();
    let archive = folder.join(ARCHIVE);
    println!("cargo::rerun-if-env-changed={FOLDER}");
    println!("cargo::rerun-if-changed={}", archive.display());
    if !archive.is_file() {
        println!(
            "cargo::error={} is missing: run `make archive` at the repository's root, \
             or name the folder of {ARCHIVE} in the environment variable {FOLDER}",
            archive.display()
        );
        return ExitCode::FAILURE;
    }
    println!("cargo::rustc-link-search=native={}", folder.display());
    println!("cargo::rustc-link-lib=static=exports");
    ExitCode::SUCCESS
}
