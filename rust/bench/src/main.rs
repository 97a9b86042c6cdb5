//! Measures the guard's calls: `bench` prints a table of times, one line a measurement, with functions wherever they happen to lie.
//! rust/bench/times and rust/bench/instructions measure at each place and count; the other arguments are theirs.
#![forbid(unsafe_code)]

mod access;
mod approval;
mod cases;
mod cold;
mod count;
mod document;
mod figures;
mod growth;
mod measure;
mod plain;
mod plot;
mod record;
mod report;
mod rungs;
mod sides;
mod steps;
mod switch;
mod synchronise;
mod tables;
mod tree;
mod trees;
mod work;

use std::env;
use std::fs;
use std::path::Path;
use std::process::ExitCode;

use cases::{cases, cold_cases, growth_cases, small_cases};
use figures::{Figures, Times};
use work::Side;

const USAGE: &str = "bench
bench times PLACE: figures of all cases, where every function begins at this place of 64
bench count COUNT: repeats every side of every case, for callgrind
bench list, bench repeat CASE SIDE COUNT: one side of one case, for a profiler
bench table NAME FOLDER: a table from a folder of figures: times, cold, instructions, boundary or small
bench plot FOLDER
bench fill DOCUMENT FOLDER: the document with the tables of the figures";

/// Where the plain calls begin.
fn begins() -> Vec<usize> {
    [plain::begins(), steps::begins()].concat()
}

fn times(place: &str) -> Result<String, String> {
    let place = place.parse::<usize>().map_err(|e| format!("{place}: {e}"))?;
    if begins().iter().any(|begin| begin % 64 != place) {
        return Err(format!("a function does not begin at {place} of 64"));
    }
    let all: Vec<_> = cases().into_iter().chain(cold_cases()).chain(growth_cases()).collect();
    Ok(measure::figures(&all).lines())
}

fn list() -> String {
    cases().iter().enumerate().map(|(number, case)| format!("{number}\t{}\n", case.name)).collect()
}

/// Runs one side of one case. None where an argument is none, or the case has no such side.
fn repeat(case: &str, side: &str, count: &str) -> Option<()> {
    let cases = cases();
    let case = cases.get(case.parse::<usize>().ok()?)?;
    let mut work = (case.prepare)();
    work.repeat(Side::named(side)?, count.parse().ok()?).then_some(())
}

fn table(name: &str, folder: &str) -> Result<String, String> {
    match name {
        "times" => Times::all(folder).map(|times| report::times(&times)),
        "cold" => Times::all(folder).map(|times| report::cold(&times)),
        "instructions" => Figures::counts(folder).map(|counts| report::instructions(&counts)),
        "boundary" => Figures::counts(folder).map(|counts| report::boundary(&counts)),
        "small" => Figures::counts(folder).map(|counts| report::small(&counts)),
        // What the scripts wrote down of the machine, of callgrind and of the date.
        "measured" | "counted" => {
            let path = Path::new(folder).join(name);
            fs::read_to_string(&path).map_err(|e| format!("{}: {e}", path.display()))
        }
        _ => Err(USAGE.into()),
    }
}

fn fill(document: &str, folder: &str) -> Result<String, String> {
    let text = fs::read_to_string(document).map_err(|e| format!("{document}: {e}"))?;
    let tables = ["counted", "instructions", "boundary", "small", "measured", "times", "cold"];
    tables.into_iter().try_fold(text, |text, name| {
        document::filled(&text, name, &table(name, folder)?)
            .ok_or(format!("{document}: no place for the table {name}"))
    })
}

/// What is printed, or what is wrong.
fn done(arguments: &[&str]) -> Result<String, String> {
    match arguments {
        [] => Ok(report::times(&Times::of_one(measure::figures(&cases())))),
        ["times", place] => times(place),
        ["count", count] => {
            let all: Vec<_> = cases().into_iter().chain(small_cases()).collect();
            count::count(&all, count.parse().map_err(|e| format!("{count}: {e}"))?);
            Ok(String::new())
        }
        ["list"] => Ok(list()),
        ["repeat", case, side, count] => {
            repeat(case, side, count).map(|()| String::new()).ok_or(USAGE.into())
        }
        ["table", name, folder] => table(name, folder),
        ["plot", folder] => Times::all(folder).map(|times| plot::plot(&times)),
        ["fill", document, folder] => fill(document, folder),
        _ => Err(USAGE.into()),
    }
}

fn main() -> ExitCode {
    std::hint::black_box(begins());
    let arguments: Vec<_> = env::args().skip(1).collect();
    let arguments: Vec<_> = arguments.iter().map(String::as_str).collect();
    match done(&arguments) {
        Ok(printed) => {
            print!("{printed}");
            ExitCode::SUCCESS
        }
        Err(wrong) => {
            eprintln!("{wrong}");
            ExitCode::from(2)
        }
    }
}

#[cfg(test)]
mod tests {
    use std::collections::BTreeSet;

    use super::*;

    /// Both kernel tables come to every page.
    const COUNT: u64 = 256;
    const STEPS: [Side; 7] = [
        Side::Lent,
        Side::Lengths,
        Side::Words,
        Side::Numbers,
        Side::Put,
        Side::Fields,
        Side::EntryPages,
    ];

    #[test]
    fn the_sides_of_every_case_agree() {
        for case in cases() {
            let mut work = (case.prepare)();
            for side in [Side::Archive, Side::Reference, Side::OnRuns] {
                assert!(work.repeat(side, COUNT), "{}", case.name);
            }
            let synchronises = case.name.starts_with("synchronise");
            let from_tree = synchronises && case.name.contains("from a tree");
            assert_eq!(work.repeat(Side::Flat, COUNT), from_tree, "{}", case.name);
            assert!(work.agree(), "{}", case.name);
            let from_flat = synchronises && !from_tree;
            assert_eq!(work.repeat(Side::WithoutApproval, 1), from_flat, "{}", case.name);
            let is_small = ["fetch", "write in", "write across", "write, ", "leave", "drop"]
                .iter()
                .any(|call| case.name.starts_with(call));
            for step in STEPS {
                assert_eq!(work.repeat(step, COUNT), is_small, "{}", case.name);
            }
            assert!(work.steps_agree(), "{}", case.name);
        }
    }

    #[test]
    fn the_sides_agree_on_cold_tables_and_as_they_grow() {
        let growing = growth_cases();
        assert_eq!(growing.len(), growth::Growth::ALL.len() * growth::SIZES.len());
        for case in cold_cases().into_iter().chain(growing) {
            let mut work = (case.prepare)();
            for (side, more) in [(Side::Archive, 0), (Side::Reference, 2), (Side::OnRuns, 0)] {
                // Cold sides need not stand at the same guard.
                let more = if case.of == cases::Of::Median { more } else { 0 };
                assert!(work.repeat(side, COUNT + more), "{}", case.name);
            }
            assert_eq!(
                work.repeat(Side::Copy, 2),
                case.name.starts_with("growth"),
                "{}",
                case.name
            );
            assert!(work.agree(), "{}", case.name);
        }
    }

    #[test]
    fn small_calls_are_refused_for_what_is_wrong() {
        for case in small_cases() {
            let mut work = (case.prepare)();
            for side in [Side::Archive, Side::OnRuns] {
                assert!(work.repeat(side, COUNT), "{}", case.name);
            }
            work.repeat(Side::Reference, COUNT);
            assert!(work.agree(), "{}", case.name);
        }
    }

    #[test]
    fn the_cases_have_different_names() {
        let timed = cases().into_iter().chain(cold_cases()).chain(growth_cases());
        let all: Vec<_> = timed.chain(small_cases()).collect();
        let names: BTreeSet<_> = all.iter().map(|case| &case.name).collect();
        assert_eq!(names.len(), all.len());
        assert!(names.iter().all(|name| !name.contains(['\t', '|'])));
    }
}
