//! The refusal numbers with their words, read from docs/refusals.txt, and the page made from them.
//! The file is part of the program, so tool and page cannot differ from it.

use std::fmt::Write;

const FILE: &str = include_str!("../../../docs/refusals.txt");

const INTRODUCTION: &str = "\
# Refusal numbers of the page guard

The guard answers a call it does not allow with the number of the first question that was answered no, and changes nothing.
This table says what each number means and what to do about it; it is made by `guard-front refusals` from `docs/refusals.txt`.
";

/// A line of docs/refusals.txt.
#[derive(Clone, Copy, Debug, PartialEq, Eq)]
pub struct RefusalWords {
    pub number: u8,
    pub constant: &'static str,
    pub words: &'static str,
    pub question: &'static str,
    pub what_to_do: &'static str,
}

/// All refusal numbers, in the order of the file.
pub fn refusals() -> impl Iterator<Item = RefusalWords> {
    FILE.lines().filter(|line| !line.starts_with('#')).map(parse)
}

/// The words of one number.
pub(crate) fn refusal(number: u64) -> Option<RefusalWords> {
    refusals().find(|refusal| u64::from(refusal.number) == number)
}

/// A faulty line of the file is a fault of the program that holds it, and the tests read every line.
fn parse(line: &'static str) -> RefusalWords {
    let fields: Vec<_> = line.split('\t').collect();
    let [number, constant, words, question, what_to_do] = fields[..] else {
        panic!("docs/refusals.txt: five fields are needed: {line}");
    };
    let number = number.parse().expect("docs/refusals.txt: a line begins with its number");
    RefusalWords { number, constant, words, question, what_to_do }
}

/// docs/REFUSALS.md.
pub fn refusals_page() -> String {
    let mut page = String::from(INTRODUCTION);
    page.push_str("\n| number | constant | in short | question answered no | what to do |\n");
    page.push_str("|---|---|---|---|---|\n");
    for refusal in refusals() {
        let RefusalWords { number, constant, words, question, what_to_do } = refusal;
        writeln!(page, "| {number} | `{constant}` | {words} | {question} | {what_to_do} |")
            .expect("a string takes all text");
    }
    page
}
