//! The refusals are those of docs/refusals.txt: numbers, names and words.
//! They also show as a person reads them, and a number finds its refusal again.

use guard::Refusal;

const FILE: &str = include_str!("../../../docs/refusals.txt");

/// `NotPresent` as the constant `GUARD_NOT_PRESENT`.
fn constant(refusal: Refusal) -> String {
    let mut name = String::from("GUARD");
    for letter in format!("{refusal:?}").chars() {
        if letter.is_uppercase() {
            name.push('_');
        }
        name.extend(letter.to_uppercase());
    }
    name
}

#[test]
fn numbers_names_and_words_are_those_of_the_file() {
    let of_file: Vec<Vec<_>> = FILE
        .lines()
        .filter(|line| !line.starts_with('#'))
        .map(|line| line.split('\t').take(3).map(String::from).collect())
        .collect();
    let of_enum: Vec<Vec<_>> = Refusal::ALL
        .iter()
        .map(|&refusal| {
            vec![refusal.number().to_string(), constant(refusal), refusal.words().into()]
        })
        .collect();
    assert_eq!(of_enum, of_file);
}

#[test]
fn a_number_finds_its_refusal() {
    for refusal in Refusal::ALL {
        assert_eq!(Refusal::from_number(refusal.number().into()), Some(refusal));
    }
    for number in [0, 23, 256, 257, 65536 + 7, u64::MAX] {
        assert_eq!(Refusal::from_number(number), None);
    }
}

#[test]
fn a_refusal_reads_as_words() {
    assert_eq!(Refusal::Excluded.to_string(), "refused with 13: a touched frame is excluded");
    let error: Box<dyn std::error::Error> = Refusal::WrongMode.into();
    assert_eq!(error.to_string(), "refused with 10: the mode does not suit the call");
}
