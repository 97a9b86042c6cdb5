//! The built drill prints what the reference's drill prints, byte by byte, for random policies and calls, a refused policy, an unknown kind and a
//! last call that is cut short among them.
//! Many policies have a share of an exact half, and the mistakes of the share are found.

use std::collections::BTreeSet;
use std::io::Write;
use std::path::Path;
use std::process::{Command, Stdio};

use inputs::{random_record, KernelEntry, Parts, Random};
use reference::{drill_with_mistake, Mistake};

const INPUTS: u64 = 600;

/// A policy record. For the first four numbers of frames, every second or fourth count of excluded ones is an exact half.
fn policy(random: &mut Random) -> Vec<u8> {
    let any = 1 + random.below(4096) as u16;
    let f = random.pick(&[8, 40, 200, 400, 3, 7, any]);
    let v = 1 + random.below(u64::from(2 * f).min(2048)) as u16;
    random_record(random, v, f)
}

/// A policy and up to 20 calls, some with switches before them, of which some name what does not exist.
fn input(seed: u64) -> Vec<u8> {
    let random = &mut Random::new(seed);
    let mut input = policy(random);
    let [v, f, ..] = Parts::of(&input).sizes;
    for _ in 0..random.below(21) {
        if random.below(8) == 0 {
            input.extend(switches(random, v, f));
        }
        input.extend(call(random, v, f));
    }
    match random.below(16) {
        // No page is listed, so that the start is refused.
        0 => input[4..6].fill(0),
        1 => input.truncate(input.len() - 1),
        _ => (),
    }
    input
}

/// A page that user mode may run is edited and synchronised, left to, and then the kernel is entered, twice.
fn switches(random: &mut Random, v: u64, f: u64) -> Vec<u8> {
    let (page, frame) = (random.below(v), random.below(f));
    let edit = bytes(random, 0, page, 0, frame * 4096 + 5);
    let rest = [(1, page), (6, page), (6, page), (5, 0), (5, 0)];
    rest.into_iter()
        .fold(edit, |calls, (kind, index)| [calls, bytes(random, kind, index, 0, 0)].concat())
}

fn call(random: &mut Random, v: u64, f: u64) -> Vec<u8> {
    let kind = if random.below(64) == 0 { 8 } else { random.below(8) as u8 };
    let index = match kind {
        5 => random.below(17),
        7 => random.below(65),
        _ => random.below(v + 1),
    };
    let length = match kind {
        4 => random.below(18),
        _ if random.below(16) == 0 => random.pick(&[0, 1 << 20, (1 << 20) + 1]),
        _ => random.below(3 * 4096),
    };
    let value = match kind {
        0 => KernelEntry::random(random, f).bits(),
        4 => random.below(4096 * (v + 1)),
        _ => random.below(4096 * (f + 1)),
    };
    bytes(random, kind, index, length, value)
}

/// Kind, a byte that is ignored, index, length, value.
fn bytes(random: &mut Random, kind: u8, index: u64, length: u64, value: u64) -> Vec<u8> {
    let mut bytes = vec![kind, random.word() as u8];
    bytes.extend((index as u16).to_le_bytes());
    bytes.extend((length as u32).to_le_bytes());
    bytes.extend(value.to_le_bytes());
    bytes
}

/// What the built drill prints. An input and what is printed for it each fit into a pipe.
fn built(input: &[u8]) -> String {
    let drill = Path::new(env!("CARGO_MANIFEST_DIR")).join("../../target/bin/drill");
    let mut command = Command::new(drill);
    let mut child = command
        .stdin(Stdio::piped())
        .stdout(Stdio::piped())
        .spawn()
        .expect("the drill is built: `make drill` at the repository's root");
    child.stdin.take().unwrap().write_all(input).unwrap();
    let output = child.wait_with_output().unwrap();
    assert!(output.status.success(), "the drill ended with {}", output.status);
    String::from_utf8(output.stdout).unwrap()
}

fn of_reference(mistake: Mistake, input: &[u8]) -> String {
    let mut printed = Vec::new();
    drill_with_mistake(mistake, input, &mut printed).unwrap();
    String::from_utf8(printed).unwrap()
}

/// The first line in which the built drill differs from the reference with this mistake, and the input's seed.
fn first_difference(mistake: Mistake) -> Option<String> {
    (0..INPUTS).find_map(|seed| {
        let input = input(seed);
        let (built, wanted) = (built(&input), of_reference(mistake, &input));
        if built == wanted {
            return None;
        }
        let mut lines = built.lines().zip(wanted.lines()).filter(|(built, wanted)| built != wanted);
        Some(format!("seed {seed}: (built, reference) {:?}", lines.next()))
    })
}

#[test]
fn the_built_drill_agrees() {
    let difference = first_difference(Mistake::None);
    assert!(difference.is_none(), "{difference:?}");
}

/// The lines of calls, by kind and number: each of these comes.
#[test]
fn the_calls_are_of_every_kind() {
    let printed: Vec<String> =
        (0..INPUTS).map(|seed| of_reference(Mistake::None, &input(seed))).collect();
    let starts =
        |line: &str| printed.iter().flat_map(|text| text.lines()).any(|l| l.starts_with(line));
    let missing: Vec<&str> = [
        "S 0 ", "S 3 ", "0 0 ", "0 9 ", "1 0 ", "1 9 ", "2 0 ", "3 0 ", "3 9 ", "3 11 ", "3 12 ",
        "4 0 ", "4 8 ", "4 9 ", "4 11 ", "4 12 ", "5 0 ", "5 9 ", "5 10 ", "6 0 ", "6 9 ", "6 10 ",
        "7 0 ", "7 8 ", "7 9 ", "7 13 ", "7 18 ", "X 14 ", "X 15 ",
    ]
    .into_iter()
    .filter(|line| !starts(line))
    .collect();
    assert!(missing.is_empty(), "no line begins with {missing:?}");
}

#[test]
fn every_mistake_of_the_share_is_found() {
    for mistake in Mistake::OF_SHARES {
        let difference =
            first_difference(mistake).unwrap_or_else(|| panic!("{mistake:?} is not found"));
        assert!(difference.contains("share "), "{mistake:?}: {difference}");
    }
}

#[test]
fn exact_halves_come_often() {
    // Above an even number, and above an odd one.
    let mut halves = [0, 0];
    for seed in 0..INPUTS {
        let Parts { sizes: [_, f, ..], frames, .. } = Parts::of(&policy(&mut Random::new(seed)));
        let excluded = BTreeSet::from_iter(frames).len() as u64;
        if 2 * (100 * excluded % f) == f {
            halves[(100 * excluded / f % 2) as usize] += 1;
        }
    }
    assert!(halves.iter().all(|&count| count > 50), "{halves:?} of {INPUTS}");
}
