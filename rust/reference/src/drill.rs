//! The drill program of document 01 over the reference guard.
//! It reads a policy and at most 1,024 calls and prints one line a call, then the shadow table and the share.

use std::io::{self, BufWriter, ErrorKind, Read, Write};

use crate::device::Device;
use crate::mistake::Mistake;
use crate::mistaken;
use crate::record::{record_len, SIZES_BYTES};
use crate::start;
use crate::state::{
    vector_len, Answer, Mode, Refusal, State, MAX_DEVICES, MAX_FRAMES, MAX_PAGES, MAX_VECTOR,
};

const MAX_CALLS: usize = 1024;
const CALL_BYTES: usize = 16;
const MAX_RECORD: usize = record_len(MAX_PAGES);

/// Runs the drill.
pub fn drill(input: impl Read, out: impl Write) -> io::Result<()> {
    drill_with_mistake(Mistake::None, input, out)
}

/// Runs the drill over a guard with a planted mistake.
pub fn drill_with_mistake(
    mistake: Mistake,
    mut input: impl Read,
    out: impl Write,
) -> io::Result<()> {
    let mut out = BufWriter::new(out);
    let mut record = [0; MAX_RECORD];
    let taken = read_record(&mut input, &mut record)?;
    let mut tables = Tables::new();
    let (state, answer) = tables.start(&record[..taken]);
    let mut drill = Drill { mistake, state, tables };
    drill.line(&mut out, 'S', answer)?;
    if answer.is_ok() {
        drill.calls(&mut input, &mut out)?;
        drill.tables.print(mistake, &mut out)?;
    }
    out.flush()
}

/// Takes 8 bytes, and 4 × n more if n is 1 to 2,048, or as many as there are.
fn read_record(input: &mut impl Read, record: &mut [u8; MAX_RECORD]) -> io::Result<usize> {
    let taken = fill(input, &mut record[..SIZES_BYTES])?;
    let n = u16::from_le_bytes([record[4], record[5]]);
    if taken < SIZES_BYTES || !(1..=MAX_PAGES).contains(&n) {
        return Ok(taken);
    }
    let rest = &mut record[SIZES_BYTES..record_len(n)];
    Ok(taken + fill(input, rest)?)
}

/// Reads until the buffer is full or the input ends.
fn fill(input: &mut impl Read, buffer: &mut [u8]) -> io::Result<usize> {
    let mut taken = 0;
    while taken < buffer.len() {
        match input.read(&mut buffer[taken..]) {
            Ok(0) => break,
            Ok(count) => taken += count,
            Err(error) if error.kind() == ErrorKind::Interrupted => {}
            Err(error) => return Err(error),
        }
    }
    Ok(taken)
}

/// The four tables with room for the largest policy, and the sizes of the one in force.
struct Tables {
    kernel: [u64; MAX_PAGES as usize],
    shadow: [u64; MAX_PAGES as usize],
    map: [u16; MAX_PAGES as usize],
    exclusion: [u8; MAX_VECTOR],
    v: usize,
    f: u16,
}

impl Tables {
    fn new() -> Self {
        Tables {
            kernel: [0; MAX_PAGES as usize],
            shadow: [0; MAX_PAGES as usize],
            map: [0; MAX_PAGES as usize],
            exclusion: [0; MAX_VECTOR],
            v: 0,
            f: 0,
        }
    }

    /// Starts the guard on tables of the record's sizes; where these are out of range, question 2 is answered first.
    fn start(&mut self, record: &[u8]) -> (State, Answer) {
        if let &[v0, v1, f0, f1, ..] = record {
            self.v = u16::from_le_bytes([v0, v1]).min(MAX_PAGES).into();
            self.f = u16::from_le_bytes([f0, f1]).min(MAX_FRAMES);
        }
        let (v, bytes) = (self.v, vector_len(self.f));
        let (shadow, map) = (&mut self.shadow[..v], &mut self.map[..v]);
        start(record, MAX_DEVICES.into(), shadow, map, &mut self.exclusion[..bytes])
    }

    /// "64 devices with all frames as window". A started guard has a frame at least.
    fn devices(&self) -> [Device; MAX_DEVICES as usize] {
        [Device { first: 0, last: self.f - 1 }; MAX_DEVICES as usize]
    }

    fn exclusion(&self) -> &[u8] {
        &self.exclusion[..vector_len(self.f)]
    }

    fn edit(&mut self, page: u16, entry: u64) -> Answer {
        let place = self.kernel[..self.v].get_mut(usize::from(page));
        *place.ok_or(Refusal::DoesNotExist)? = entry;
        Ok((0, 0))
    }

    /// The shadow entries in rising order, and the share of excluded frames.
    fn print(&self, mistake: Mistake, out: &mut impl Write) -> io::Result<()> {
        for entry in &self.shadow[..self.v] {
            writeln!(out, "{entry:016x}")?;
        }
        let excluded: u32 = self.exclusion().iter().map(|byte| byte.count_ones()).sum();
        writeln!(out, "share {}", mistaken::share(mistake, excluded, self.f.into()))
    }
}

/// The fields of a call.
struct Call {
    kind: u8,
    index: u16,
    length: u32,
    value: u64,
}

impl Call {
    fn parse(bytes: [u8; CALL_BYTES]) -> Call {
        let [kind, _, i0, i1, l0, l1, l2, l3, value @ ..] = bytes;
        Call {
            kind,
            index: u16::from_le_bytes([i0, i1]),
            length: u32::from_le_bytes([l0, l1, l2, l3]),
            value: u64::from_le_bytes(value),
        }
    }
}

/// A started guard with its tables.
struct Drill {
    mistake: Mistake,
    state: State,
    tables: Tables,
}

impl Drill {
    fn calls(&mut self, input: &mut impl Read, out: &mut impl Write) -> io::Result<()> {
        for _ in 0..MAX_CALLS {
            let mut bytes = [0; CALL_BYTES];
            match fill(input, &mut bytes)? {
                0 => return Ok(()),
                CALL_BYTES => {}
                _ => return self.line(out, 'X', Err(Refusal::CallCutShort)),
            }
            let call = Call::parse(bytes);
            if call.kind > 7 {
                return self.line(out, 'X', Err(Refusal::UnknownKind));
            }
            let answer = self.run(&call);
            self.line(out, char::from(b'0' + call.kind), answer)?;
        }
        Ok(())
    }

    fn run(&mut self, call: &Call) -> Answer {
        let Drill { mistake, state, tables } = self;
        let (v, bytes) = (tables.v, vector_len(tables.f));
        let (index, length) = (u64::from(call.index), u64::from(call.length));
        let kernel = &tables.kernel[..v];
        let shadow = &mut tables.shadow[..v];
        let map = &mut tables.map[..v];
        let exclusion = &tables.exclusion[..bytes];
        match call.kind {
            0 => tables.edit(call.index, call.value),
            1 => mistaken::synchronise_one(*mistake, state, kernel, shadow, map, exclusion, index),
            2 => mistaken::synchronise_all(*mistake, state, kernel, shadow, map, exclusion),
            3 => mistaken::fetch(*mistake, state, shadow, index),
            4 => mistaken::write(*mistake, state, shadow, exclusion, call.value, length),
            5 => mistaken::enter(*mistake, state, shadow, index),
            6 => mistaken::leave(*mistake, state, shadow, index),
            7 => {
                let devices = &tables.devices();
                mistaken::device_write(
                    *mistake, state, exclusion, devices, index, call.value, length,
                )
            }
            _ => Err(Refusal::UnknownKind),
        }
    }

    /// Kind, number or 0, the two numbers, the mode, the page running.
    fn line(&self, out: &mut impl Write, kind: char, answer: Answer) -> io::Result<()> {
        let (number, (first, second)) = match answer {
            Ok(numbers) => (0, numbers),
            Err(refusal) => (refusal.number(), (0, 0)),
        };
        let (mode, page) = match self.state.mode {
            Mode::Kernel(page) => ('K', page),
            Mode::User(page) => ('U', page),
        };
        writeln!(out, "{kind} {number} {first} {second} {mode} {page}")
    }
}
