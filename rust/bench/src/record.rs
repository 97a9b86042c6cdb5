//! Write record, which has no state and no tables: each side has a buffer, a little longer than the record.
//! Every repetition writes the same record.

use std::hint::black_box;

use guard::archive::{self, NUMBERS};
use inputs::Parts;

use crate::plain::{self, on_runs};
use crate::tables::Tables;
use crate::work::{Side, Work};

/// What a buffer holds past the record.
const PAST: [u8; 8] = [0xa5; 8];

/// What a side with a numbers run holds: the archive, and the reference behind its boundary.
#[derive(Clone, PartialEq, Eq)]
struct Runs {
    buffer: Vec<u8>,
    numbers: [u64; NUMBERS],
}

/// Writing a case's policy record.
pub struct WriteRecord {
    parts: Parts,
    archive: Runs,
    plain: Vec<u8>,
    on_runs: Runs,
    /// What every side holds after a repetition.
    written: Runs,
}

impl WriteRecord {
    pub fn new(tables: &Tables) -> WriteRecord {
        let record = &tables.policy;
        let written =
            Runs { buffer: [record, &PAST[..]].concat(), numbers: [record.len() as u64, 0] };
        // No byte of the record is there before it is written.
        let inverted = record.iter().map(|byte| !byte);
        let buffer: Vec<_> = inverted.chain(PAST).collect();
        let unwritten = Runs { buffer: buffer.clone(), numbers: [u64::MAX; NUMBERS] };
        WriteRecord {
            parts: Parts::of(record),
            on_runs: unwritten.clone(),
            archive: unwritten,
            plain: buffer,
            written,
        }
    }
}

/// How a record is written on runs.
type Write = fn(u64, u64, u64, u64, &[u16], &[u16], &mut [u8], &mut [u64]) -> u64;

#[inline(always)]
fn write_on_runs(side: &mut Runs, count: u64, parts: &Parts, call: Write) {
    let Runs { buffer, numbers } = side;
    for _ in 0..count {
        let Parts { sizes: [v, f, n, e], pages, frames } = black_box(parts);
        black_box(call(*v, *f, *n, *e, pages, frames, buffer, numbers));
    }
}

#[inline(always)]
fn write_alone(buffer: &mut [u8], count: u64, parts: &Parts) {
    for _ in 0..count {
        let Parts { sizes: [v, f, n, e], pages, frames } = black_box(parts);
        black_box(&plain::write_record(*v, *f, *n, *e, pages, frames, buffer));
    }
}

impl Work for WriteRecord {
    fn repeat(&mut self, side: Side, count: u64) -> bool {
        let WriteRecord { parts, archive, plain, on_runs, .. } = self;
        match side {
            Side::Archive => write_on_runs(archive, count, parts, archive::write_record),
            Side::Reference => write_alone(plain, count, parts),
            Side::OnRuns => write_on_runs(on_runs, count, parts, on_runs::write_record),
            _ => return false,
        }
        true
    }

    fn agree(&self) -> bool {
        let WriteRecord { archive, plain, on_runs, written, .. } = self;
        archive == written && *plain == written.buffer && on_runs == written
    }
}
