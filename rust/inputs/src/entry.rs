//! Entries of a kernel table by their fields, each drawn on its own: a request that gives a field a meaning changes nothing here.

use crate::Random;

/// How many bits the frame has.
const FRAME_BITS: u32 = 40;
/// How many bits there are above the frame and below no-execute.
const MARKER_BITS: u32 = 11;

/// A kernel entry. The low bits of `frame` and `marker` count, as many as the entry has room for.
#[derive(Clone, Copy, Debug, PartialEq, Eq)]
pub struct KernelEntry {
    /// Bit 0.
    pub present: bool,
    /// Bit 1.
    pub writable: bool,
    /// Bit 2.
    pub user: bool,
    /// Bit 3.
    pub write_through: bool,
    /// Bit 4.
    pub cache_disable: bool,
    /// Bits 5 and 6, which the processor sets.
    pub accessed: bool,
    pub dirty: bool,
    /// Bit 7: in an upper level of a tree, a large page.
    pub large: bool,
    /// Bit 8.
    pub global: bool,
    /// Bits 9 to 11, which the kernel may use as it likes.
    pub available: u64,
    /// Bits 12 to 51.
    pub frame: u64,
    /// Bits 52 to 62, reserved: the processor faults on them, and a driver uses them as a marker.
    pub marker: u64,
    /// Bit 63.
    pub no_execute: bool,
}

impl KernelEntry {
    /// Mostly present, with a frame from 0 to `frames`. One in ten has a marker.
    pub fn random(random: &mut Random, frames: u64) -> KernelEntry {
        KernelEntry {
            present: !random.one_in(5),
            writable: !random.one_in(4),
            user: !random.one_in(3),
            write_through: random.one_in(2),
            cache_disable: random.one_in(2),
            accessed: random.one_in(2),
            dirty: random.one_in(2),
            large: random.one_in(2),
            global: random.one_in(2),
            available: random.below(8),
            frame: if random.one_in(12) { random.word() } else { random.below(frames + 1) },
            marker: if random.one_in(10) { random_marker(random) } else { 0 },
            no_execute: random.one_in(4),
        }
    }

    /// The entry as the kernel's table holds it.
    pub fn bits(self) -> u64 {
        let field = |value: u64, low: u32, bits: u32| (value & ((1 << bits) - 1)) << low;
        let flag = |is_set: bool, low: u32| field(is_set.into(), low, 1);
        flag(self.present, 0)
            | flag(self.writable, 1)
            | flag(self.user, 2)
            | flag(self.write_through, 3)
            | flag(self.cache_disable, 4)
            | flag(self.accessed, 5)
            | flag(self.dirty, 6)
            | flag(self.large, 7)
            | flag(self.global, 8)
            | field(self.available, 9, 3)
            | field(self.frame, 12, FRAME_BITS)
            | field(self.marker, 52, MARKER_BITS)
            | flag(self.no_execute, 63)
    }
}

/// One of the bits alone, or any of them and at least one.
fn random_marker(random: &mut Random) -> u64 {
    if random.one_in(2) {
        1 << random.below(MARKER_BITS.into())
    } else {
        1 + random.below((1 << MARKER_BITS) - 1)
    }
}
