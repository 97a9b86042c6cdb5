//! The bits of kernel and shadow entries, and how a shadow entry is made of them.
//! The frame stays in its place, bits 12 to 51, so that no entry is shifted there and back.

pub const PRESENT: u64 = 1 << 0;
pub const WRITABLE: u64 = 1 << 1;
pub const USER: u64 = 1 << 2;
pub const WRITE_THROUGH: u64 = 1 << 3;
pub const CACHE_DISABLE: u64 = 1 << 4;
/// Bits 3 and 4, with which device registers are mapped. An ordinary entry carries the kernel entry's, an approved one has none.
pub const CACHE_BITS: u64 = WRITE_THROUGH | CACHE_DISABLE;
/// In a shadow entry: the kernel entry's own no-execute.
pub const KERNEL_NO_EXECUTE: u64 = 1 << 9;
/// In a shadow entry: the approved mark.
pub const APPROVED: u64 = 1 << 10;
pub const NO_EXECUTE: u64 = 1 << 63;
/// Where the frame begins.
pub const FRAME_SHIFT: u32 = 12;
/// Bits 12 to 51.
pub const FRAME: u64 = ((1 << 40) - 1) << FRAME_SHIFT;
/// Bits 52 to 62, on which the processor faults. A kernel entry with one of them is absent; a shadow entry is not asked.
pub const RESERVED: u64 = ((1 << 11) - 1) << 52;

/// The number in the approval map of a page without an approved frame.
pub const NO_FRAME: u16 = u16::MAX;

/// The frame number of an entry.
#[inline(always)]
pub fn frame_of(entry: u64) -> u64 {
    (entry & FRAME) >> FRAME_SHIFT
}

/// A frame number in its place in an entry.
#[inline(always)]
pub fn framed(frame: u16) -> u64 {
    u64::from(frame) << FRAME_SHIFT
}

/// The approved entry of a frame that is already in its place.
#[inline(always)]
pub fn approved<const IN_USER: bool>(frame: u64) -> u64 {
    let entry = PRESENT | APPROVED | frame;
    entry | no_execute::<IN_USER>(entry)
}

/// The ordinary entry of a present kernel entry.
#[inline(always)]
pub fn ordinary<const IN_USER: bool>(kernel: u64) -> u64 {
    let carried = PRESENT | WRITABLE | USER | CACHE_BITS | FRAME;
    let entry = (kernel & carried) | ((kernel & NO_EXECUTE) >> (63 - 9));
    entry | no_execute::<IN_USER>(entry)
}

/// The ordinary entry of a kernel entry with the pending frame (K6): it is not writable, and no-execute counts as the kernel's own.
#[inline(always)]
pub fn restricted<const IN_USER: bool>(kernel: u64) -> u64 {
    ordinary::<IN_USER>(kernel & !WRITABLE | NO_EXECUTE)
}

/// Bit 63 that a present shadow entry has in this mode, by its approved mark and bits 2 and 9; all other bits are 0.
/// Shifts bring bits 10, 9 and 2 to bit 63, so that a mode switch has no branch and runs on vectors.
#[inline(always)]
pub fn no_execute<const IN_USER: bool>(entry: u64) -> u64 {
    let is_approved = entry << (63 - 10);
    let bit_63 = if IN_USER {
        let kernel_no_execute = entry << (63 - 9);
        let not_user = !entry << (63 - 2);
        is_approved | kernel_no_execute | not_user
    } else {
        !is_approved
    };
    bit_63 & NO_EXECUTE
}

/// Whether the vector excludes a frame. The caller has checked that the frame is below F.
#[inline(always)]
pub fn is_excluded(exclusion: &[u8], frame: u64) -> bool {
    exclusion[(frame >> 3) as usize] >> (frame & 7) & 1 != 0
}
