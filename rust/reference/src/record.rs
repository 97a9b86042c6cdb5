//! The policy record: the questions that its reader and its writer share, and the writer of K2.
//! All questions come before the first store, so a refused call leaves the buffer as it was.

use crate::mistake;
use crate::state::{Answer, Refusal, ENTRY_PAGES, MAX_FRAMES, MAX_PAGES};

/// The bytes of V, F, n and e.
pub(crate) const SIZES_BYTES: usize = 8;

/// The bytes of a record that lists `n` pages.
pub(crate) const fn record_len(n: u16) -> usize {
    SIZES_BYTES + 4 * n as usize
}

/// Questions 2 and 3 about V, F, n and e, in the width that they come in, so that none is cut before it is asked about.
#[inline(always)]
pub(crate) fn ask_sizes<T: Ord + Copy + From<u16>>([v, f, n, e]: [T; 4]) -> Result<(), Refusal> {
    let one = T::from(1);
    if !(one..=MAX_PAGES.into()).contains(&v) || !(one..=MAX_FRAMES.into()).contains(&f) {
        return Err(Refusal::SizeOutOfRange);
    }
    if !(one..=v).contains(&n) || !(one..=n.min(T::from(ENTRY_PAGES as u16))).contains(&e) {
        return Err(Refusal::CountOutOfRange);
    }
    Ok(())
}

/// Question 5: every listed page is below V and above the one before.
#[inline(always)]
pub(crate) fn are_rising_below(mut pages: impl Iterator<Item = u16>, v: u16) -> bool {
    let mut least = 0;
    pages.all(|page| {
        let fits = least <= page && page < v;
        least = page.saturating_add(1);
        fits
    })
}

/// Question 6: every listed frame is below F.
#[inline(always)]
pub(crate) fn are_below(mut frames: impl Iterator<Item = u16>, f: u16) -> bool {
    frames.all(|frame| frame < f)
}

/// Writes a policy record to the front of a buffer: its length, and 0.
#[inline(always)]
pub fn write_record(
    v: u64,
    f: u64,
    n: u64,
    e: u64,
    pages: &[u16],
    frames: &[u16],
    buffer: &mut [u8],
) -> Answer {
    write_where::<{ mistake::NONE }>(true, [v, f, n, e], pages, frames, buffer)
}

/// Writes a record where what question 7 asks for is in order.
#[inline(always)]
pub(crate) fn write_where<const VARIANT: u8>(
    in_order: bool,
    mut sizes: [u64; 4],
    pages: &[u16],
    frames: &[u16],
    buffer: &mut [u8],
) -> Answer {
    if VARIANT == mistake::CUT_SIZES {
        sizes = sizes.map(|size| u64::from(size as u16));
    }
    ask_sizes(sizes)?;
    let sizes = sizes.map(|size| size as u16);
    let [v, f, n, _] = sizes;
    if pages.len() != usize::from(n) || frames.len() != usize::from(n) {
        return Err(Refusal::RecordLength);
    }
    if !are_rising_below(pages.iter().copied(), v) {
        return Err(Refusal::ListedPage);
    }
    if !are_below(frames.iter().copied(), f) {
        return Err(Refusal::ListedFrame);
    }
    let length = record_len(n);
    if VARIANT == mistake::BUFFER_BEFORE_RUN && buffer.len() < length {
        return Err(Refusal::BufferTooShort);
    }
    if !in_order {
        return Err(Refusal::StateOrTable);
    }
    let (record, past) = buffer.split_at_mut_checked(length).ok_or(Refusal::BufferTooShort)?;
    put(record, sizes, pages, frames);
    if VARIANT == mistake::BYTE_PAST_RECORD {
        past.iter_mut().take(1).for_each(|byte| *byte = 0);
    }
    Ok((length as u64, 0))
}

/// Puts the sizes and the two arrays into the record's bytes, 16 bits a number, little-endian.
#[inline(always)]
fn put(record: &mut [u8], sizes: [u16; 4], pages: &[u16], frames: &[u16]) {
    let (words, _) = record.as_chunks_mut::<2>();
    let (first, arrays) = words.split_at_mut(sizes.len());
    let (second, third) = arrays.split_at_mut(pages.len());
    for (words, numbers) in [(first, &sizes[..]), (second, pages), (third, frames)] {
        for (word, number) in words.iter_mut().zip(numbers) {
            *word = number.to_le_bytes();
        }
    }
}
