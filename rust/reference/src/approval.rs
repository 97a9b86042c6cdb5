//! Ask, commit and drop (K6): a page and a frame are pending while the driver there is inspected, and then approved or not.
//! No call here reads a kernel table.

use crate::entry::{approved, framed, is_excluded, FRAME, NO_FRAME, PRESENT, WRITABLE};
use crate::state::{Answer, Pair, Refusal, State};

/// Asks for the approval of a page with a frame: both are pending from then on, and the frame is excluded.
#[inline(always)]
pub fn ask(
    state: &mut State,
    shadow: &[u64],
    map: &[u16],
    exclusion: &mut [u8],
    page: u64,
    frame: u64,
) -> Answer {
    let v = usize::from(state.v);
    if !state.fits_vector(exclusion.len()) || shadow.len() != v || map.len() != v {
        return Err(Refusal::StateOrTable);
    }
    if page >= u64::from(state.v) || frame >= u64::from(state.f) {
        return Err(Refusal::DoesNotExist);
    }
    let is_approved = map[page as usize] != NO_FRAME;
    if state.pending.is_some() || is_approved || is_excluded(exclusion, frame) {
        return Err(Refusal::ApprovalConflict);
    }
    let pair = Pair { page: page as u16, frame: frame as u16 };
    let mapped_writable = PRESENT | WRITABLE | framed(pair.frame);
    if shadow.iter().any(|entry| entry & (PRESENT | WRITABLE | FRAME) == mapped_writable) {
        return Err(Refusal::MappedWritable);
    }
    exclusion[usize::from(pair.frame / 8)] |= 1 << (pair.frame % 8);
    state.pending = Some(pair);
    Ok((0, 0))
}

/// Approves the pending page with its frame, and so every page without an approval whose present shadow entry has that frame: how many
/// shadow entries changed, and how many pages joined the map.
#[inline(always)]
pub fn commit(state: &mut State, shadow: &mut [u64], map: &mut [u16]) -> Answer {
    if !state.fits_pages(shadow.len()) || map.len() != usize::from(state.v) {
        return Err(Refusal::StateOrTable);
    }
    // 20 is asked where a pair is pending and 22 where none is, so that no input fails both.
    let Pair { page, frame } = state.pending.ok_or(Refusal::NothingPending)?;
    let page = usize::from(page);
    if map[page] != NO_FRAME {
        return Err(Refusal::ApprovalConflict);
    }
    let framed = framed(frame);
    let approved =
        if state.mode.is_user() { approved::<true>(framed) } else { approved::<false>(framed) };
    let (mut changed, mut joined) = (0, 0);
    let mut approve = |entry: &mut u64, place: &mut u16| {
        changed += u64::from(*entry != approved);
        joined += 1;
        *entry = approved;
        *place = frame;
    };
    // The asked page comes first, whatever its entry is: with its number in the map it is none of the others.
    approve(&mut shadow[page], &mut map[page]);
    for (entry, place) in shadow.iter_mut().zip(map) {
        if *place == NO_FRAME && *entry & (PRESENT | FRAME) == PRESENT | framed {
            approve(entry, place);
        }
    }
    state.pending = None;
    Ok((changed, joined))
}

/// Drops what is pending: its frame is excluded no more.
#[inline(always)]
pub fn drop(state: &mut State, exclusion: &mut [u8]) -> Answer {
    if !state.fits_vector(exclusion.len()) {
        return Err(Refusal::StateOrTable);
    }
    let Pair { frame, .. } = state.pending.take().ok_or(Refusal::NothingPending)?;
    exclusion[usize::from(frame / 8)] &= !(1 << (frame % 8));
    Ok((0, 0))
}
