//! Synchronising one page or all pages with the kernel table, which is flat or a tree.
//! One step serves the exact guard, the planted mistakes and the variant without approval; each is compiled apart.

use crate::entry::{
    approved, framed, is_excluded, ordinary, restricted, CACHE_BITS, CACHE_DISABLE, FRAME,
    FRAME_SHIFT, NO_FRAME, PRESENT, RESERVED, WRITE_THROUGH,
};
use crate::mistake;
use crate::state::{Answer, Refusal, State, MAX_FRAMES, MAX_VECTOR};
use crate::tree::{Tree, WholeTree};

/// What a step compares a frame with, in a frame's place: F and the pending frame.
#[derive(Clone, Copy)]
struct Frames {
    end: u64,
    /// Where none is pending, a number that no frame has.
    pending: u64,
}

impl Frames {
    #[inline(always)]
    fn of(state: &State) -> Frames {
        let pending = state.pending.map_or(u64::MAX, |pair| framed(pair.frame));
        Frames { end: framed(state.f), pending }
    }
}

/// Question 7 for the tables that a synchronisation is lent: those with a place for each page, and the vector.
#[inline(always)]
fn fits<const TABLES: usize>(state: &State, places: [usize; TABLES], exclusion: &[u8]) -> bool {
    let v = usize::from(state.v);
    state.fits_vector(exclusion.len()) && places.into_iter().all(|count| count == v)
}

/// Steps 1 to 5 for one page, with the rule for a pending frame between 3 and 4 (K6): its shadow entry.
/// A page that joins the map is counted where it joins, which is rare, and not on the common way.
#[inline(always)]
fn step<const IN_USER: bool, const VARIANT: u8>(
    kernel: u64,
    place: &mut u16,
    frames: Frames,
    is_excluded: impl Fn(u64) -> bool,
    joined: &mut u64,
) -> u64 {
    let reserved = match VARIANT {
        mistake::IGNORE_RESERVED => 0,
        mistake::RESERVED_IF_NOT_APPROVED if *place != NO_FRAME => 0,
        _ => RESERVED,
    };
    if kernel & (PRESENT | reserved) != PRESENT {
        if VARIANT == mistake::FORGET_APPROVAL {
            *place = NO_FRAME;
        }
        return 0;
    }
    let frame = kernel & FRAME;
    let carried = match VARIANT {
        mistake::APPROVED_CARRIES_CACHE_BITS => kernel & CACHE_BITS,
        _ => 0,
    };
    if VARIANT != mistake::NO_APPROVAL && *place != NO_FRAME {
        let kept = if VARIANT == mistake::TRUST_KERNEL_FRAME { frame } else { framed(*place) };
        return approved::<IN_USER>(kept) | carried;
    }
    if frame >= frames.end {
        return 0;
    }
    if VARIANT != mistake::NO_APPROVAL && frame == frames.pending {
        return restricted::<IN_USER>(kernel);
    }
    let joins = VARIANT != mistake::NO_APPROVAL && VARIANT != mistake::WRITABLE_ALIAS;
    if joins && is_excluded(frame >> FRAME_SHIFT) {
        *place = (frame >> FRAME_SHIFT) as u16;
        *joined += 1;
        return approved::<IN_USER>(frame) | carried;
    }
    ordinary::<IN_USER>(match VARIANT {
        mistake::EXCHANGE_CACHE_BITS => with_cache_bits_exchanged(kernel),
        mistake::ONE_CACHE_BIT => kernel & !CACHE_DISABLE,
        _ => kernel,
    })
}

fn with_cache_bits_exchanged(entry: u64) -> u64 {
    entry & !CACHE_BITS | (entry & WRITE_THROUGH) << 1 | (entry & CACHE_DISABLE) >> 1
}

#[inline(always)]
pub(crate) fn one<const VARIANT: u8>(
    state: &State,
    kernel: &[u64],
    shadow: &mut [u64],
    map: &mut [u16],
    exclusion: &[u8],
    page: u64,
) -> Answer {
    if !fits(state, [kernel.len(), shadow.len(), map.len()], exclusion) {
        return Err(Refusal::StateOrTable);
    }
    if page >= u64::from(state.v) {
        return Err(Refusal::DoesNotExist);
    }
    let page = page as usize;
    Ok(put::<VARIANT>(state, kernel[page], shadow, map, exclusion, page))
}

#[inline(always)]
pub(crate) fn one_from_tree<const VARIANT: u8>(
    state: &State,
    tree: Tree,
    shadow: &mut [u64],
    map: &mut [u16],
    exclusion: &[u8],
    page: u64,
) -> Answer {
    if VARIANT == mistake::TREE_BEFORE_TABLES {
        tree.whole()?;
    }
    if !fits(state, [shadow.len(), map.len()], exclusion) {
        return Err(Refusal::StateOrTable);
    }
    if VARIANT == mistake::PAGE_BEFORE_TREE && page >= u64::from(state.v) {
        return Err(Refusal::DoesNotExist);
    }
    let tree = tree.whole()?;
    if page >= u64::from(state.v) {
        return Err(Refusal::DoesNotExist);
    }
    let kernel = tree.walk::<VARIANT>(page).entry;
    Ok(put::<VARIANT>(state, kernel, shadow, map, exclusion, page as usize))
}

/// The step for one page: whether its entry changed, and whether it joined.
#[inline(always)]
fn put<const VARIANT: u8>(
    state: &State,
    kernel: u64,
    shadow: &mut [u64],
    map: &mut [u16],
    exclusion: &[u8],
    page: usize,
) -> (u64, u64) {
    let frames = Frames::of(state);
    let is_excluded = |frame| is_excluded(exclusion, frame);
    let place = &mut map[page];
    let mut joined = 0;
    let entry = if state.mode.is_user() {
        step::<true, VARIANT>(kernel, place, frames, is_excluded, &mut joined)
    } else {
        step::<false, VARIANT>(kernel, place, frames, is_excluded, &mut joined)
    };
    let changed = shadow[page] != entry;
    shadow[page] = entry;
    (changed.into(), joined)
}

#[inline(always)]
pub(crate) fn all<const VARIANT: u8>(
    state: &State,
    kernel: &[u64],
    shadow: &mut [u64],
    map: &mut [u16],
    exclusion: &[u8],
) -> Answer {
    if !fits(state, [kernel.len(), shadow.len(), map.len()], exclusion) {
        return Err(Refusal::StateOrTable);
    }
    Ok(all_pages::<VARIANT, _>(state, kernel.iter(), |&entry| entry, shadow, map, exclusion))
}

#[inline(always)]
pub(crate) fn all_from_tree<const VARIANT: u8>(
    state: &State,
    tree: Tree,
    shadow: &mut [u64],
    map: &mut [u16],
    exclusion: &[u8],
) -> Answer {
    if VARIANT == mistake::TREE_BEFORE_TABLES {
        tree.whole()?;
    }
    if !fits(state, [shadow.len(), map.len()], exclusion) {
        return Err(Refusal::StateOrTable);
    }
    let tree = tree.whole()?;
    Ok(match tree.depth() {
        1 => all_walked::<1, VARIANT>(state, tree, shadow, map, exclusion),
        2 => all_walked::<2, VARIANT>(state, tree, shadow, map, exclusion),
        _ => all_walked::<3, VARIANT>(state, tree, shadow, map, exclusion),
    })
}

/// All pages by walks of one depth. It is a call of its own for each depth, so that its loops have the registers to themselves.
#[inline(never)]
fn all_walked<const DEPTH: u32, const VARIANT: u8>(
    state: &State,
    tree: WholeTree,
    shadow: &mut [u64],
    map: &mut [u16],
    exclusion: &[u8],
) -> (u64, u64) {
    let pages = 0..u64::from(state.v);
    let entry_of = |page| tree.walk_from::<DEPTH, VARIANT>(page).entry;
    all_pages::<VARIANT, _>(state, pages, entry_of, shadow, map, exclusion)
}

/// A loop for each mode, which then is not asked in it.
#[inline(always)]
fn all_pages<const VARIANT: u8, P>(
    state: &State,
    pages: impl Iterator<Item = P>,
    entry_of: impl Fn(P) -> u64,
    shadow: &mut [u64],
    map: &mut [u16],
    exclusion: &[u8],
) -> (u64, u64) {
    if state.mode.is_user() {
        run::<true, VARIANT, P>(state, pages, entry_of, shadow, map, exclusion)
    } else {
        run::<false, VARIANT, P>(state, pages, entry_of, shadow, map, exclusion)
    }
}

/// The step for each page in rising order, by its kernel entry: how many entries changed and how many pages joined.
#[inline(always)]
fn run<const IN_USER: bool, const VARIANT: u8, P>(
    state: &State,
    pages: impl Iterator<Item = P>,
    entry_of: impl Fn(P) -> u64,
    shadow: &mut [u64],
    map: &mut [u16],
    exclusion: &[u8],
) -> (u64, u64) {
    // A vector of fixed length, looked up by words: with the frame below F, the loop has no bounds check.
    let mut vector = [0u8; MAX_VECTOR];
    vector[..exclusion.len()].copy_from_slice(exclusion);
    let (words, _) = vector.as_chunks::<8>();
    let is_excluded =
        |frame: u64| u64::from_le_bytes(words[(frame / 64) as usize]) >> (frame % 64) & 1 != 0;
    let frames = Frames { end: framed(state.f.min(MAX_FRAMES)), ..Frames::of(state) };
    let (mut changed, mut joined) = (0, 0);
    for ((page, shadow), place) in pages.zip(shadow).zip(map) {
        let kernel = entry_of(page);
        let entry = step::<IN_USER, VARIANT>(kernel, place, frames, is_excluded, &mut joined);
        changed += u64::from(*shadow != entry);
        *shadow = entry;
    }
    (changed, joined)
}

/// Synchronises one page: how many shadow entries changed, and how many pages joined the map.
#[inline(always)]
pub fn synchronise_one(
    state: &State,
    kernel: &[u64],
    shadow: &mut [u64],
    map: &mut [u16],
    exclusion: &[u8],
    page: u64,
) -> Answer {
    one::<{ mistake::NONE }>(state, kernel, shadow, map, exclusion, page)
}

/// Synchronises all pages in rising order; the numbers are those of [`synchronise_one`].
#[inline(always)]
pub fn synchronise_all(
    state: &State,
    kernel: &[u64],
    shadow: &mut [u64],
    map: &mut [u16],
    exclusion: &[u8],
) -> Answer {
    all::<{ mistake::NONE }>(state, kernel, shadow, map, exclusion)
}

/// [`synchronise_one`] with the flat entry of the walk to the page as its kernel entry.
#[inline(always)]
pub fn synchronise_one_from_tree(
    state: &State,
    tree: Tree,
    shadow: &mut [u64],
    map: &mut [u16],
    exclusion: &[u8],
    page: u64,
) -> Answer {
    one_from_tree::<{ mistake::NONE }>(state, tree, shadow, map, exclusion, page)
}

/// [`synchronise_all`] with the flat entries of the walks to all pages, each walked as it is synchronised.
#[inline(always)]
pub fn synchronise_all_from_tree(
    state: &State,
    tree: Tree,
    shadow: &mut [u64],
    map: &mut [u16],
    exclusion: &[u8],
) -> Answer {
    all_from_tree::<{ mistake::NONE }>(state, tree, shadow, map, exclusion)
}

/// Synchronising without steps 2 and 4 and without the rule for a pending frame: the kernel's frame is always taken and no page joins.
/// It shows what approval costs; it asks the same questions of the same tables, and it guards nothing.
pub mod without_approval {
    use super::{all, mistake, one, Answer, State};

    #[inline(always)]
    pub fn synchronise_one(
        state: &State,
        kernel: &[u64],
        shadow: &mut [u64],
        map: &mut [u16],
        exclusion: &[u8],
        page: u64,
    ) -> Answer {
        one::<{ mistake::NO_APPROVAL }>(state, kernel, shadow, map, exclusion, page)
    }

    #[inline(always)]
    pub fn synchronise_all(
        state: &State,
        kernel: &[u64],
        shadow: &mut [u64],
        map: &mut [u16],
        exclusion: &[u8],
    ) -> Answer {
        all::<{ mistake::NO_APPROVAL }>(state, kernel, shadow, map, exclusion)
    }
}
