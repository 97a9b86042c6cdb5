//! Asks, commits, drops and synchronisations with one of the mistakes of K6 in them, and state runs read with one.
//! They are written apart from the plain calls, without regard to speed; without such a mistake both answer the same.

use crate::claim::Call;
use crate::entry::{
    approved, frame_of, framed, is_excluded, ordinary, APPROVED, CACHE_BITS, KERNEL_NO_EXECUTE,
    NO_EXECUTE, NO_FRAME, PRESENT, RESERVED, USER, WRITABLE,
};
use crate::mistake::{self, Mistake};
use crate::state::{vector_len, Answer, Pair, Refusal, State};
use crate::tree::Tree;

/// Words of a state run.
const PAGES: usize = 0;
const FRAMES: usize = 1;
const PENDING: usize = 22;
const PENDING_PAGE: usize = 23;
const PENDING_FRAME: usize = 24;
const STATE_WORDS: usize = 25;

/// The tables that a synchronisation is lent beside the kernel's.
struct Tables<'a> {
    shadow: &'a mut [u64],
    map: &'a mut [u16],
    exclusion: &'a [u8],
}

impl Tables<'_> {
    fn fit(&self, state: &State) -> Result<(), Refusal> {
        let v = usize::from(state.v);
        let fit = state.is_sound()
            && (self.shadow.len(), self.map.len()) == (v, v)
            && self.exclusion.len() == vector_len(state.f);
        fit.then_some(()).ok_or(Refusal::StateOrTable)
    }

    /// Synchronises these pages by their kernel entries.
    fn synchronise(
        &mut self,
        mistake: Mistake,
        state: &State,
        pages: impl Iterator<Item = u16>,
        entry_of: impl Fn(u16) -> u64,
    ) -> (u64, u64) {
        let (mut changed, mut joined) = (0, 0);
        for page in pages {
            let place = usize::from(page);
            let number = self.map[place];
            let (entry, left) = step(mistake, state, self.exclusion, page, entry_of(page), number);
            changed += u64::from(self.shadow[place] != entry);
            joined += u64::from(left != number);
            (self.shadow[place], self.map[place]) = (entry, left);
        }
        (changed, joined)
    }
}

pub(crate) fn one(
    mistake: Mistake,
    state: &State,
    kernel: &[u64],
    shadow: &mut [u64],
    map: &mut [u16],
    exclusion: &[u8],
    page: u64,
) -> Answer {
    let mut tables = Tables { shadow, map, exclusion };
    tables.fit(state)?;
    if kernel.len() != usize::from(state.v) {
        return Err(Refusal::StateOrTable);
    }
    let page = ask_page(state, page)?;
    let state = &without_pair(state, mistake == Mistake::PendingNotOfOne);
    Ok(tables.synchronise(mistake, state, page..=page, |page| kernel[usize::from(page)]))
}

pub(crate) fn all(
    mistake: Mistake,
    state: &State,
    kernel: &[u64],
    shadow: &mut [u64],
    map: &mut [u16],
    exclusion: &[u8],
) -> Answer {
    let mut tables = Tables { shadow, map, exclusion };
    tables.fit(state)?;
    if kernel.len() != usize::from(state.v) {
        return Err(Refusal::StateOrTable);
    }
    let state = &without_pair(state, mistake == Mistake::PendingNotOfAll);
    Ok(tables.synchronise(mistake, state, 0..state.v, |page| kernel[usize::from(page)]))
}

pub(crate) fn one_from_tree(
    mistake: Mistake,
    state: &State,
    tree: Tree,
    shadow: &mut [u64],
    map: &mut [u16],
    exclusion: &[u8],
    page: u64,
) -> Answer {
    let mut tables = Tables { shadow, map, exclusion };
    tables.fit(state)?;
    let tree = tree.whole()?;
    let page = ask_page(state, page)?;
    let of_one = matches!(mistake, Mistake::PendingNotOfOne | Mistake::PendingNotOfTrees);
    let state = &without_pair(state, of_one);
    let entry_of = |page: u16| tree.walk::<{ mistake::NONE }>(page.into()).entry;
    Ok(tables.synchronise(mistake, state, page..=page, entry_of))
}

pub(crate) fn all_from_tree(
    mistake: Mistake,
    state: &State,
    tree: Tree,
    shadow: &mut [u64],
    map: &mut [u16],
    exclusion: &[u8],
) -> Answer {
    let mut tables = Tables { shadow, map, exclusion };
    tables.fit(state)?;
    let tree = tree.whole()?;
    let of_all = matches!(mistake, Mistake::PendingNotOfAll | Mistake::PendingNotOfTrees);
    let state = &without_pair(state, of_all);
    let entry_of = |page: u16| tree.walk::<{ mistake::NONE }>(page.into()).entry;
    Ok(tables.synchronise(mistake, state, 0..state.v, entry_of))
}

/// Question 9 of a page.
fn ask_page(state: &State, page: u64) -> Result<u16, Refusal> {
    let page = u16::try_from(page).ok().filter(|&page| page < state.v);
    page.ok_or(Refusal::DoesNotExist)
}

/// The state with nothing pending, where that is the mistake.
fn without_pair(state: &State, is_so: bool) -> State {
    State { pending: state.pending.filter(|_| !is_so), ..*state }
}

/// The shadow entry of a page by its kernel entry and its number in the map, and the number after it.
fn step(
    mistake: Mistake,
    state: &State,
    exclusion: &[u8],
    page: u16,
    kernel: u64,
    number: u16,
) -> (u64, u16) {
    if kernel & (PRESENT | RESERVED) != PRESENT {
        return (0, number);
    }
    let frame = frame_of(kernel);
    let is_pending = state.pending.is_some_and(|pair| match mistake {
        Mistake::PendingFrameCut => frame as u16 == pair.frame,
        Mistake::PendingOfTheAskedPage => frame == u64::from(pair.frame) && page == pair.page,
        Mistake::PendingWhateverTheFrame => page == pair.page,
        Mistake::PendingIfExcluded => {
            frame == u64::from(pair.frame) && is_excluded(exclusion, pair.frame.into())
        }
        _ => frame == u64::from(pair.frame),
    });
    let restricted = (restricted(mistake, state, kernel), number);
    if is_pending && mistake == Mistake::PendingBeforeStep2 {
        return restricted;
    }
    if number != NO_FRAME {
        return (approved_in(state, number), number);
    }
    if is_pending && mistake == Mistake::PendingFrameCut {
        return restricted;
    }
    if frame >= state.f.into() {
        return (0, number);
    }
    if is_pending && mistake == Mistake::PendingJoins {
        return (restricted.0, frame as u16);
    }
    if is_pending && mistake != Mistake::PendingAfterStep4 {
        return restricted;
    }
    if is_excluded(exclusion, frame) {
        return (approved_in(state, frame as u16), frame as u16);
    }
    if is_pending {
        return restricted;
    }
    (ordinary_in(state, kernel), number)
}

/// The entry of a page with the pending frame.
fn restricted(mistake: Mistake, state: &State, kernel: u64) -> u64 {
    let closed = kernel & !WRITABLE | NO_EXECUTE;
    match mistake {
        Mistake::PendingNotMapped => 0,
        Mistake::PendingWritable => ordinary_in(state, kernel | NO_EXECUTE),
        Mistake::PendingWithoutBit9 => ordinary_in(state, kernel & !WRITABLE),
        Mistake::PendingRunsInUserMode => {
            ordinary_in(state, kernel & !WRITABLE) | KERNEL_NO_EXECUTE
        }
        Mistake::PendingWithoutUser => ordinary_in(state, closed & !USER),
        Mistake::PendingWithoutCacheBits => ordinary_in(state, closed & !CACHE_BITS),
        _ => ordinary_in(state, closed),
    }
}

fn approved_in(state: &State, frame: u16) -> u64 {
    if state.mode.is_user() {
        approved::<true>(framed(frame))
    } else {
        approved::<false>(framed(frame))
    }
}

fn ordinary_in(state: &State, kernel: u64) -> u64 {
    if state.mode.is_user() {
        ordinary::<true>(kernel)
    } else {
        ordinary::<false>(kernel)
    }
}

/// The first no of a list of questions.
fn first_no(questions: &[(Refusal, bool)]) -> Result<(), Refusal> {
    let no = questions.iter().find(|(_, is_yes)| !is_yes);
    no.map_or(Ok(()), |&(refusal, _)| Err(refusal))
}

pub(crate) fn ask(
    mistake: Mistake,
    state: &mut State,
    shadow: &mut [u64],
    map: &[u16],
    exclusion: &mut [u8],
    page: u64,
    frame: u64,
) -> Answer {
    let cut = |number: u64, by: Mistake| if mistake == by { number & 0xffff } else { number };
    let (page, frame) = (cut(page, Mistake::CutPage), cut(frame, Mistake::CutFrame));
    let v = usize::from(state.v);
    let tables_fit = (shadow.len(), map.len(), exclusion.len()) == (v, v, vector_len(state.f));
    let page_exists = page < u64::from(state.v) || mistake == Mistake::AskAnyPage;
    let frame_exists = frame < u64::from(state.f) || mistake == Mistake::AskAnyFrame;
    // A page or a frame that does not exist has no place in a table.
    let place = usize::try_from(page).ok().filter(|&page| page < v.min(map.len()));
    let is_approved = place.is_some_and(|place| match mistake {
        Mistake::AskApprovedPage => false,
        Mistake::AskByMark => shadow.get(place).is_some_and(|entry| entry & APPROVED != 0),
        _ => map[place] != NO_FRAME,
    });
    let byte = usize::try_from(frame / 8).ok().filter(|&byte| byte < exclusion.len());
    let is_excluded = byte.is_some_and(|byte| exclusion[byte] >> (frame % 8) & 1 == 1);
    let conflicts = [
        state.pending.is_some() && mistake != Mistake::AskWhilePending,
        is_approved,
        is_excluded && mistake != Mistake::AskExcludedFrame,
    ];
    let mut pages = (0..).zip(shadow.iter().zip(map));
    let is_writable =
        pages.any(|(at, (&entry, &of))| is_mapped_writable(mistake, page == at, entry, of, frame));
    let mut questions = [
        (Refusal::StateOrTable, state.is_sound() && tables_fit),
        (Refusal::DoesNotExist, page_exists && frame_exists),
        (Refusal::ApprovalConflict, conflicts == [false; 3]),
        (Refusal::MappedWritable, !is_writable),
        (Refusal::WrongMode, mode_suits(mistake, state)),
    ];
    match mistake {
        Mistake::ConflictBeforeExists => questions.swap(1, 2),
        Mistake::WritableBeforeConflict => questions.swap(2, 3),
        _ => {}
    }
    first_no(&questions)?;
    if let Some(byte) = byte.filter(|_| mistake != Mistake::AskDoesNotExclude) {
        exclusion[byte] |= 1 << (frame % 8);
    }
    if mistake == Mistake::AskClosesEntries {
        let of_frame = |entry: &&mut u64| **entry & PRESENT != 0 && frame_of(**entry) == frame;
        shadow.iter_mut().filter(of_frame).for_each(|entry| *entry |= KERNEL_NO_EXECUTE);
    }
    state.pending = Some(Pair { page: page as u16, frame: frame as u16 });
    Ok((0, u64::from(mistake == Mistake::AskCountsThePage)))
}

/// Whether the mode suits, about which no such call asks.
fn mode_suits(mistake: Mistake, state: &State) -> bool {
    mistake != Mistake::InKernelModeAlone || !state.mode.is_user()
}

/// Whether an entry has a frame, or by a mistake one with the same lower 16 bits.
fn has_frame(entry: u64, frame: u64, is_cut: bool) -> bool {
    let found = frame_of(entry);
    found == frame || is_cut && found & 0xffff == frame
}

/// Question 21 of an entry with its page's number in the map.
fn is_mapped_writable(
    mistake: Mistake,
    is_asked: bool,
    entry: u64,
    number: u16,
    frame: u64,
) -> bool {
    let is_present = entry & PRESENT != 0 || mistake == Mistake::WritableIfNotPresent;
    let is_asked_of = match mistake {
        Mistake::WritableNotAsked => false,
        Mistake::WritableOfTheAskedPage => is_asked,
        Mistake::WritableIfNotApproved => number == NO_FRAME,
        Mistake::WritableIfNotMarked => entry & APPROVED == 0,
        _ => true,
    };
    let has_frame = has_frame(entry, frame, mistake == Mistake::WritableFrameCut);
    is_asked_of && is_present && entry & WRITABLE != 0 && has_frame
}

pub(crate) fn commit(
    mistake: Mistake,
    state: &mut State,
    shadow: &mut [u64],
    map: &mut [u16],
) -> Answer {
    let v = usize::from(state.v);
    if !state.is_sound() || (shadow.len(), map.len()) != (v, v) {
        return Err(Refusal::StateOrTable);
    }
    let Some(Pair { page: asked, frame }) = state.pending else {
        let is_accepted = mistake == Mistake::CommitOfNothing;
        return is_accepted.then_some((0, 0)).ok_or(Refusal::NothingPending);
    };
    let place = usize::from(asked);
    let is_approved = match mistake {
        Mistake::CommitApprovedPage => false,
        Mistake::CommitByMark => shadow[place] & APPROVED != 0,
        _ => map[place] != NO_FRAME,
    };
    if is_approved {
        return Err(Refusal::ApprovalConflict);
    }
    if !mode_suits(mistake, state) {
        return Err(Refusal::WrongMode);
    }
    let (mut changed, mut joined) = (0, 0);
    for (page, (entry, number)) in (0..).zip(shadow.iter_mut().zip(map)) {
        if !takes(mistake, page == asked, *entry, *number, frame) {
            continue;
        }
        let approved = approved_at_commit(mistake, state, frame, *entry);
        changed += u64::from(*entry != approved || mistake == Mistake::JoinedAsChanged);
        joined += u64::from(page != asked || mistake != Mistake::JoinedWithoutTheAsked);
        if mistake != Mistake::CommitMapAlone {
            *entry = approved;
        }
        if mistake != Mistake::CommitShadowAlone {
            *number = frame;
        }
    }
    state.pending = state.pending.filter(|_| mistake == Mistake::CommitLeavesPair);
    Ok((changed, joined))
}

/// Whether a commit approves a page, by its entry and its number in the map.
fn takes(mistake: Mistake, is_asked: bool, entry: u64, number: u16, frame: u16) -> bool {
    let is_present = entry & PRESENT != 0;
    let has_frame = has_frame(entry, frame.into(), mistake == Mistake::CommitFrameCut);
    if is_asked {
        return match mistake {
            Mistake::CommitSkipsAbsentPage => is_present,
            Mistake::CommitSkipsOtherFrame => !is_present || has_frame,
            _ => true,
        };
    }
    has_frame
        && (is_present || mistake == Mistake::CommitTakesAbsent)
        && (number == NO_FRAME || mistake == Mistake::CommitTakesApproved)
        && mistake != Mistake::CommitSkipsAliases
}

fn approved_at_commit(mistake: Mistake, state: &State, frame: u16, found: u64) -> u64 {
    match mistake {
        Mistake::CommitInKernelMode => approved::<false>(framed(frame)),
        Mistake::CommitKeepsBits => approved_in(state, frame) | found & (USER | CACHE_BITS),
        _ => approved_in(state, frame),
    }
}

pub(crate) fn drop(mistake: Mistake, state: &mut State, exclusion: &mut [u8]) -> Answer {
    if !state.is_sound() || exclusion.len() != vector_len(state.f) {
        return Err(Refusal::StateOrTable);
    }
    let Some(Pair { frame, .. }) = state.pending else {
        let is_accepted = mistake == Mistake::DropOfNothing;
        return is_accepted.then_some((0, 0)).ok_or(Refusal::NothingPending);
    };
    if !mode_suits(mistake, state) {
        return Err(Refusal::WrongMode);
    }
    let cleared = if mistake == Mistake::DropClearsNext { (frame + 1) % state.f } else { frame };
    let byte = &mut exclusion[usize::from(cleared / 8)];
    match mistake {
        Mistake::DropLeavesBit => {}
        Mistake::DropClearsByte => *byte = 0,
        _ => *byte &= !(1 << (cleared % 8)),
    }
    state.pending = state.pending.filter(|_| mistake == Mistake::DropLeavesPair);
    Ok((0, 0))
}

/// A start on a run.
pub(crate) fn starting(
    mistake: Mistake,
    run: &mut [u64],
    made: impl FnOnce(&mut [u64]) -> u64,
) -> u64 {
    let found = run.get(PENDING..STATE_WORDS).map(<[u64]>::to_vec);
    let number = made(run);
    if let (Some(found), Mistake::StartLeavesPair) = (found, mistake) {
        run[PENDING..STATE_WORDS].copy_from_slice(&found);
    }
    number
}

/// A call on a run: it finds the words of the pair as the mistake has them read, and of what it wrote the mistake keeps its part back.
pub(crate) fn on_run(
    mistake: Mistake,
    call: &Call,
    run: &mut [u64],
    made: impl FnOnce(&mut [u64]) -> u64,
) -> u64 {
    let Ok(found) = <[u64; STATE_WORDS]>::try_from(&*run) else { return made(run) };
    let read = read_with(mistake, call, found);
    let mut left = read;
    let number = made(&mut left);
    for (word, (before, after)) in run.iter_mut().zip(read.into_iter().zip(left)) {
        if before != after {
            *word = after;
        }
    }
    if number == 0 {
        keep_back(mistake, call, &found, run);
    }
    number
}

/// The words of a run as a mistake has them read.
fn read_with(mistake: Mistake, call: &Call, found: [u64; STATE_WORDS]) -> [u64; STATE_WORDS] {
    let mut read = found;
    let (v, f) = (found[PAGES], found[FRAMES]);
    let out_of_range = found[PENDING_PAGE] >= v || found[PENDING_FRAME] >= f;
    match (mistake, found[PENDING]) {
        (Mistake::CutPairWords, 1) => {
            read[PENDING_PAGE] &= 0xffff;
            read[PENDING_FRAME] &= 0xffff;
        }
        (Mistake::PendingPageV, 1) if found[PENDING_PAGE] == v => {
            read[PENDING_PAGE] = v.saturating_sub(1);
        }
        (Mistake::PendingFrameF, 1) if found[PENDING_FRAME] == f => {
            read[PENDING_FRAME] = f.saturating_sub(1);
        }
        (Mistake::PairReadWhereNone, 0) if out_of_range => read[PENDING] = 1,
        (Mistake::PendingWordIsAny, 2..) => read[PENDING] = 1,
        (Mistake::PendingWordIsOne, 2..) => read[PENDING] = 0,
        // A pair that is not asked about is none to a call that does not concern it, and any to one that does.
        (_, 1) if out_of_range && is_not_asked(mistake, call) => {
            let concerns = matches!(call, Call::Ask { .. } | Call::Commit | Call::Drop);
            read[PENDING..].copy_from_slice(&[concerns.into(), 0, 0]);
        }
        _ => {}
    }
    read
}

/// Whether a call does not ask for the pair, by the mistake.
fn is_not_asked(mistake: Mistake, call: &Call) -> bool {
    let by_this_call = match call {
        Call::SynchroniseOne { .. } => Mistake::PairNotAskedToSynchroniseOne,
        Call::SynchroniseAll { .. } => Mistake::PairNotAskedToSynchroniseAll,
        Call::Fetch { .. } => Mistake::PairNotAskedToFetch,
        Call::Write { .. } => Mistake::PairNotAskedToWrite,
        Call::Enter { .. } => Mistake::PairNotAskedToEnter,
        Call::Leave { .. } => Mistake::PairNotAskedToLeave,
        Call::DeviceWrite { .. } => Mistake::PairNotAskedOfDevices,
        Call::SynchroniseOneFromTree { .. } => Mistake::PairNotAskedOfOneFromTree,
        Call::SynchroniseAllFromTree { .. } => Mistake::PairNotAskedOfAllFromTree,
        Call::Ask { .. } => Mistake::PairNotAskedToAsk,
        Call::Commit => Mistake::PairNotAskedToCommit,
        Call::Drop => Mistake::PairNotAskedToDrop,
    };
    mistake == Mistake::PairNotAsked || mistake == by_this_call
}

/// What an accepted call writes of the pair's words, by the mistake.
fn keep_back(mistake: Mistake, call: &Call, found: &[u64; STATE_WORDS], run: &mut [u64]) {
    let pair = PENDING_PAGE..STATE_WORDS;
    match (mistake, call) {
        (Mistake::CommitLeavesWords, Call::Commit) | (Mistake::DropLeavesWords, Call::Drop) => {
            run[pair.clone()].copy_from_slice(&found[pair]);
        }
        (
            Mistake::OthersWritePair,
            Call::Fetch { .. } | Call::Enter { .. } | Call::Leave { .. },
        ) if found[PENDING] == 0 => {
            run[pair].fill(0);
        }
        _ => {}
    }
}
