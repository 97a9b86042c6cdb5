//! A list from an accepted start, with tables passed on: the archive, the reference, the safe guard and the one-page guards.
//! Demand 3 is checked at every call: the number, the entries, approvals and mode, the frames reached, and the counts.

use guard::archive::{MODE_USER, STATE_DEVICES, STATE_MODE};
use guard::{Device, Guard, Options};
use inputs::Random;
use reference::claim::{Call as Listed, Claim, Reaching};
use reference::AskToCommit;

use crate::call::{Call, Lent};
use crate::compare::compare;
use crate::list::{pending_of, List};
use crate::plan::Plan;
use crate::sides::{by_archive, by_guard, by_reference};
use crate::tally::Tally;
use crate::walked::check_flat;
use crate::windows::check_windows;

pub fn run_list(plan: &Plan, seed: u64, tally: &mut Tally) -> Result<(), String> {
    let mut list = List::new(seed);
    let mut lent = list.garbage();
    let start = list.start();
    let number = compare(plan.mistake, &mut lent, &start)?;
    tally.count_started(start.kind(), number)?;
    let mut guard = start_guard(&list)?;
    let mut claim = Claim::told_start(&list.policy);
    let mut sentence = AskToCommit::default();
    let mut random = Random::new(seed);
    for _ in 0..plan.calls {
        let listed = list.next_call(&lent, &lent.state);
        let call = Call::Listed(listed);
        let before = lent.clone();
        let number = compare(plan.mistake, &mut lent, &call)?;
        tally.count_started(call.kind(), number)?;
        if number == 0 {
            tally.count_entries(&listed, &before, &lent);
            check_flat(&call, &before, &lent)?;
        }
        tally.count_tree(&call, number, &lent);
        tally.count_transfer(&listed, number, &before);
        tally.count_approval_started(&listed, number, &before);
        compare_guard(&mut guard, &listed, number, &lent)?;
        check_from_ask_on(&mut sentence, &claim, &listed, number)?;
        check_claim(&mut claim, &listed, number, &before, &lent)?;
        check_windows(&mut random, &listed, &before, (number, &lent), by_archive)?;
    }
    Ok(())
}

/// The safe guard of a list; the windows of its devices come with the calls.
fn start_guard(list: &List) -> Result<Guard, String> {
    let options =
        (0..list.count).fold(Options::new(), |options, _| options.device(Device::new(1, 0)));
    Guard::start(&list.policy, options).map_err(|refusal| format!("the start is {refusal}"))
}

/// The same list on the reference alone: the one-page guards find its mistake without another guard.
pub fn run_claim(plan: &Plan, seed: u64) -> Result<(), String> {
    let mut list = List::new(seed);
    let mut lent = list.garbage();
    by_reference(plan.mistake, &mut lent, &list.start());
    let mut claim = Claim::told_start(&list.policy);
    for _ in 0..plan.calls {
        let listed = list.next_call(&lent, &lent.state);
        let before = lent.clone();
        let number = by_reference(plan.mistake, &mut lent, &Call::Listed(listed));
        check_claim(&mut claim, &listed, number, &before, &lent)?;
    }
    Ok(())
}

/// The same again, with K6's own sentence alone.
pub fn run_from_ask_on(plan: &Plan, seed: u64) -> Result<(), String> {
    let mut list = List::new(seed);
    let mut lent = list.garbage();
    by_reference(plan.mistake, &mut lent, &list.start());
    let mut claim = Claim::told_start(&list.policy);
    let mut sentence = AskToCommit::default();
    for _ in 0..plan.calls {
        let listed = list.next_call(&lent, &lent.state);
        let settled = claim.settled(&listed, &reaching(&lent));
        let number = by_reference(plan.mistake, &mut lent, &Call::Listed(listed));
        check_from_ask_on(&mut sentence, &claim, &listed, number)?;
        if settled == 0 {
            claim.tell(&listed);
        }
    }
    Ok(())
}

/// The same again, with K5's own sentence alone.
pub fn run_windows(plan: &Plan, seed: u64) -> Result<(), String> {
    let mut list = List::new(seed);
    let mut lent = list.garbage();
    let mut random = Random::new(seed);
    let side = |lent: &mut Lent, call: &Call| by_reference(plan.mistake, lent, call);
    side(&mut lent, &list.start());
    for _ in 0..plan.calls {
        let listed = list.next_call(&lent, &lent.state);
        let before = lent.clone();
        let number = side(&mut lent, &Call::Listed(listed));
        check_windows(&mut random, &listed, &before, (number, &lent), side)?;
    }
    Ok(())
}

/// The safe guard answers the same and holds the same.
fn compare_guard(
    guard: &mut Guard,
    call: &Listed,
    number: u64,
    after: &Lent,
) -> Result<(), String> {
    let answer = by_guard(guard, call);
    let wanted = (number, [after.numbers[0], after.numbers[1]]);
    let is_same = answer.is_none_or(|answer| answer == wanted)
        && guard.state()[..] == after.state
        && guard.shadow() == after.shadow
        && guard.map() == after.map
        && guard.exclusion() == after.exclusion;
    if is_same {
        Ok(())
    } else {
        Err(format!("the safe guard differs: {answer:?} after {call:?}"))
    }
}

/// What a call reads of the state that reaches it.
fn reaching(before: &Lent) -> Reaching {
    Reaching { devices: before.state[STATE_DEVICES], pending: pending_of(&before.state) }
}

/// Demand 3 at one call. The one-page guards are told of it where it is accepted.
fn check_claim(
    claim: &mut Claim,
    call: &Listed,
    number: u64,
    before: &Lent,
    after: &Lent,
) -> Result<(), String> {
    let settled = claim.settled(call, &reaching(before));
    let numbers = (after.numbers[0], after.numbers[1]);
    let holds = if settled == 0 {
        claim.is_safe(call, numbers) && counts_fit(call, before, after)
    } else {
        tables_are_same(before, after) && before.state == after.state && numbers == (0, 0)
    };
    if settled == 0 {
        claim.tell(call);
    }
    let is_user = after.state[STATE_MODE] == MODE_USER;
    if holds && number == settled.into() && claim.agrees(&after.shadow, &after.map, is_user) {
        return Ok(());
    }
    Err(format!("demand 3 fails: settled as {settled}, answered {number} {numbers:?}, {call:?}"))
}

fn tables_are_same(before: &Lent, after: &Lent) -> bool {
    before.shadow == after.shadow && before.map == after.map && before.exclusion == after.exclusion
}

/// K6's own sentence at one call of a list, by what the guard allowed and the frames that the one-page guards have before it: "No write
/// or transfer allowed from its ask onward covers a byte of a committed frame".
fn check_from_ask_on(
    sentence: &mut AskToCommit,
    claim: &Claim,
    call: &Listed,
    number: u64,
) -> Result<(), String> {
    if number != 0 {
        return Ok(());
    }
    let holds = match *call {
        Listed::Ask { frame, .. } => {
            sentence.told_asked(frame);
            true
        }
        Listed::Commit => sentence.told_committed(),
        Listed::Drop => {
            sentence.told_dropped();
            true
        }
        _ => claim.covered(call).into_iter().all(|frames| sentence.told_covered(frames)),
    };
    if holds {
        return Ok(());
    }
    Err(format!("a committed frame was covered after its ask, {call:?}"))
}

/// The counts of a synchronisation, of a switch and of a commit are those of the places that differ; an access changes none, and an ask
/// and a drop change the exclusion vector alone.
fn counts_fit(call: &Listed, before: &Lent, after: &Lent) -> bool {
    match call {
        Listed::Fetch { .. } | Listed::Write { .. } | Listed::DeviceWrite { .. } => {
            tables_are_same(before, after)
        }
        Listed::Ask { .. } | Listed::Drop => {
            let tables_are_same = before.shadow == after.shadow && before.map == after.map;
            after.numbers == [0, 0] && tables_are_same
        }
        _ => {
            let changed = differing(&before.shadow, &after.shadow);
            let joined = differing(&before.map, &after.map);
            after.numbers == [changed, joined] && before.exclusion == after.exclusion
        }
    }
}

fn differing<T: PartialEq>(before: &[T], after: &[T]) -> u64 {
    before.iter().zip(after).filter(|(old, new)| old != new).count() as u64
}
