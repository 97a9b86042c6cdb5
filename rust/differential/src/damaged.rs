//! A list on damaged runs and tables: damaged contents pass from call to call, other damage concerns one call.
//! Among the calls are starts, on sound and on damaged records; after them records are written, pages are walked to, and calls are made
//! on tables around a pending pair.

use inputs::Random;
use reference::Mistake;

use crate::aim::{policy, sizes};
use crate::call::{Call, Lent};
use crate::compare::compare;
use crate::damage::{damage_contents, Damage};
use crate::devices::any_count;
use crate::list::List;
use crate::pending::pending_call;
use crate::plan::Plan;
use crate::sides::{by_archive, by_reference};
use crate::tally::Tally;
use crate::walked::{check_flat, walk_call};
use crate::windows::check_windows;
use crate::written::{check_written_again, write_call};

/// The records that are written after a list, the bare walks, and the calls with a pair that may be pending.
const RECORDS: u64 = 6;
const WALKS: u64 = 24;
const PENDING: u64 = 20;

pub fn run_list(plan: &Plan, seed: u64, tally: &mut Tally) -> Result<(), String> {
    let mut list = List::new(seed);
    let mut lent = list.garbage();
    by_reference(Mistake::None, &mut lent, &list.start());
    damage_contents(&mut list.random, &mut lent);
    let mut random = Random::new(seed);
    for _ in 0..plan.calls {
        if list.random.one_in(6) {
            start_call(plan.mistake, &mut list.random, tally)?;
            continue;
        }
        if list.random.one_in(20) {
            damage_contents(&mut list.random, &mut lent);
        }
        let mut damaged = lent.clone();
        let damage = Damage::random(&mut list.random, &Damage::OF_TABLES);
        damage.apply(&mut list.random, &mut damaged);
        let listed = list.next_call(&lent, &damaged.state);
        let call = Call::Listed(listed);
        let before = damaged.clone();
        let number = compare(plan.mistake, &mut damaged, &call)?;
        if number == 0 {
            check_flat(&call, &before, &damaged)?;
        }
        check_windows(&mut random, &listed, &before, (number, &damaged), by_archive)?;
        tally.count_tree(&call, number, &damaged);
        if damage == Damage::Contents {
            tally.count_transfer(&listed, number, &before);
            tally.count_approval(&listed, number, &before);
        }
        tally.count_damaged(call.kind(), number, damage)?;
        if damage == Damage::Contents {
            lent = damaged;
        }
    }
    for _ in 0..RECORDS {
        write_call(plan.mistake, &mut list.random, tally)?;
    }
    for _ in 0..WALKS {
        walk_call(plan.mistake, &mut list.random, &list.trees, tally)?;
    }
    for _ in 0..PENDING {
        pending_call(plan.mistake, &mut list.random, tally)?;
    }
    Ok(())
}

/// A start: half of them on a damaged record, half of them on damaged runs or tables, some with a number of devices out of range.
fn start_call(mistake: Mistake, random: &mut Random, tally: &mut Tally) -> Result<(), String> {
    let mut policy = policy(random);
    let [v, f, ..] = sizes(&policy);
    if random.one_in(2) {
        damage_record(random, &mut policy);
    }
    let mut lent = Lent::garbage(random, v, f);
    let damage = Damage::random(random, &Damage::OF_TABLES);
    damage.apply(random, &mut lent);
    let devices = any_count(random);
    let call = Call::Start { policy: &policy, devices };
    let with_one = Call::Start { policy: &policy, devices: 1 };
    let otherwise = by_reference(Mistake::None, &mut lent.clone(), &with_one);
    let number = compare(mistake, &mut lent, &call)?;
    if number == 0 {
        check_written_again(&policy)?;
    }
    tally.count_start(devices, number, otherwise);
    tally.count_damaged(call.kind(), number, damage)
}

/// Damages a sound record in one place or in several, so that more than one question would refuse it.
fn damage_record(random: &mut Random, policy: &mut Vec<u8>) {
    let sizes = sizes(policy);
    for _ in 0..1 + random.below(3) {
        damage_place(random, policy, sizes);
    }
}

fn damage_place(random: &mut Random, policy: &mut Vec<u8>, [v, f, n, _]: [u16; 4]) {
    let page_at = 8 + 2 * random.below(n.into()) as usize;
    let frame_at = page_at + 2 * usize::from(n);
    let page = policy.get(page_at..page_at + 2).map_or(0, |at| u16::from_le_bytes([at[0], at[1]]));
    let (at, value) = match random.below(14) {
        0 => return policy.truncate(random.below(8) as usize),
        1 => (0, random.pick(&[0, 2049, 65535])),
        2 => (2, random.pick(&[0, 4097, 65535])),
        3 => (4, random.pick(&[0, v + 1, 65535])),
        4 => (6, random.pick(&[0, n + 1, 17, 65535])),
        5 => return policy.truncate(8 + random.below(4 * u64::from(n)) as usize),
        6 => return policy.push(0),
        // A page beside the listed one is often listed too.
        7..=10 => (page_at, random.pick(&[v, 65535, page.wrapping_sub(1), page.wrapping_add(1)])),
        _ => (frame_at, random.pick(&[f, f + 1, 65535])),
    };
    // A record that was cut short may not reach so far.
    if let Some(number) = policy.get_mut(at..at + 2) {
        number.copy_from_slice(&value.to_le_bytes());
    }
}
