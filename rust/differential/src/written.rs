//! Records written from sound and from damaged parts, into buffers of any contents, beside the lists: no list has such a call.
//! Both sentences of K2 about accepted records are checked on the archive.

use guard::archive::{self, NUMBERS};
use guard::{Device, Guard, Mode, Options, NO_FRAME};
use inputs::{Parts, Random};
use reference::{vector_len, Mistake};

use crate::aim::policy;
use crate::call::{Call, Lent};
use crate::compare::compare;
use crate::damage::{resize, Damage};
use crate::tally::Tally;

/// The most bytes that a buffer has past the record.
const PAST: u64 = 20;

/// Writes a record: half of them from damaged parts, half of them on a damaged run or into a buffer that is too short.
pub fn write_call(mistake: Mistake, random: &mut Random, tally: &mut Tally) -> Result<(), String> {
    let policy = policy(random);
    let mut parts = Parts::of(&policy);
    if random.one_in(2) {
        damage_parts(random, &mut parts);
    }
    let mut lent = Lent::without_state(random, policy.len());
    let damage = Damage::random(random, &Damage::OF_BUFFERS);
    damage.apply(random, &mut lent);
    if damage == Damage::NumbersRun && random.one_in(2) {
        // Questions 7 and 16 fail together.
        Damage::Buffer.apply(random, &mut lent);
    }
    if damage == Damage::Contents && random.one_in(2) {
        let past = 1 + random.below(PAST);
        lent.buffer.extend((0..past).map(|_| random.word() as u8));
    }
    let call = Call::WriteRecord(&parts);
    let number = compare(mistake, &mut lent, &call)?;
    if number == 0 {
        let record = &lent.buffer[..lent.numbers[0] as usize];
        check_start(&parts, record)?;
        check_written_again(record)?;
    }
    tally.count_damaged(call.kind(), number, damage)
}

/// Damages sound parts in one place or in several, so that more than one question would refuse them.
fn damage_parts(random: &mut Random, parts: &mut Parts) {
    let sizes = parts.sizes;
    for _ in 0..1 + random.below(3) {
        damage_part(random, parts, sizes);
    }
}

fn damage_part(random: &mut Random, parts: &mut Parts, [v, f, n, _]: [u64; 4]) {
    let place = random.below(n) as usize;
    match random.below(16) {
        0 => parts.sizes[0] = random.pick(&[0, v - 1, 2049, u64::MAX]),
        1 => parts.sizes[1] = random.pick(&[0, f - 1, 4097, u64::MAX]),
        2 => parts.sizes[2] = random.pick(&[0, n - 1, n + 1, v + 1, u64::MAX]),
        3 => parts.sizes[3] = random.pick(&[0, n + 1, 17, u64::MAX]),
        // A size that is in range in its lower bits.
        4..=6 => parts.sizes[random.below(4) as usize] |= 1 << random.pick(&[16, 17, 31, 32, 63]),
        7 | 8 => resize(random, &mut parts.pages),
        9 => resize(random, &mut parts.frames),
        // An array that was cut short may not reach so far.
        10..=12 => {
            if let Some(page) = parts.pages.get_mut(place) {
                // A page beside the listed one is often listed too.
                *page = random.pick(&[v as u16, 65535, page.wrapping_sub(1), page.wrapping_add(1)]);
            }
        }
        _ => {
            if let Some(frame) = parts.frames.get_mut(place) {
                *frame = random.pick(&[f as u16, f as u16 + 1, 65535]);
            }
        }
    }
}

/// K2: "a written record starts a guard with those pages and frames".
fn check_start(parts: &Parts, record: &[u8]) -> Result<(), String> {
    let options = Options::new().device(Device::new(0, 0));
    let guard = Guard::start(record, options)
        .map_err(|refusal| format!("a written record is {refusal}"))?;
    let Parts { sizes: [v, f, _, e], pages, frames } = parts;
    let entry_pages: Vec<u64> = pages.iter().take(*e as usize).map(|&page| page.into()).collect();
    let mut shadow = vec![0; *v as usize];
    let mut map = vec![NO_FRAME; *v as usize];
    let mut exclusion = vec![0; vector_len(*f as u16)];
    for (&page, &frame) in pages.iter().zip(frames) {
        shadow[usize::from(page)] = u64::from(frame) << 12 | 0x401;
        map[usize::from(page)] = frame;
        exclusion[usize::from(frame / 8)] |= 1 << (frame % 8);
    }
    let is_so = (guard.pages(), guard.frames()) == (*v, *f)
        && guard.entry_pages() == entry_pages
        && guard.mode() == Mode::Kernel(entry_pages[0])
        && guard.shadow() == shadow
        && guard.map() == map
        && guard.exclusion() == exclusion;
    if is_so {
        Ok(())
    } else {
        Err(format!("a written record starts another guard: {guard:?}, {parts:?}"))
    }
}

/// K2: "an accepted record read and written again is the same bytes". No byte is there before it is written.
pub fn check_written_again(record: &[u8]) -> Result<(), String> {
    let Parts { sizes: [v, f, n, e], pages, frames } = Parts::of(record);
    let mut again: Vec<_> = record.iter().map(|byte| !byte).collect();
    let mut numbers = [u64::MAX; NUMBERS];
    let number = archive::write_record(v, f, n, e, &pages, &frames, &mut again, &mut numbers);
    if number == 0 && numbers == [record.len() as u64, 0] && again == record {
        Ok(())
    } else {
        Err(format!("an accepted record is not written again: {number} {numbers:?}, {record:?}"))
    }
}
