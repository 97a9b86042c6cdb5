//! K5's own sentence about device writes, checked on whoever answers them: "Changing one device's window changes no answer given to
//! another." Every device write of a list is made again with the window of another device changed.

use inputs::Random;
use reference::claim::Call as Listed;
use reference::Device;

use crate::call::{Call, Lent};

/// The windows that another device gets: every frame, and none.
const OTHERS: [Device; 2] =
    [Device { first: 0, last: u16::MAX }, Device { first: u16::MAX, last: 0 }];

/// The call again by the same side, where the list has another device: the number and all that is lent are as after the first time.
pub fn check_windows(
    random: &mut Random,
    call: &Listed,
    before: &Lent,
    (number, after): (u64, &Lent),
    side: impl Fn(&mut Lent, &Call) -> u64,
) -> Result<(), String> {
    let Listed::DeviceWrite { devices, device, address, length } = *call else {
        return Ok(());
    };
    let others: Vec<_> = (0..devices.len()).filter(|&place| place as u64 != device).collect();
    if others.is_empty() {
        return Ok(());
    }
    let other = random.pick(&others);
    let mut changed = devices.to_vec();
    changed[other] = random.pick(&OTHERS);
    let mut lent = before.clone();
    let again = Listed::DeviceWrite { devices: &changed, device, address, length };
    let answered = side(&mut lent, &Call::Listed(again));
    if answered == number && lent == *after {
        return Ok(());
    }
    Err(format!(
        "the window {:?} of device {other} changes {number} {:?} to {answered} {:?}, {call:?}",
        changed[other], after.numbers, lent.numbers
    ))
}
