//! Lists of devices (K5): windows of every kind, of which a call is brought as many as its state has devices, or another number.
//! The windows are the list's own and are edited before every call.

use inputs::Random;
use reference::Device;

/// The most devices of a guard.
pub const MOST: u64 = 64;
/// Some to spare, so that a call can be brought too many.
const ROOM: usize = 70;

pub struct Devices(Vec<Device>);

impl Devices {
    pub fn new(random: &mut Random, frames: u64) -> Devices {
        Devices((0..ROOM).map(|_| window(random, frames)).collect())
    }

    /// Draws some windows anew, or now and then all.
    pub fn edit(&mut self, random: &mut Random, frames: u64) {
        if random.one_in(10) {
            *self = Devices::new(random, frames);
        }
        for _ in 0..random.below(3) {
            let place = random.below(ROOM as u64) as usize;
            self.0[place] = window(random, frames);
        }
    }

    /// The list that a call is brought, by the number of devices in the state that reaches it; that number may be any.
    pub fn lent(&self, random: &mut Random, count: u64) -> &[Device] {
        // A number too wide is met by a list of the length that its lower bits say.
        let count = (count % (1 << 16)).min(ROOM as u64 - 1) as usize;
        let length = match random.below(20) {
            0 => count.saturating_sub(1),
            1 => count + 1,
            2 => random.pick(&[0, count / 2, 2 * count, ROOM]),
            _ => count,
        };
        &self.0[..length.min(ROOM)]
    }
}

/// A number of devices in its range: often the fewest or the most.
pub fn count(random: &mut Random) -> u64 {
    let any = 1 + random.below(MOST);
    random.pick(&[1, 2, MOST, any])
}

/// A number of devices that may be any.
pub fn any_count(random: &mut Random) -> u64 {
    match random.below(10) {
        0 => 0,
        1 => MOST + 1,
        2 => MOST + 1 + random.below(1 << 16),
        // In range in its lower bits.
        3 => count(random) + (1 << random.pick(&[16, 17, 32, 63])),
        4 => random.word() | 1 << random.pick(&[16, 32, 63]),
        5 => random.pick(&[65535, 65536, 1 << 32, u64::MAX]),
        _ => count(random),
    }
}

/// A window: all frames, one, some or none, at any place and also beyond the last frame.
pub fn window(random: &mut Random, frames: u64) -> Device {
    let frame = |random: &mut Random| random.below(frames) as u16;
    let (one, other) = (frame(random), frame(random));
    let (first, last) = match random.below(16) {
        0..3 => (0, frames as u16 - 1),
        3 => (0, u16::MAX),
        4 | 5 => (one, one),
        6 => (one + 1, one),
        7 => (random.pick(&[u16::MAX, frames as u16, one + 2]), other.min(one)),
        8..14 => (one.min(other), one.max(other)),
        14 => (one, frames as u16 + other),
        _ => (random.word() as u16, random.word() as u16),
    };
    Device { first, last }
}
