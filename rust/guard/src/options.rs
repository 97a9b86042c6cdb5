//! What a guard is started with beside its policy record.
//! Nothing is asked here: what is wrong with it, the library tells.

use crate::archive::Device;

/// The most devices that a guard can have; the least is 1.
pub const MAX_DEVICES: usize = 64;

/// What a guard is started with beside its policy record: its devices. A later version has more of it, with a method each.
///
/// ```
/// use guard::{Device, Frames, Guard, Options, Policy, Refusal};
///
/// // A music card with frames 4 to 7 for its transfers, and a billing card with frame 9 alone.
/// let cards = Options::new().device(Device::new(4, 7)).device(Device::new(9, 9));
/// let policy = Policy::new(12, 16).entry_page(0, 1).record()?;
/// let mut guard = Guard::start(&policy, cards)?;
/// assert_eq!(guard.device_write(0, 0x4000, 0x4000)?, Frames { first: 4, last: 7 });
/// assert_eq!(guard.device_write(1, 0x4000, 0x4000), Err(Refusal::OutsideWindow));
///
/// // The music card's buffer moves. The billing card gets the same answers as before.
/// guard.set_window(0, 10, 13)?;
/// assert_eq!(guard.device_write(0, 0x4000, 1), Err(Refusal::OutsideWindow));
/// assert_eq!(guard.device_write(1, 0x9000, 1)?, Frames { first: 9, last: 9 });
///
/// // There is no third card, and no guard without devices.
/// assert_eq!(guard.device_write(2, 0x9000, 1), Err(Refusal::NoDevice));
/// assert_eq!(Guard::start(&policy, Options::new()), Err(Refusal::CountOutOfRange));
/// # Ok::<(), Refusal>(())
/// ```
#[derive(Clone, Debug, Default, PartialEq, Eq)]
#[must_use]
pub struct Options {
    pub(crate) devices: Vec<Device>,
}

impl Options {
    /// Without devices: a start refuses this with 3.
    pub fn new() -> Options {
        Options::default()
    }

    /// Adds a device. Its number is that of the devices added before it.
    pub fn device(mut self, device: Device) -> Options {
        self.devices.push(device);
        self
    }
}
