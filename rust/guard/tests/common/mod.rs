//! What the test files share.

use guard::{Device, Options};

/// One device, which may write to every frame.
pub fn one_device() -> Options {
    Options::new().device(Device::new(0, u16::MAX))
}
