//! Devices (K5): a list of them, with a window of frames each, is brought to every device write.
//! The guard keeps their number alone.

/// A device by its window.
#[derive(Clone, Copy, Debug, PartialEq, Eq)]
pub struct Device {
    /// The first frame that it may write to.
    pub first: u16,
    /// The last one. Where the first is above it, there is none.
    pub last: u16,
}
