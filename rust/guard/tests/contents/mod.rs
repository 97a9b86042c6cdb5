//! What a guard holds, copied for a comparison later: a guard itself is not cloned, and nothing here can be put back.

use guard::archive::STATE_WORDS;
use guard::{Device, Guard};

#[derive(Debug, PartialEq, Eq)]
pub struct Contents {
    pub state: [u64; STATE_WORDS],
    pub shadow: Vec<u64>,
    pub map: Vec<u16>,
    pub exclusion: Vec<u8>,
    pub devices: Vec<Device>,
}

pub fn contents(guard: &Guard) -> Contents {
    Contents {
        state: *guard.state(),
        shadow: guard.shadow().to_vec(),
        map: guard.map().to_vec(),
        exclusion: guard.exclusion().to_vec(),
        devices: guard.devices().to_vec(),
    }
}
