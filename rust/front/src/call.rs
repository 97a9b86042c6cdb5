//! The calls of a script, and the 16 bytes that the drill reads of each.
//! Numbers have the widths of the drill's fields, but for an ask, which the drill has not: as the library's they have 64 bits.

use crate::words::{field16, field64, Field, Words, PAGE};
use crate::LineError;

pub(crate) const INDEX: Field = field16("index");
pub(crate) const LENGTH: Field = Field { name: "length", largest: u32::MAX as u64 };
const DEVICE: Field = field16("device");
const ADDRESS: Field = field64("address");
const ENTRY: Field = field64("entry");
const ASKED_PAGE: Field = field64("page");
const ASKED_FRAME: Field = field64("frame");

/// A call of a script, with its numbers as they were read.
#[derive(Clone, Copy, Debug, PartialEq, Eq)]
pub enum Call {
    /// The kernel writes an entry of its own table.
    Edit {
        page: u16,
        entry: u64,
    },
    SynchronisePage {
        page: u16,
    },
    SynchroniseAll,
    Fetch {
        page: u16,
    },
    Write {
        address: u64,
        length: u32,
    },
    Enter {
        index: u16,
    },
    Leave {
        page: u16,
    },
    DeviceWrite {
        device: u16,
        address: u64,
        length: u32,
    },
    Ask {
        page: u64,
        frame: u64,
    },
    Commit,
    Drop,
}

impl Call {
    /// Reads the words after a call's name; none where the name is no call's.
    pub(crate) fn read(name: &str, words: &mut Words) -> Result<Option<Call>, LineError> {
        Ok(Some(match name {
            "edit" => {
                let page = words.named16("page", PAGE)?;
                Call::Edit { page, entry: words.named("entry", ENTRY)? }
            }
            "synchronise" if words.has_name("all") => Call::SynchroniseAll,
            "synchronise" => Call::SynchronisePage { page: words.named16("page", PAGE)? },
            "fetch" => Call::Fetch { page: words.named16("page", PAGE)? },
            "write" => {
                let (address, length) = read_access(words)?;
                Call::Write { address, length }
            }
            "enter" => Call::Enter { index: words.named16("index", INDEX)? },
            "leave" => Call::Leave { page: words.named16("page", PAGE)? },
            "device-write" => {
                let named = words.has_name("device");
                let device = if named { words.number(DEVICE)? as u16 } else { 0 };
                let (address, length) = read_access(words)?;
                Call::DeviceWrite { device, address, length }
            }
            "ask" => {
                let page = words.named("page", ASKED_PAGE)?;
                Call::Ask { page, frame: words.named("frame", ASKED_FRAME)? }
            }
            "commit" => Call::Commit,
            "drop" => Call::Drop,
            _ => return Ok(None),
        }))
    }

    /// The 16 bytes of a call that the drill makes.
    pub(crate) fn bytes(self) -> Option<[u8; 16]> {
        Some(match self {
            Call::Edit { page, entry } => bytes_of(0, page, 0, entry),
            Call::SynchronisePage { page } => bytes_of(1, page, 0, 0),
            Call::SynchroniseAll => bytes_of(2, 0, 0, 0),
            Call::Fetch { page } => bytes_of(3, page, 0, 0),
            Call::Write { address, length } => bytes_of(4, 0, length, address),
            Call::Enter { index } => bytes_of(5, index, 0, 0),
            Call::Leave { page } => bytes_of(6, page, 0, 0),
            Call::DeviceWrite { device, address, length } => bytes_of(7, device, length, address),
            Call::Ask { .. } | Call::Commit | Call::Drop => return None,
        })
    }
}

fn read_access(words: &mut Words) -> Result<(u64, u32), LineError> {
    let address = words.named("address", ADDRESS)?;
    Ok((address, words.named("length", LENGTH)? as u32))
}

/// The 16 bytes of a call.
pub(crate) fn bytes_of(kind: u8, index: u16, length: u32, value: u64) -> [u8; 16] {
    let mut bytes = [0; 16];
    bytes[0] = kind;
    bytes[2..4].copy_from_slice(&index.to_le_bytes());
    bytes[4..8].copy_from_slice(&length.to_le_bytes());
    bytes[8..].copy_from_slice(&value.to_le_bytes());
    bytes
}
