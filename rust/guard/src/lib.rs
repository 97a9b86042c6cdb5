//! The proved page guard as a Rust type: [`Guard`] owns its state, tables and devices, and every call is safe on every input.
//! The calls run in the archive of `crates/exports`, where each is proved to answer what documents 01 and 02 say.
//! [`Policy`] builds the policy record that a guard starts with, and [`Options`] has its devices. A kernel's page tables are lent flat, or
//! as a [`Tree`]. A driver that arrives later is asked for, inspected, and committed or dropped: [`Guard::ask`].
//!
//! ```
//! use guard::{Device, Frames, Guard, Mode, Options, Refusal, Synchronised};
//!
//! // V 4, F 4, one listed page, which is an entry page: page 1 with frame 2. One device, which may write to frame 3.
//! let policy = [4, 0, 4, 0, 1, 0, 1, 0, 1, 0, 2, 0];
//! let mut guard = Guard::start(&policy, Options::new().device(Device::new(3, 3)))?;
//! assert_eq!(guard.mode(), Mode::Kernel(1));
//!
//! // The kernel maps page 0 to the approved frame, and page 3 to frame 3.
//! let kernel = [0x2003, 0, 0, 0x3007];
//! assert_eq!(guard.synchronise_all(&kernel)?, Synchronised { changed: 3, joined: 1 });
//! assert_eq!(guard.write(0, 1), Err(Refusal::NotPermitted));
//! assert_eq!(guard.write(3 * 4096, 16)?, Frames { first: 3, last: 3 });
//! assert_eq!(guard.device_write(0, 2 * 4096, 8192), Err(Refusal::OutsideWindow));
//! # Ok::<(), Refusal>(())
//! ```
#![deny(unsafe_code)]

mod answer;
#[allow(unsafe_code)]
pub mod archive;
mod calls;
mod options;
mod policy;
mod refusal;
mod tree;

pub use archive::Device;
pub use calls::{Committed, Frames, Guard, Mode, Pending, Synchronised, ENTRY_PAGES, NO_FRAME};
pub use options::{Options, MAX_DEVICES};
pub use policy::{write_record, Policy};
pub use refusal::Refusal;
pub use tree::{Tree, Walk, MAX_DEPTH, TABLE_ENTRIES};
