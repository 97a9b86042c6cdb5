//! The page guard of document 01, with the requests of document 02, in plain Rust: a baseline for speed and the other side of differential tests.
//! Tables are lent slices, a refused call changes nothing, and no guard call allocates.
#![forbid(unsafe_code)]

mod access;
mod approval;
pub mod boundary;
pub mod claim;
mod device;
mod device_mistake;
mod drill;
mod entry;
mod mistake;
pub mod mistaken;
mod page_guard;
pub mod path;
mod pending_mistake;
mod planted;
mod record;
mod share;
mod start;
mod state;
mod switch;
mod sync;
mod terms;
mod tree;

pub use access::{device_write, fetch, write};
pub use approval::{ask, commit, drop};
pub use device::Device;
pub use drill::{drill, drill_with_mistake};
pub use entry::NO_FRAME;
pub use mistake::Mistake;
pub use record::write_record;
pub use share::share;
pub use start::start;
pub use state::{vector_len, Answer, Mode, Pair, Refusal, State};
pub use switch::{enter, leave};
pub use sync::{
    synchronise_all, synchronise_all_from_tree, synchronise_one, synchronise_one_from_tree,
    without_approval,
};
pub use terms::AskToCommit;
pub use tree::{walk, Tree};
