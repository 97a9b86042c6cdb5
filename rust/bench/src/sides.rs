//! What the sides hold: a state run or a state, and tables of their own.
//! All are started by the same policy and synchronised from the same kernel table.

use guard::archive::{
    self, NUMBERS, STATE_DEVICES, STATE_MODE, STATE_PENDING, STATE_RUNNING, STATE_WORDS,
};
use reference::{vector_len, Answer, Pair, State};

use crate::tables::Tables;

/// A side with a state run: the archive, and the reference behind its boundary.
#[derive(Clone)]
pub struct RunSide {
    pub state: [u64; STATE_WORDS],
    pub numbers: [u64; NUMBERS],
    pub shadow: Vec<u64>,
    pub map: Vec<u16>,
    pub exclusion: Vec<u8>,
}

/// A side with a state: the reference, and the reference without approval.
#[derive(Clone)]
pub struct PlainSide {
    pub state: State,
    pub shadow: Vec<u64>,
    pub map: Vec<u16>,
    pub exclusion: Vec<u8>,
}

/// How a synchronisation of all pages is called.
type SyncAll = fn(&State, &[u64], &mut [u64], &mut [u16], &[u8]) -> Answer;

impl RunSide {
    pub fn started(tables: &Tables, in_user: bool) -> RunSide {
        let v = usize::from(tables.v);
        let mut side = RunSide {
            state: [0; STATE_WORDS],
            numbers: [0; NUMBERS],
            shadow: vec![0; v],
            map: vec![0; v],
            exclusion: vec![0; vector_len(2 * tables.v)],
        };
        let RunSide { state, numbers, shadow, map, exclusion } = &mut side;
        let (policy, devices) = (&tables.policy, tables.devices.into());
        let started = archive::start(policy, devices, state, shadow, map, exclusion, numbers);
        let asked = tables.asked.map_or(0, |Pair { page, frame }| {
            archive::ask(state, shadow, map, exclusion, page.into(), frame.into(), numbers)
        });
        let synchronised =
            archive::sync_all(state, &tables.kernels[1], shadow, map, exclusion, numbers);
        let last = u64::from(tables.v) - 1;
        let left = if in_user { archive::leave(state, shadow, last, numbers) } else { 0 };
        assert_eq!([started, asked, synchronised, left], [0; 4], "the archive refuses to begin");
        side
    }
}

impl PlainSide {
    pub fn started(tables: &Tables, in_user: bool, synchronise: SyncAll) -> PlainSide {
        let v = usize::from(tables.v);
        let (mut shadow, mut map) = (vec![0; v], vec![0; v]);
        let mut exclusion = vec![0; vector_len(2 * tables.v)];
        let (policy, devices) = (&tables.policy, tables.devices.into());
        let (mut state, started) =
            reference::start(policy, devices, &mut shadow, &mut map, &mut exclusion);
        started.expect("the policy is accepted");
        if let Some(Pair { page, frame }) = tables.asked {
            let (page, frame) = (page.into(), frame.into());
            reference::ask(&mut state, &shadow, &map, &mut exclusion, page, frame)
                .expect("the last page and the frame are free");
        }
        synchronise(&state, &tables.kernels[1], &mut shadow, &mut map, &exclusion)
            .expect("the kernel table is accepted");
        if in_user {
            let last = u64::from(tables.v) - 1;
            reference::leave(&mut state, &mut shadow, last).expect("the last page is user code");
        }
        PlainSide { state, shadow, map, exclusion }
    }

    /// Whether a side with a state run stands where this one does, in mode, running page, number of devices, what is pending and tables.
    pub fn agrees(&self, other: &RunSide) -> bool {
        let mode = self.state.mode;
        other.state[STATE_MODE] == u64::from(mode.is_user())
            && other.state[STATE_RUNNING] == u64::from(mode.page())
            && other.state[STATE_DEVICES] == u64::from(self.state.devices)
            && other.state[STATE_PENDING..] == pending_words(self.state.pending)
            && other.shadow == self.shadow
            && other.map == self.map
            && other.exclusion == self.exclusion
    }
}

/// The words of a state run for what is pending.
pub fn pending_words(pending: Option<Pair>) -> [u64; 3] {
    pending.map_or([0; 3], |Pair { page, frame }| [1, page.into(), frame.into()])
}
