//! Where the instructions of a small call go. The call is refused by question 7 for one thing after another, in the order in which it is
//! asked; what it takes more than for the thing before is the cost of asking. All are counted in the same loops.

use std::hint::black_box;

use guard::archive::{
    self, STATE_DEVICES, STATE_ENTRIES, STATE_FRAMES, STATE_MODE, STATE_PAGES, STATE_RUNNING,
};
use reference::boundary::put_pending;
use reference::{Mode, Pair, State};

use crate::plain::{self, on_runs};
use crate::sides::{PlainSide, RunSide};
use crate::tables::{Contents, Tables};
use crate::work::{Side, Sides, Work};

const PAGES: u16 = 16;
/// A page that the calls may fetch, write or leave to: the last one, which is ordinary and user code.
const LAST: u64 = PAGES as u64 - 1;

/// The calls that do little work.
#[derive(Clone, Copy, Debug, PartialEq, Eq)]
pub enum Small {
    Fetch,
    Write,
    LeaveAndEnter,
    Drop,
}

impl Small {
    pub const ALL: [Small; 4] = [Small::Fetch, Small::Write, Small::LeaveAndEnter, Small::Drop];

    pub fn words(self) -> &'static str {
        match self {
            Small::Fetch => "fetch",
            Small::Write => "write in one page",
            Small::LeaveAndEnter => "leave and enter, V 16",
            Small::Drop => "drop",
        }
    }
}

/// What is wrong, in the order of asking. Which number of a state is asked last is the compiler's choice.
#[derive(Clone, Copy, Debug, PartialEq, Eq)]
pub enum Rung {
    Lengths,
    Words,
    Pages,
    Frames,
    Entries,
    Devices,
    Running,
    Tables,
    /// Nothing is: the call is accepted.
    Accepted,
}

impl Rung {
    pub const ALL: [Rung; 9] = [
        Rung::Lengths,
        Rung::Words,
        Rung::Pages,
        Rung::Frames,
        Rung::Entries,
        Rung::Devices,
        Rung::Running,
        Rung::Tables,
        Rung::Accepted,
    ];
    /// The numbers of the state.
    pub const NUMBERS: [Rung; 5] =
        [Rung::Pages, Rung::Frames, Rung::Entries, Rung::Devices, Rung::Running];

    /// The name of a call with this thing wrong.
    pub fn case(self, call: Small) -> String {
        format!("{}, with {self:?}", call.words())
    }
}

/// A side with runs of any length.
#[derive(Clone)]
struct Lent {
    run: Vec<u64>,
    numbers: Vec<u64>,
    shadow: Vec<u64>,
    exclusion: Vec<u8>,
}

/// A call with something wrong, or nothing.
pub struct Wrong {
    call: Small,
    rung: Rung,
    pair: Option<Pair>,
    archive: Lent,
    on_runs: Lent,
    plain: PlainSide,
}

impl Wrong {
    pub fn new(call: Small, rung: Rung) -> Wrong {
        let tables = match call {
            Small::Drop => Tables::asked(Contents::Ordinary, PAGES),
            _ => Tables::new(Contents::Ordinary, PAGES),
        };
        let Sides { archive: RunSide { state, numbers, shadow, exclusion, .. }, mut plain, .. } =
            Sides::new(&tables, false);
        let mut lent = Lent { run: state.to_vec(), numbers: numbers.to_vec(), shadow, exclusion };
        damage_run(&mut lent, call, rung);
        damage_plain(&mut plain, call, rung);
        Wrong { call, rung, pair: tables.asked, on_runs: lent.clone(), archive: lent, plain }
    }
}

fn damage_run(lent: &mut Lent, call: Small, rung: Rung) {
    let Lent { run, shadow, exclusion, .. } = lent;
    match rung {
        Rung::Lengths => run.push(0),
        Rung::Words => run[STATE_MODE] = 2,
        Rung::Pages => run[STATE_PAGES] = 0,
        Rung::Frames => run[STATE_FRAMES] = 0,
        Rung::Entries => run[STATE_ENTRIES] = 0,
        Rung::Devices => run[STATE_DEVICES] = 0,
        Rung::Running => run[STATE_RUNNING] = PAGES.into(),
        Rung::Tables if call == Small::Drop => exclusion.push(0),
        Rung::Tables => shadow.push(0),
        Rung::Accepted => {}
    }
}

fn damage_plain(side: &mut PlainSide, call: Small, rung: Rung) {
    let State { v, f, e, devices, mode, .. } = &mut side.state;
    match rung {
        Rung::Pages => *v = 0,
        Rung::Frames => *f = 0,
        Rung::Entries => *e = 0,
        Rung::Devices => *devices = 0,
        Rung::Running => *mode = Mode::Kernel(PAGES),
        Rung::Tables if call == Small::Drop => side.exclusion.push(0),
        Rung::Tables => side.shadow.push(0),
        Rung::Lengths | Rung::Words | Rung::Accepted => {}
    }
}

type Write = fn(&[u64], &[u64], &[u8], u64, u64, &mut [u64]) -> u64;

/// The calls of a side with runs.
struct Calls {
    fetch: fn(&mut [u64], &[u64], u64, &mut [u64]) -> u64,
    write: Write,
    leave: fn(&mut [u64], &mut [u64], u64, &mut [u64]) -> u64,
    enter: fn(&mut [u64], &mut [u64], u64, &mut [u64]) -> u64,
    drop: fn(&mut [u64], &mut [u8], &mut [u64]) -> u64,
}

const OF_ARCHIVE: Calls = Calls {
    fetch: archive::fetch,
    write: archive::write,
    leave: archive::leave,
    enter: archive::enter,
    drop: archive::drop,
};
const ON_RUNS: Calls = Calls {
    fetch: on_runs::fetch,
    write: on_runs::write,
    leave: on_runs::leave,
    enter: on_runs::enter,
    drop: on_runs::drop,
};

/// What a drop took away is put back, or was never taken.
fn put_back(exclusion: &mut [u8], pair: Option<Pair>) {
    if let Some(Pair { frame, .. }) = pair {
        exclusion[usize::from(frame / 8)] |= 1 << (frame % 8);
    }
}

/// The last number.
#[inline(always)]
fn on_lent(lent: &mut Lent, call: Small, calls: &Calls, count: u64, pair: Option<Pair>) -> u64 {
    let Lent { run, numbers, shadow, exclusion } = lent;
    let mut last = 0;
    match call {
        Small::Fetch => {
            for _ in 0..count {
                last = black_box((calls.fetch)(run, shadow, black_box(0), numbers));
            }
        }
        Small::Write => {
            for _ in 0..count {
                let (address, length) = black_box((LAST * 4096, 16));
                last = black_box((calls.write)(run, shadow, exclusion, address, length, numbers));
            }
        }
        Small::LeaveAndEnter => {
            for _ in 0..count {
                black_box((calls.leave)(run, shadow, black_box(LAST), numbers));
                last = black_box((calls.enter)(run, shadow, black_box(0), numbers));
            }
        }
        Small::Drop => {
            for _ in 0..count {
                last = black_box((calls.drop)(run, exclusion, numbers));
                put_pending(run, pair);
                put_back(exclusion, pair);
            }
        }
    }
    last
}

fn on_state(side: &mut PlainSide, call: Small, count: u64, pair: Option<Pair>) {
    let PlainSide { state, shadow, exclusion, .. } = side;
    match call {
        Small::Fetch => {
            for _ in 0..count {
                black_box(&plain::fetch(state, shadow, black_box(0)));
            }
        }
        Small::Write => {
            for _ in 0..count {
                let (address, length) = black_box((LAST * 4096, 16));
                black_box(&plain::write(state, shadow, exclusion, address, length));
            }
        }
        Small::LeaveAndEnter => {
            for _ in 0..count {
                black_box(&plain::leave(state, shadow, black_box(LAST)));
                black_box(&plain::enter(state, shadow, black_box(0)));
            }
        }
        Small::Drop => {
            for _ in 0..count {
                black_box(&plain::drop(state, exclusion));
                state.pending = pair;
                put_back(exclusion, pair);
            }
        }
    }
}

impl Work for Wrong {
    fn repeat(&mut self, side: Side, count: u64) -> bool {
        let Wrong { call, rung, pair, archive, on_runs, plain } = self;
        match side {
            Side::Archive => {
                on_lent(archive, *call, &OF_ARCHIVE, count, *pair);
            }
            Side::OnRuns => {
                on_lent(on_runs, *call, &ON_RUNS, count, *pair);
            }
            // A state that is a struct has no runs to be wrong.
            Side::Reference if !matches!(rung, Rung::Lengths | Rung::Words) => {
                on_state(plain, *call, count, *pair);
            }
            _ => return false,
        }
        true
    }

    /// The archive and the reference on runs answer as the rung says.
    fn agree(&self) -> bool {
        let Wrong { call, rung, pair, .. } = *self;
        let expected = if rung == Rung::Accepted { 0 } else { 7 };
        let last = |lent: &Lent, calls| on_lent(&mut lent.clone(), call, calls, 1, pair);
        last(&self.archive, &OF_ARCHIVE) == expected && last(&self.on_runs, &ON_RUNS) == expected
    }
}
