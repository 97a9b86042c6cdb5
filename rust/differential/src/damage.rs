//! Damage to what a call is lent: the runs, the fields of the state, the lengths of tables and buffer, and the contents of all.
//! Contents stay damaged through a list; the other kinds concern one call.

use guard::archive::{
    MODE_KERNEL, MODE_USER, STATE_DEVICES, STATE_ENTRIES, STATE_ENTRY, STATE_FRAMES, STATE_MODE,
    STATE_PAGES, STATE_PENDING, STATE_PENDING_FRAME, STATE_PENDING_PAGE, STATE_RUNNING,
};
use guard::ENTRY_PAGES;
use inputs::Random;

use crate::call::Lent;
use crate::devices::{count, MOST};

/// A kind of damage to what one call is lent.
#[derive(Clone, Copy, Debug, PartialEq, Eq)]
pub enum Damage {
    /// Contents alone.
    Contents,
    /// A state run of another length.
    StateRun,
    /// A numbers run of another length.
    NumbersRun,
    /// A mode word other than 0 and 1.
    ModeWord,
    /// V, F, e, the running page, the number of devices or an entry page wider than 16 bits, with lower bits that are in range.
    WideWord,
    /// V, F, e, the running page or the number of devices out of range, or V or F of other tables.
    Field,
    /// A shadow table, map or exclusion vector of another length.
    Table,
    /// A buffer shorter than the record.
    Buffer,
    /// A word other than 0 and 1 for whether a pair is pending.
    PendingWord,
    /// A pending page at or above V, also one that is below V in its lower bits.
    PendingPage,
    /// The same of a pending frame and F.
    PendingFrame,
}

impl Damage {
    pub const ALL: [Damage; 11] = [
        Damage::Contents,
        Damage::StateRun,
        Damage::NumbersRun,
        Damage::ModeWord,
        Damage::WideWord,
        Damage::Field,
        Damage::Table,
        Damage::Buffer,
        Damage::PendingWord,
        Damage::PendingPage,
        Damage::PendingFrame,
    ];

    /// What a call on a state and tables may find beside damaged contents.
    pub const OF_TABLES: [Damage; 9] = [
        Damage::StateRun,
        Damage::NumbersRun,
        Damage::ModeWord,
        Damage::WideWord,
        Damage::Field,
        Damage::Table,
        Damage::PendingWord,
        Damage::PendingPage,
        Damage::PendingFrame,
    ];

    /// What the writing of a record may find, which is lent no state and no table.
    pub const OF_BUFFERS: [Damage; 2] = [Damage::NumbersRun, Damage::Buffer];

    /// What a bare walk may find, which is lent a numbers run beside its tree.
    pub const OF_WALKS: [Damage; 1] = [Damage::NumbersRun];

    pub fn words(self) -> &'static str {
        match self {
            Damage::Contents => "contents alone",
            Damage::StateRun => "length of the state run",
            Damage::NumbersRun => "length of the numbers run",
            Damage::ModeWord => "mode word",
            Damage::WideWord => "word too wide",
            Damage::Field => "field of the state",
            Damage::Table => "length of a table",
            Damage::Buffer => "length of the buffer",
            Damage::PendingWord => "pending word",
            Damage::PendingPage => "pending page",
            Damage::PendingFrame => "pending frame",
        }
    }

    /// Half of the calls find damaged contents alone, the others one of these kinds.
    pub fn random(random: &mut Random, others: &[Damage]) -> Damage {
        if random.one_in(2) {
            Damage::Contents
        } else {
            random.pick(others)
        }
    }

    pub fn apply(self, random: &mut Random, lent: &mut Lent) {
        match self {
            Damage::Contents => {}
            Damage::StateRun => resize(random, &mut lent.state),
            Damage::NumbersRun => resize(random, &mut lent.numbers),
            Damage::ModeWord => lent.state[STATE_MODE] = no_flag(random),
            Damage::WideWord => {
                let entry = STATE_ENTRY + random.below(ENTRY_PAGES as u64) as usize;
                let fields = [
                    STATE_PAGES,
                    STATE_FRAMES,
                    STATE_ENTRIES,
                    STATE_RUNNING,
                    STATE_DEVICES,
                    entry,
                    entry,
                ];
                let word = &mut lent.state[random.pick(&fields)];
                *word |= 1 << random.pick(&[16, 17, 31, 32, 63]);
            }
            Damage::Field => damage_field(random, &mut lent.state),
            Damage::Table => match random.below(3) {
                0 => resize(random, &mut lent.shadow),
                1 => resize(random, &mut lent.map),
                _ => resize(random, &mut lent.exclusion),
            },
            Damage::Buffer => {
                let length = lent.buffer.len();
                let any = random.below(length as u64) as usize;
                lent.buffer.truncate(random.pick(&[0, length - 1, any]));
            }
            Damage::PendingWord => lent.state[STATE_PENDING] = no_flag(random),
            Damage::PendingPage => damage_pair(random, &mut lent.state, STATE_PENDING_PAGE),
            Damage::PendingFrame => damage_pair(random, &mut lent.state, STATE_PENDING_FRAME),
        }
    }
}

/// A word that is neither 0 nor 1.
fn no_flag(random: &mut Random) -> u64 {
    let wide = 1 << random.pick(&[16, 32, 63]);
    random.pick(&[2, 3, wide, wide + 1, u64::MAX])
}

/// A pair that is pending, with one of its words out of range.
fn damage_pair(random: &mut Random, state: &mut [u64], place: usize) {
    // A start is lent words of any size.
    let [v, f] = [STATE_PAGES, STATE_FRAMES].map(|place| (state[place] % (1 << 32)).max(1));
    put_pair(random, state, v, f);
    let end = if place == STATE_PENDING_PAGE { v } else { f };
    state[place] = match random.below(4) {
        0 => end,
        1 => random.pick(&[end + 1, 65535, u64::MAX]),
        _ => state[place] + (1 << random.pick(&[16, 17, 31, 32, 63])),
    };
}

/// A pair that is pending, with a page below V and a frame below F.
fn put_pair(random: &mut Random, state: &mut [u64], v: u64, f: u64) {
    state[STATE_PENDING] = 1;
    state[STATE_PENDING_PAGE] = random.below(v);
    state[STATE_PENDING_FRAME] = random.below(f);
}

/// Another length: mostly one more or less, or none.
pub fn resize<T: Copy + Default>(random: &mut Random, run: &mut Vec<T>) {
    let length = run.len();
    let other = match random.below(6) {
        0 => 0,
        1 => 2 * length,
        2 | 3 => length - length.min(1),
        _ => length + 1,
    };
    run.resize(if other == length { length + 1 } else { other }, T::default());
}

fn damage_field(random: &mut Random, state: &mut [u64]) {
    // A start is lent words of any size.
    let (v, f) = (state[STATE_PAGES] % (1 << 32), state[STATE_FRAMES] % (1 << 32));
    let (place, value) = match random.below(5) {
        0 => (STATE_PAGES, random.pick(&[0, v + 1, v.saturating_sub(1), 2049, 65535])),
        1 => (STATE_FRAMES, random.pick(&[0, f + 8, f.saturating_sub(8), 4097, 65535])),
        2 => (STATE_ENTRIES, random.pick(&[0, 17, 65535])),
        3 => (STATE_DEVICES, random.pick(&[0, MOST + 1, MOST + 2, 65535])),
        _ => (STATE_RUNNING, random.pick(&[v, v + 1, 65535])),
    };
    state[place] = value;
}

/// Contents that no accepted start leaves, in a state and in tables that still pass question 7.
pub fn damage_contents(random: &mut Random, lent: &mut Lent) {
    let (v, f) = (lent.state[STATE_PAGES], lent.state[STATE_FRAMES]);
    lent.shadow.iter_mut().for_each(|entry| *entry = shadow_entry(random, f));
    for frame in &mut lent.map {
        *frame = match random.below(4) {
            0 => random.below(f + 2) as u16,
            1 => random.word() as u16,
            _ => u16::MAX,
        };
    }
    let share = random.pick(&[2, 8, 64]);
    for byte in &mut lent.exclusion {
        *byte = (0..8).map(|bit| u8::from(random.one_in(share)) << bit).sum();
    }
    for page in &mut lent.state[STATE_ENTRY..][..ENTRY_PAGES] {
        *page = if random.one_in(8) { random.word() } else { random.below(v + 1) };
    }
    lent.state[STATE_ENTRIES] = 1 + random.below(ENTRY_PAGES as u64);
    lent.state[STATE_MODE] = random.pick(&[MODE_KERNEL, MODE_USER]);
    lent.state[STATE_RUNNING] = random.below(v);
    lent.state[STATE_DEVICES] = count(random);
    if random.one_in(2) {
        put_pair(random, &mut lent.state, v, f);
    } else {
        // Words that are not read: in range, next to it, or any.
        lent.state[STATE_PENDING] = 0;
        let any = random.word();
        lent.state[STATE_PENDING_PAGE] = random.pick(&[0, v - 1, v, any]);
        lent.state[STATE_PENDING_FRAME] = random.pick(&[0, f - 1, f, any]);
    }
}

/// A shadow entry with any bits: mostly present, with a frame near those below F.
pub fn shadow_entry(random: &mut Random, frames: u64) -> u64 {
    let frame = if random.one_in(10) { random.word() >> 24 } else { random.below(frames + 2) };
    let bits = random.word() & !(((1 << 40) - 1) << 12);
    let present = u64::from(!random.one_in(6));
    bits & !1 | frame << 12 | present
}
