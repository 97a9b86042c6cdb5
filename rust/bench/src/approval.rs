//! Ask, commit and drop. A repetition ends with what the call changed put back, on every side in the same way: a few stores, which are counted
//! with it.

use std::hint::black_box;

use guard::archive::{self, STATE_PENDING, STATE_WORDS};
use guard::NO_FRAME;
use reference::Pair;

use crate::access::number;
use crate::plain::{self, on_runs};
use crate::sides::{pending_words, PlainSide, RunSide};
use crate::steps::{self, Reply, Stepped, Steps, FIELDS, PUT};
use crate::tables::Tables;
use crate::work::{in_turn, Side, Sides, Work, ARGUMENTS};

/// The words of a state run for what is pending.
const PAIR: std::ops::Range<usize> = STATE_PENDING..STATE_WORDS;

/// Ask: pages and frames that are answered with one number, in turn.
pub struct Ask {
    sides: Sides,
    pairs: Vec<Named>,
}

/// A page and a frame.
type Named = (u64, u64);

/// How an ask is called on runs.
type AskOnRuns = fn(&mut [u64], &[u64], &[u16], &mut [u8], u64, u64, &mut [u64]) -> u64;

impl Ask {
    pub fn new(tables: &Tables, wanted: u8) -> Ask {
        let sides = Sides::new(tables, false);
        let answered = |(page, frame): Named| {
            let PlainSide { mut state, shadow, map, exclusion } = sides.plain.clone();
            number(reference::ask(&mut state, &shadow, &map, &mut { exclusion }, page, frame))
        };
        let v = u64::from(tables.v);
        let named = (1..v).cycle().zip(v..2 * v);
        let pairs = named.filter(|&pair| answered(pair) == wanted).collect();
        Ask { pairs: in_turn(pairs), sides }
    }
}

/// Excludes the frame that is pending, if one is.
#[inline(always)]
fn exclude(exclusion: &mut [u8], pair: Option<Pair>) {
    if let Some(Pair { frame, .. }) = pair {
        exclusion[usize::from(frame / 8)] |= 1 << (frame % 8);
    }
}

fn include(exclusion: &mut [u8], frame: u64) {
    exclusion[(frame / 8) as usize] &= !(1 << (frame % 8));
}

#[inline(always)]
fn ask_on_runs(side: &mut RunSide, pairs: impl Iterator<Item = Named>, call: AskOnRuns) {
    let RunSide { state, numbers, shadow, map, exclusion } = side;
    for pair in pairs {
        let (page, frame) = black_box(pair);
        black_box(call(state, shadow, map, exclusion, page, frame, numbers));
        state[PAIR].fill(0);
        include(exclusion, frame);
    }
}

#[inline(always)]
fn ask_on_state(side: &mut PlainSide, pairs: impl Iterator<Item = Named>) {
    let PlainSide { state, shadow, map, exclusion } = side;
    for pair in pairs {
        let (page, frame) = black_box(pair);
        black_box(&plain::ask(state, shadow, map, exclusion, page, frame));
        state.pending = None;
        include(exclusion, frame);
    }
}

impl Work for Ask {
    fn repeat(&mut self, side: Side, count: u64) -> bool {
        let Ask { sides, pairs } = self;
        let pairs = (0..count as usize).map(|i| pairs[i % ARGUMENTS]);
        match side {
            Side::Archive => ask_on_runs(&mut sides.archive, pairs, archive::ask),
            Side::Reference => ask_on_state(&mut sides.plain, pairs),
            Side::OnRuns => ask_on_runs(&mut sides.on_runs, pairs, on_runs::ask),
            _ => return false,
        }
        true
    }

    /// Each is made once more, and not put back.
    fn agree(&self) -> bool {
        self.pairs.iter().all(|&(page, frame)| {
            self.sides.agree_after(
                |RunSide { state, numbers, shadow, map, exclusion }| {
                    archive::ask(state, shadow, map, exclusion, page, frame, numbers)
                },
                |PlainSide { state, shadow, map, exclusion }| {
                    plain::ask(state, shadow, map, exclusion, page, frame)
                },
                |RunSide { state, numbers, shadow, map, exclusion }| {
                    on_runs::ask(state, shadow, map, exclusion, page, frame, numbers)
                },
            )
        })
    }
}

/// Commit of the same pair again and again, or of nothing, which is refused with 22.
pub struct Commit {
    sides: Sides,
    /// What is pending at each repetition.
    pair: Option<Pair>,
    /// The pages that it approves, with their entries before.
    pages: Vec<(usize, u64)>,
}

impl Commit {
    pub fn new(tables: &Tables) -> Commit {
        let sides = Sides::new(tables, false);
        let before = &sides.plain;
        let PlainSide { mut state, mut shadow, mut map, .. } = before.clone();
        let answer = reference::commit(&mut state, &mut shadow, &mut map);
        assert_eq!(number(answer), refused_with(tables), "the commit of the case");
        let joined = (0..map.len()).filter(|&page| map[page] != before.map[page]);
        let pages = joined.map(|page| (page, before.shadow[page])).collect();
        Commit { pair: tables.asked, pages, sides }
    }
}

/// The number of a commit or a drop: 0 where something is asked for.
fn refused_with(tables: &Tables) -> u8 {
    tables.asked.map_or(22, |_| 0)
}

#[inline(always)]
fn put_back(pages: &[(usize, u64)], shadow: &mut [u64], map: &mut [u16]) {
    for &(page, entry) in pages {
        shadow[page] = entry;
        map[page] = NO_FRAME;
    }
}

#[inline(always)]
fn commit_on_runs(
    side: &mut RunSide,
    count: u64,
    pair: Option<Pair>,
    pages: &[(usize, u64)],
    call: impl Fn(&mut [u64], &mut [u64], &mut [u16], &mut [u64]) -> u64,
) {
    let RunSide { state, numbers, shadow, map, .. } = side;
    for _ in 0..count {
        black_box(call(state, shadow, map, numbers));
        state[PAIR].copy_from_slice(&pending_words(pair));
        put_back(pages, shadow, map);
    }
}

#[inline(always)]
fn commit_on_state(side: &mut PlainSide, count: u64, pair: Option<Pair>, pages: &[(usize, u64)]) {
    let PlainSide { state, shadow, map, .. } = side;
    for _ in 0..count {
        black_box(&plain::commit(state, shadow, map));
        state.pending = pair;
        put_back(pages, shadow, map);
    }
}

impl Work for Commit {
    fn repeat(&mut self, side: Side, count: u64) -> bool {
        let Commit { sides, pair, pages } = self;
        match side {
            Side::Archive => {
                commit_on_runs(&mut sides.archive, count, *pair, pages, archive::commit);
            }
            Side::Reference => commit_on_state(&mut sides.plain, count, *pair, pages),
            Side::OnRuns => {
                commit_on_runs(&mut sides.on_runs, count, *pair, pages, on_runs::commit);
            }
            _ => return false,
        }
        true
    }

    fn agree(&self) -> bool {
        self.sides.agree_after(
            |RunSide { state, numbers, shadow, map, .. }| {
                archive::commit(state, shadow, map, numbers)
            },
            |PlainSide { state, shadow, map, .. }| plain::commit(state, shadow, map),
            |RunSide { state, numbers, shadow, map, .. }| {
                on_runs::commit(state, shadow, map, numbers)
            },
        )
    }
}

/// Drop of the same pair again and again, or of nothing, which is refused with 22.
pub struct Drop {
    sides: Sides,
    stepped: Stepped,
    /// What is pending at each repetition.
    pair: Option<Pair>,
}

impl Drop {
    pub fn new(tables: &Tables) -> Drop {
        let sides = Sides::new(tables, false);
        let PlainSide { mut state, mut exclusion, .. } = sides.plain.clone();
        let answer = reference::drop(&mut state, &mut exclusion);
        assert_eq!(number(answer), refused_with(tables), "the drop of the case");
        Drop { pair: tables.asked, stepped: Stepped::new(&sides), sides }
    }
}

/// Repeats a drop with what it puts back: a loop where a pair is, and one where none is, so that no repetition asks for it.
#[inline(always)]
fn in_loop(count: u64, pair: Option<Pair>, mut drop: impl FnMut(Option<Pair>)) {
    match pair {
        Some(pair) => (0..count).for_each(|_| drop(Some(pair))),
        None => (0..count).for_each(|_| drop(None)),
    }
}

#[inline(never)]
fn drop_on_runs(
    side: &mut RunSide,
    count: u64,
    pair: Option<Pair>,
    call: impl Fn(&mut [u64], &mut [u8], &mut [u64]) -> u64,
) {
    let RunSide { state, numbers, exclusion, .. } = side;
    in_loop(count, pair, |pair| {
        black_box(call(state, exclusion, numbers));
        state[PAIR].copy_from_slice(&pending_words(pair));
        exclude(exclusion, pair);
    });
}

#[inline(never)]
fn drop_on_state(side: &mut PlainSide, count: u64, pair: Option<Pair>) {
    let PlainSide { state, exclusion, .. } = side;
    in_loop(count, pair, |pair| {
        black_box(&plain::drop(state, exclusion));
        state.pending = pair;
        exclude(exclusion, pair);
    });
}

impl Steps for Drop {
    /// The pair is put back where the step takes it from, and where the step has written.
    #[inline(never)]
    fn repeat_step<const STEP: u8, R: Reply>(&mut self, count: u64) {
        let Drop { stepped: Stepped { state, run }, pair, .. } = self;
        let RunSide { state: run, numbers, exclusion, .. } = run;
        in_loop(count, *pair, |pair| {
            steps::drop::<STEP, R>(state, run, exclusion, numbers).keep();
            if STEP < FIELDS {
                state.pending = pair;
            }
            if STEP >= PUT {
                run[PAIR].copy_from_slice(&pending_words(pair));
            }
            exclude(exclusion, pair);
        });
    }
}

impl Work for Drop {
    fn repeat(&mut self, side: Side, count: u64) -> bool {
        let Drop { sides, pair, .. } = self;
        match side {
            Side::Archive => drop_on_runs(&mut sides.archive, count, *pair, archive::drop),
            Side::Reference => drop_on_state(&mut sides.plain, count, *pair),
            Side::OnRuns => drop_on_runs(&mut sides.on_runs, count, *pair, on_runs::drop),
            _ => return steps::repeat(self, side, count),
        }
        true
    }

    fn agree(&self) -> bool {
        self.sides.agree_after(
            |RunSide { state, numbers, exclusion, .. }| archive::drop(state, exclusion, numbers),
            |PlainSide { state, exclusion, .. }| plain::drop(state, exclusion),
            |RunSide { state, numbers, exclusion, .. }| on_runs::drop(state, exclusion, numbers),
        )
    }

    fn steps_agree(&self) -> bool {
        self.stepped.agrees(&self.sides.plain)
    }
}
