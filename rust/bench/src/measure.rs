//! Times of the cases: rounds in which all sides run one after another, and of each side the least of its rounds or the median.

use std::time::Instant;

use crate::cases::{Case, Of};
use crate::figures::Figures;
use crate::work::{Side, Work};

const ROUNDS: usize = 150;
/// A side's turn in a round lasts at least this long, in nanoseconds.
const TURN: f64 = 40_000.0;
/// Where the median counts, a turn is of many guards.
const LONG_TURN: f64 = 400_000.0;

/// Nanoseconds for each repetition, by side and round; none where the case has no such side.
type Times = [Vec<f64>; Side::TIMED.len()];

fn time(work: &mut dyn Work, side: Side, count: u64) -> Option<f64> {
    let begin = Instant::now();
    let is_done = work.repeat(side, count);
    let nanoseconds = begin.elapsed().as_nanos() as f64;
    is_done.then_some(nanoseconds / count as f64)
}

/// How many repetitions last for a turn. An even number, so that both kernel tables come equally often.
fn repetitions(work: &mut dyn Work, turn: f64) -> u64 {
    let mut count = 2;
    loop {
        let each = Side::TIMED.iter().filter_map(|&side| time(work, side, count));
        let least = each.min_by(f64::total_cmp).unwrap_or(turn);
        if least * count as f64 >= turn {
            return count;
        }
        count *= 2;
    }
}

fn times(work: &mut dyn Work, turn: f64) -> Times {
    let count = repetitions(work, turn);
    let mut times = Times::default();
    for _ in 0..ROUNDS {
        for (times, side) in times.iter_mut().zip(Side::TIMED) {
            times.extend(time(work, side, count));
        }
    }
    times
}

/// The figures of cases; a case on which the sides do not agree is no measurement.
pub fn figures(cases: &[Case]) -> Figures {
    let mut figures = Figures::default();
    for case in cases {
        let mut work = (case.prepare)();
        let turn = if case.of == Of::Median { LONG_TURN } else { TURN };
        let times = times(&mut *work, turn);
        assert!(work.agree(), "{}: archive and reference differ", case.name);
        for (mut times, side) in times.into_iter().zip(Side::TIMED) {
            times.sort_by(f64::total_cmp);
            let place = match case.of {
                Of::Least => 0,
                Of::Median => times.len() / 2,
            };
            if let Some(&time) = times.get(place) {
                figures.take(&case.name, side, time);
            }
        }
    }
    figures
}
