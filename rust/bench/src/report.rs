//! The tables of docs/BENCH.md from the figures.

use crate::cases::{cases, large_name, Case};
use crate::figures::{Figures, Times};
use crate::rungs::{Rung, Small};
use crate::tables::Contents;
use crate::work::Side;

/// A table from its head and its lines.
fn table(head: &[&str], lines: impl Iterator<Item = Vec<String>>) -> String {
    let line = |cells: &[String]| format!("| {} |\n", cells.join(" | "));
    let head: Vec<_> = head.iter().map(|cell| cell.to_string()).collect();
    let rule = format!("|{}\n", "---|".repeat(head.len()));
    lines.fold(line(&head) + &rule, |table, cells| table + &line(&cells))
}

fn time(time: Option<f64>) -> String {
    time.map_or("-".into(), |time| format!("{time:.1}"))
}

fn ratio(of: Option<f64>, to: Option<f64>) -> String {
    of.zip(to).map_or("-".into(), |(of, to)| format!("{:.2}", of / to))
}

fn whole(count: Option<f64>) -> String {
    count.map_or("-".into(), |count| format!("{count:.0}"))
}

fn signed(more: Option<f64>) -> String {
    more.map_or("-".into(), |more| format!("{more:+.0}"))
}

fn less(of: Option<f64>, than: Option<f64>) -> Option<f64> {
    of.zip(than).map(|(of, than)| of - than)
}

/// The lines whose ratio to the reference on runs is above 1.00, as printed, the largest first.
fn above(figure: impl Fn(&str, Side) -> Option<f64>, cases: &[Case]) -> String {
    let ratio =
        |case: &Case| Some(figure(&case.name, Side::Archive)? / figure(&case.name, Side::OnRuns)?);
    let ratios = cases.iter().filter_map(|case| Some((ratio(case)?, &case.name)));
    let mut above: Vec<_> = ratios.filter(|(ratio, _)| *ratio >= 1.005).collect();
    above.sort_by(|(one, _), (other, _)| other.total_cmp(one));
    let (count, all) = (above.len(), cases.len());
    if above.is_empty() {
        return format!("\nNo line of {all} is above 1.00 of Rust on runs.\n");
    }
    let mut text = format!("\n**{count} of {all} lines are above 1.00 of Rust on runs:**\n");
    for (ratio, name) in above {
        text += &format!("- {name}: {ratio:.2}\n");
    }
    text
}

/// Times: of each side the worst place, with the best beside it.
pub fn times(times: &Times) -> String {
    let head = [
        "call",
        "archive, ns",
        "at best",
        "Rust on runs, ns",
        "at best",
        "ratio",
        "Rust, ns",
        "ratio",
        "Rust without approval, ns",
        "price of approval",
        "archive from flat, ns",
        "price of the tree",
    ];
    let cases = cases();
    let lines = cases.iter().map(|Case { name, .. }| {
        let [archive, plain, on_runs, without, flat] =
            [Side::Archive, Side::Reference, Side::OnRuns, Side::WithoutApproval, Side::Flat]
                .map(|side| times.worst(name, side));
        vec![
            name.clone(),
            time(archive),
            time(times.best(name, Side::Archive)),
            time(on_runs),
            time(times.best(name, Side::OnRuns)),
            ratio(archive, on_runs),
            time(plain),
            ratio(archive, plain),
            time(without),
            ratio(plain, without),
            time(flat),
            ratio(archive, flat),
        ]
    });
    table(&head, lines) + &above(|name, side| times.worst(name, side), &cases)
}

/// Synchronise all at the largest V: warm and cold tables, with nothing changed and with an eighth changed. Of each side the worst place.
pub fn cold(times: &Times) -> String {
    let head = [
        "table",
        "changed",
        "archive, warm, ns",
        "Rust on runs",
        "ratio",
        "archive, cold, ns",
        "Rust on runs",
        "ratio",
    ];
    let rows = Contents::ALL.into_iter().flat_map(|contents| [(contents, false), (contents, true)]);
    let lines = rows.map(|(contents, changes)| {
        let worst = |is_cold, side| times.worst(&large_name(contents, changes, is_cold), side);
        let changed = if changes { "an eighth" } else { "nothing" };
        let mut line = vec![contents.words().into(), changed.into()];
        for is_cold in [false, true] {
            let (archive, on_runs) = (worst(is_cold, Side::Archive), worst(is_cold, Side::OnRuns));
            line.extend([time(archive), time(on_runs), ratio(archive, on_runs)]);
        }
        line
    });
    table(&head, lines)
}

/// Instructions of a repetition.
pub fn instructions(counts: &Figures) -> String {
    let head = [
        "call",
        "archive",
        "Rust",
        "ratio",
        "Rust on runs",
        "ratio",
        "Rust without approval",
        "archive from flat",
        "ratio",
    ];
    let cases = cases();
    let lines = cases.iter().map(|Case { name, .. }| {
        let count = |side| counts.get(name, side);
        let archive = count(Side::Archive);
        vec![
            name.clone(),
            whole(archive),
            whole(count(Side::Reference)),
            ratio(archive, count(Side::Reference)),
            whole(count(Side::OnRuns)),
            ratio(archive, count(Side::OnRuns)),
            whole(count(Side::WithoutApproval)),
            whole(count(Side::Flat)),
            ratio(archive, count(Side::Flat)),
        ]
    });
    table(&head, lines) + &above(|name, side| counts.get(name, side), &cases)
}

/// What the boundary costs Rust, part by part, and what it costs the archive in all, in instructions of a repetition.
pub fn boundary(counts: &Figures) -> String {
    let head = [
        "call",
        "Rust",
        "runs handed over",
        "lengths tested",
        "words of mode and pair tested",
        "two numbers written",
        "state's words written",
        "state decoded",
        "entry pages decoded",
        "no struct handed over",
        "Rust on runs",
        "archive",
        "archive less Rust",
    ];
    let way = [
        Side::Reference,
        Side::Lent,
        Side::Lengths,
        Side::Words,
        Side::Numbers,
        Side::Put,
        Side::Fields,
        Side::EntryPages,
        Side::OnRuns,
    ];
    let cases = cases();
    let stepped = cases.iter().filter(|case| counts.get(&case.name, Side::Lengths).is_some());
    let lines = stepped.map(|Case { name, .. }| {
        let count = |side| counts.get(name, side);
        let mut line = vec![name.clone(), whole(count(Side::Reference))];
        line.extend(way.windows(2).map(|step| signed(less(count(step[1]), count(step[0])))));
        line.extend([whole(count(Side::OnRuns)), whole(count(Side::Archive))]);
        line.push(signed(less(count(Side::Archive), count(Side::Reference))));
        line
    });
    table(&head, lines)
}

/// Where the instructions of a small call go, side by side.
pub fn small(counts: &Figures) -> String {
    let head = [
        "call",
        "side",
        "called, and refused for a length",
        "words of mode and pair",
        "numbers of the state",
        "up to here",
        "lengths of tables",
        "the rest, with what is written",
        "in all",
    ];
    let lines = Small::ALL.into_iter().flat_map(|call| {
        let [archive, on_runs, plain] = [Side::Archive, Side::OnRuns, Side::Reference]
            .map(|side| Rungs::of(call, |case| counts.get(case, side)));
        let less = vec!["-".into(), "-".into(), "-".into()]
            .into_iter()
            .chain(archive.ends().zip(plain.ends()).map(|(of, than)| signed(less(of, than))));
        [
            ("archive", archive.cells()),
            ("Rust on runs", on_runs.cells()),
            ("Rust", plain.cells()),
            ("archive less Rust", less.collect()),
        ]
        .map(|(side, cells)| [vec![call.words().into(), side.into()], cells].concat())
    });
    table(&head, lines)
}

/// The counts of one call and side, by what is wrong.
struct Rungs {
    lengths: Option<f64>,
    words: Option<f64>,
    /// For the number of the state that is asked last.
    numbers: Option<f64>,
    tables: Option<f64>,
    accepted: Option<f64>,
}

impl Rungs {
    fn of(call: Small, count: impl Fn(&str) -> Option<f64>) -> Rungs {
        let count = |rung: Rung| count(&rung.case(call));
        Rungs {
            lengths: count(Rung::Lengths),
            words: count(Rung::Words),
            numbers: Rung::NUMBERS.into_iter().filter_map(count).max_by(f64::total_cmp),
            tables: count(Rung::Tables),
            accepted: count(Rung::Accepted),
        }
    }

    /// Up to the numbers of the state, then what is more, and all.
    fn ends(&self) -> impl Iterator<Item = Option<f64>> {
        let Rungs { numbers, tables, accepted, .. } = *self;
        [numbers, less(tables, numbers), less(accepted, tables), accepted].into_iter()
    }

    fn cells(&self) -> Vec<String> {
        let Rungs { lengths, words, numbers, tables, accepted } = *self;
        vec![
            whole(lengths),
            signed(less(words, lengths)),
            signed(less(numbers, words)),
            whole(numbers),
            signed(less(tables, numbers)),
            signed(less(accepted, tables)),
            whole(accepted),
        ]
    }
}
