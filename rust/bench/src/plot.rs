//! The plot of docs/growth.svg: time by the number of pages, a panel for each call, both axes logarithmic.

use crate::figures::Times;
use crate::growth::{Growth, SIZES};
use crate::work::Side;

/// A panel with its margins, and the part of it that is drawn in, in pixels.
const CELL: (f64, f64) = (330.0, 300.0);
const DRAWN: (f64, f64) = (250.0, 210.0);
const LEFT: f64 = 60.0;
const TOP: f64 = 40.0;
const COLUMNS: usize = 3;
/// Room above the panels for the title.
const HEAD: f64 = 40.0;
/// The decades of the vertical axis, from 1 ns on.
const DECADES: i32 = 4;

/// A line of a panel: wide ones are drawn first, so that those which lie on them can be seen.
struct Line {
    side: Side,
    words: &'static str,
    colour: &'static str,
    width: f64,
    dashes: &'static str,
    radius: f64,
}

const LINES: [Line; 3] = [
    Line {
        side: Side::Copy,
        words: "memcpy of the same bytes",
        colour: "#777777",
        width: 1.5,
        dashes: "4 3",
        radius: 2.5,
    },
    Line {
        side: Side::OnRuns,
        words: "Rust on runs",
        colour: "#e08a1e",
        width: 5.0,
        dashes: "none",
        radius: 5.0,
    },
    Line {
        side: Side::Archive,
        words: "archive",
        colour: "#1f3f8f",
        width: 1.5,
        dashes: "none",
        radius: 3.0,
    },
];

/// Where a panel's drawn part begins.
fn corner(panel: usize) -> (f64, f64) {
    let (column, row) = ((panel % COLUMNS) as f64, (panel / COLUMNS) as f64);
    (column * CELL.0 + LEFT, HEAD + row * CELL.1 + TOP)
}

fn across(v: u16) -> f64 {
    let octaves = |v: u16| f64::from(v).log2();
    let (first, last) = (octaves(SIZES[0]), octaves(SIZES[SIZES.len() - 1]));
    DRAWN.0 * (octaves(v) - first) / (last - first)
}

/// Down from the upper edge.
fn down(nanoseconds: f64) -> f64 {
    DRAWN.1 * (1.0 - nanoseconds.log10() / f64::from(DECADES))
}

fn text(x: f64, y: f64, attributes: &str, words: &str) -> String {
    format!("<text x=\"{x:.1}\" y=\"{y:.1}\" {attributes}>{words}</text>\n")
}

fn rule(from: (f64, f64), to: (f64, f64)) -> String {
    let ((x1, y1), (x2, y2)) = (from, to);
    format!(
        "<line x1=\"{x1:.1}\" y1=\"{y1:.1}\" x2=\"{x2:.1}\" y2=\"{y2:.1}\" stroke=\"#dddddd\"/>\n"
    )
}

/// The grid of a panel with the numbers of both axes.
fn grid((x, y): (f64, f64)) -> String {
    let (right, bottom) = (x + DRAWN.0, y + DRAWN.1);
    let mut svg = String::new();
    for v in SIZES {
        let at = x + across(v);
        svg += &rule((at, y), (at, bottom));
        svg += &text(at, bottom + 15.0, "text-anchor=\"middle\" font-size=\"10\"", &v.to_string());
    }
    for decade in 0..=DECADES {
        let nanoseconds = 10_u32.pow(decade as u32);
        let at = y + down(nanoseconds.into());
        svg += &rule((x, at), (right, at));
        svg += &text(
            x - 6.0,
            at + 4.0,
            "text-anchor=\"end\" font-size=\"11\"",
            &nanoseconds.to_string(),
        );
    }
    svg += &text(x + DRAWN.0 / 2.0, bottom + 32.0, "text-anchor=\"middle\"", "V, pages");
    let (beside, middle) = (x - 45.0, y + DRAWN.1 / 2.0);
    let turned =
        format!("text-anchor=\"middle\" transform=\"rotate(-90 {beside:.1} {middle:.1})\"");
    svg += &text(beside, middle, &turned, "nanoseconds");
    svg
}

fn stroke(line: &Line, points: &[(f64, f64)]) -> String {
    let Line { colour, width, dashes, radius, .. } = line;
    let path: Vec<_> = points.iter().map(|(x, y)| format!("{x:.1},{y:.1}")).collect();
    let mut svg = format!(
        "<polyline points=\"{}\" fill=\"none\" stroke=\"{colour}\" stroke-width=\"{width}\" stroke-dasharray=\"{dashes}\"/>\n",
        path.join(" ")
    );
    for (x, y) in points {
        svg += &format!("<circle cx=\"{x:.1}\" cy=\"{y:.1}\" r=\"{radius}\" fill=\"{colour}\"/>\n");
    }
    svg
}

fn panel(number: usize, call: Growth, times: &Times) -> String {
    let (x, y) = corner(number);
    let mut svg = text(x, y - 10.0, "font-weight=\"bold\"", call.words()) + &grid((x, y));
    for line in &LINES {
        let time = |v| times.worst(&call.case(v), line.side);
        let points = SIZES.into_iter().filter_map(|v| Some((x + across(v), y + down(time(v)?))));
        svg += &stroke(line, &points.collect::<Vec<_>>());
    }
    // The times at the largest V, where no line goes, with no grid behind them.
    let (left, top) = (x + DRAWN.0 - 168.0, y + DRAWN.1 - 50.0);
    svg += &format!(
        "<rect x=\"{left:.1}\" y=\"{top:.1}\" width=\"167\" height=\"49\" fill=\"white\"/>\n"
    );
    let largest = SIZES[SIZES.len() - 1];
    for (place, line) in LINES.iter().enumerate() {
        let Some(time) = times.worst(&call.case(largest), line.side) else { continue };
        let at = y + DRAWN.1 - 8.0 - 15.0 * place as f64;
        let attributes = format!("text-anchor=\"end\" font-size=\"11\" fill=\"{}\"", line.colour);
        let name = line.words.split(" of ").next().unwrap_or_default();
        let words = format!("{name} at V {largest}: {time:.0} ns");
        svg += &text(x + DRAWN.0 - 6.0, at, &attributes, &words);
    }
    svg
}

/// In the cell after the last panel.
fn legend() -> String {
    let (x, y) = corner(Growth::ALL.len());
    let mut svg = String::new();
    for (place, line) in LINES.iter().rev().enumerate() {
        let at = y + 20.0 + 28.0 * place as f64;
        svg += &stroke(line, &[(x, at), (x + 40.0, at)]);
        svg += &text(x + 52.0, at + 4.0, "", line.words);
    }
    let notes = [
        "Each point: the worst of four places.",
        "Kernel mode, warm tables, F is 2 × V.",
        "An eighth of the kernel's entries",
        "changes between two synchronisations.",
        "A cost that grows with V rises one",
        "decade in 3.3 doublings.",
        "memcpy rises faster where source and",
        "target do not fit into the first cache.",
    ];
    for (place, note) in notes.into_iter().enumerate() {
        svg += &text(x, y + 112.0 + 18.0 * place as f64, "font-size=\"12\"", note);
    }
    svg
}

pub fn plot(times: &Times) -> String {
    let rows = Growth::ALL.len() / COLUMNS + 1;
    let (width, height) = (COLUMNS as f64 * CELL.0, HEAD + rows as f64 * CELL.1);
    let mut svg = format!(
        "<svg xmlns=\"http://www.w3.org/2000/svg\" viewBox=\"0 0 {width} {height}\" width=\"{width}\" height=\"{height}\" \
         font-family=\"sans-serif\" font-size=\"13\">\n<rect width=\"{width}\" height=\"{height}\" fill=\"white\"/>\n"
    );
    svg += &text(
        LEFT,
        28.0,
        "font-size=\"16\" font-weight=\"bold\"",
        "Time of a call by the number of pages",
    );
    for (number, call) in Growth::ALL.into_iter().enumerate() {
        svg += &panel(number, call, times);
    }
    svg + &legend() + "</svg>\n"
}
