//! Figures by case and side: nanoseconds or instructions of a repetition. A file of them has a line for each, in three columns with tabs.

use std::collections::BTreeMap;
use std::fs;
use std::path::Path;

use crate::work::Side;

/// The places of a function's begin, in bytes of 64.
pub const PLACES: [usize; 4] = [0, 16, 32, 48];

/// The figures of one place, or the counts.
#[derive(Default)]
pub struct Figures(BTreeMap<(String, Side), f64>);

impl Figures {
    /// Takes a figure. Of several for the same the least stays: what disturbs a program makes it slower.
    pub fn take(&mut self, name: &str, side: Side, value: f64) {
        let least = self.0.entry((name.into(), side)).or_insert(value);
        *least = least.min(value);
    }

    pub fn get(&self, name: &str, side: Side) -> Option<f64> {
        self.0.get(&(name.into(), side)).copied()
    }

    /// As the lines of a file.
    pub fn lines(&self) -> String {
        let lines = self.0.iter();
        lines.map(|((name, side), value)| format!("{name}\t{}\t{value}\n", side.name())).collect()
    }

    /// None where a line is none of a figure.
    fn read(text: &str) -> Option<Figures> {
        let mut figures = Figures::default();
        for line in text.lines() {
            let mut columns = line.split('\t');
            let (name, side, value) = (columns.next()?, columns.next()?, columns.next()?);
            figures.take(name, Side::named(side)?, value.parse().ok()?);
        }
        Some(figures)
    }

    fn read_file(path: &Path) -> Result<Figures, String> {
        let text = fs::read_to_string(path).map_err(|e| format!("{}: {e}", path.display()))?;
        Figures::read(&text).ok_or(format!("{}: a line is no figure", path.display()))
    }

    /// The instruction counts of a folder of figures.
    pub fn counts(folder: &str) -> Result<Figures, String> {
        Figures::read_file(&Path::new(folder).join("counts"))
    }
}

/// The times at each place.
pub struct Times(Vec<Figures>);

impl Times {
    /// Those of one program, wherever its functions are.
    pub fn of_one(figures: Figures) -> Times {
        Times(vec![figures])
    }

    /// Those of a folder of figures.
    pub fn all(folder: &str) -> Result<Times, String> {
        let file = |place| Path::new(folder).join(format!("at-{place}"));
        PLACES
            .into_iter()
            .map(|place| Figures::read_file(&file(place)))
            .collect::<Result<_, _>>()
            .map(Times)
    }

    fn at_places(&self, name: &str, side: Side) -> impl Iterator<Item = f64> + '_ {
        let name = name.to_string();
        self.0.iter().filter_map(move |figures| figures.get(&name, side))
    }

    pub fn worst(&self, name: &str, side: Side) -> Option<f64> {
        self.at_places(name, side).max_by(f64::total_cmp)
    }

    pub fn best(&self, name: &str, side: Side) -> Option<f64> {
        self.at_places(name, side).min_by(f64::total_cmp)
    }
}
