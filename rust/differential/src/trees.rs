//! Runs of tables (K4): drawn with a level for each table, so that most walks come to a page, and with entries at which walks end.
//! A call is lent the run, root and depth as they were drawn, or others that are in order, or some that question 17 refuses.

use inputs::{KernelEntry, Random};
use reference::Tree;

use crate::aim::Aim;

/// The entries of a table.
const ENTRIES: usize = 512;
/// The least number of entries that a table has of its own; those past them repeat them.
const FEWEST: usize = 16;

pub struct Trees {
    /// Whole tables, and a word more, so that a call can be lent one too many.
    words: Vec<u64>,
    /// The level of each table.
    levels: Vec<u64>,
    root: u64,
    depth: u64,
    /// How many entries of a table are drawn, with the last one beside them.
    drawn: usize,
}

impl Trees {
    pub fn new(random: &mut Random, aim: &Aim) -> Trees {
        let depth = 1 + random.below(3);
        // A table for each level, and some more of any.
        let more = random.below(4);
        let mut levels: Vec<_> = (1..=depth).rev().collect();
        levels.extend((0..more).map(|_| 1 + random.below(depth)));
        levels.rotate_left(random.below(depth + more) as usize);
        let root = levels.iter().position(|&level| level == depth).unwrap_or(0) as u64;
        let drawn = (aim.pages() as usize + 2).clamp(FEWEST, ENTRIES);
        let words = vec![0; ENTRIES * levels.len() + 1];
        let mut trees = Trees { words, levels, root, depth, drawn };
        for table in 0..trees.levels.len() {
            for index in (0..drawn).chain([ENTRIES - 1]) {
                trees.draw(random, aim, table, index);
            }
            let entries = &mut trees.words[ENTRIES * table..][..ENTRIES];
            for index in drawn..ENTRIES - 1 {
                entries[index] = entries[index - drawn];
            }
        }
        trees
    }

    /// Draws some entries anew, or now and then all.
    pub fn edit(&mut self, random: &mut Random, aim: &Aim) {
        if random.one_in(30) {
            *self = Trees::new(random, aim);
        }
        for _ in 0..random.below(3) {
            let table = random.below(self.count()) as usize;
            let index = random.below(self.drawn as u64) as usize;
            self.draw(random, aim, table, index);
        }
        if let Some(asked) = aim.asked().filter(|_| random.one_in(4)) {
            // The asked page and one more, in a table of level 1.
            let table = self.levels.iter().position(|&level| level == 1).unwrap_or(0);
            let any = random.below(self.drawn as u64) as usize;
            for index in [asked as usize % ENTRIES, any] {
                self.draw(random, aim, table, index);
            }
        }
    }

    fn draw(&mut self, random: &mut Random, aim: &Aim, table: usize, index: usize) {
        self.words[ENTRIES * table + index] = self.entry(random, aim, self.levels[table]);
    }

    /// How many tables there are.
    fn count(&self) -> u64 {
        self.levels.len() as u64
    }

    /// An entry for a level. Those of level 1 are as in a flat table; more of those above are present, and take nothing away.
    fn entry(&self, random: &mut Random, aim: &Aim, level: u64) -> u64 {
        let mut entry = aim.entry(random);
        if level == 1 {
            return entry.bits();
        }
        entry.large = random.one_in(4);
        entry.frame = if level == 2 && entry.large {
            large_frame(random, aim.frames())
        } else {
            self.table_number(random, level - 1)
        };
        if random.one_in(2) {
            entry = KernelEntry { present: true, marker: 0, ..entry };
        }
        if random.one_in(4) {
            entry = KernelEntry { writable: true, user: true, no_execute: false, ..entry };
        }
        entry.bits()
    }

    /// Mostly the number of a table with this level. Another table may be one above, so that the walk goes round.
    fn table_number(&self, random: &mut Random, level: u64) -> u64 {
        let any = random.below(self.count());
        match random.below(10) {
            0 => any,
            // Just outside, or inside by its lower bits.
            1 => {
                let wide = any + (1 << random.pick(&[8, 16, 31, 32, 39]));
                random.pick(&[self.count(), self.count() + 1, wide, wide, (1 << 40) - 1])
            }
            _ => {
                let tables = (0..).zip(&self.levels).filter(|(_, &of)| of == level);
                let numbers: Vec<_> = tables.map(|(number, _)| number).collect();
                random.pick(&numbers)
            }
        }
    }

    /// The tree that a call is lent.
    pub fn lent(&self, random: &mut Random) -> Tree<'_> {
        let whole = &self.words[..ENTRIES * self.levels.len()];
        let mut tree = Tree { tables: whole, root: self.root, depth: self.depth };
        match random.below(14) {
            0 => self.damage(random, &mut tree),
            1 => {
                self.damage(random, &mut tree);
                self.damage(random, &mut tree);
            }
            // In order, but with tables at levels that they were not drawn for, or with tables that are not lent.
            2 | 3 => tree.depth = 1 + random.below(3),
            4 | 5 => tree.root = random.below(self.count()),
            6 => tree.tables = &whole[..ENTRIES * (1 + random.below(self.count()) as usize)],
            _ => {}
        }
        tree
    }

    /// Something for question 17 to refuse.
    fn damage<'a>(&'a self, random: &mut Random, tree: &mut Tree<'a>) {
        let wide = 1 << random.pick(&[16, 32, 55, 63]);
        match random.below(6) {
            0 => tree.tables = &[],
            1 | 2 => {
                let whole = self.words.len() - 1;
                let any = ENTRIES * random.below(self.count()) as usize;
                let within = 1 + random.below(ENTRIES as u64 - 1) as usize;
                let words = [ENTRIES - 1, ENTRIES + 1, whole - 1, whole + 1, any + within];
                tree.tables = &self.words[..random.pick(&words)];
            }
            3 => tree.depth = 0,
            4 => tree.depth = random.pick(&[4, 5, wide + self.depth, u64::MAX]),
            _ => {
                let count = self.count();
                tree.root = random.pick(&[count, count + 1, wide + self.root, u64::MAX]);
            }
        }
    }

    /// A page to walk to: mostly by indices that are drawn, in any digit; now and then with more bits than the depth has.
    pub fn page(&self, random: &mut Random, depth: u64) -> u64 {
        let depth = depth.clamp(1, 3);
        let drawn = self.drawn as u64;
        let bits = 9 * depth;
        match random.below(16) {
            0 => random.below(1 << bits),
            1 => random.pick(&[1 << bits, 2 << bits, 1 << 32, 1 << 63]) + random.below(drawn),
            2 => random.pick(&[1 << bits, u64::MAX]) - random.below(2),
            _ => (0..depth).fold(0, |page, _| {
                let digit = if random.one_in(8) { ENTRIES as u64 - 1 } else { random.below(drawn) };
                page << 9 | digit
            }),
        }
    }
}

/// The frame of a large page near F, or one that is not at a multiple of 512.
fn large_frame(random: &mut Random, frames: u64) -> u64 {
    let aligned = 512 * random.below(frames / 512 + 2);
    match random.below(4) {
        0 => aligned + (1 << random.below(9)),
        1 => aligned + random.below(512),
        _ => aligned,
    }
}
