//! The count of cases, and the line that each prints.

#[derive(Clone, Copy, Default)]
pub struct Tally {
    passed: u64,
    failed: u64,
}

impl Tally {
    /// Counts a case of a call and prints its line.
    pub fn case(mut self, call: &str, name: &str, right: bool) -> Self {
        if right {
            self.passed += 1;
            println!("ok {call}: {name}");
        } else {
            self.failed += 1;
            println!("WRONG {call}: {name}");
        }
        self
    }

    /// Prints the total, and tells whether every case was right and there were any.
    pub fn total(self) -> bool {
        println!("{} passed, {} failed", self.passed, self.failed);
        self.failed == 0 && self.passed > 0
    }
}
