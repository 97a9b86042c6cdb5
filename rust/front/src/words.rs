//! The lines of a script or a policy as items: a name, then names and numbers.
//! What is wrong with a word is told with its line.

use crate::text::shown;
use crate::LineError;

/// The field that a number goes to.
#[derive(Clone, Copy)]
pub(crate) struct Field {
    pub name: &'static str,
    pub largest: u64,
}

pub(crate) const fn field16(name: &'static str) -> Field {
    Field { name, largest: u16::MAX as u64 }
}

pub(crate) const fn field64(name: &'static str) -> Field {
    Field { name, largest: u64::MAX }
}

pub(crate) const PAGE: Field = field16("page");

/// Each item of a script: its name, and the words after it. Comments and empty lines are none.
pub(crate) fn items(script: &str) -> impl Iterator<Item = (&str, Words<'_>)> {
    script.lines().enumerate().filter_map(|(at, line)| {
        let item = line.split('#').next().unwrap_or_default();
        let mut words = Words { line: at + 1, rest: item.split_whitespace() };
        let name = words.rest.next()?;
        Some((name, words))
    })
}

/// The last line of a script, where something is missing.
pub(crate) fn last_line(script: &str) -> usize {
    script.lines().count().max(1)
}

/// The words of one line that are still to be read.
pub(crate) struct Words<'a> {
    pub line: usize,
    rest: std::str::SplitWhitespace<'a>,
}

impl Words<'_> {
    pub fn error<T>(&self, message: String) -> Result<T, LineError> {
        Err(LineError::new(self.line, message))
    }

    /// A name that has to come next.
    fn name(&mut self, name: &str) -> Result<(), LineError> {
        match self.rest.next() {
            Some(found) if found == name => Ok(()),
            Some(found) => self.error(format!("'{name}' is expected, not '{}'", shown(found))),
            None => self.error(format!("'{name}' is missing")),
        }
    }

    /// A name that may come next.
    pub fn has_name(&mut self, name: &str) -> bool {
        let mut ahead = self.rest.clone();
        let found = ahead.next() == Some(name);
        if found {
            self.rest = ahead;
        }
        found
    }

    pub fn has_more(&self) -> bool {
        self.rest.clone().next().is_some()
    }

    /// A name and its number.
    pub fn named(&mut self, name: &str, field: Field) -> Result<u64, LineError> {
        self.name(name)?;
        self.number(field)
    }

    pub fn named16(&mut self, name: &str, field: Field) -> Result<u16, LineError> {
        Ok(self.named(name, field)? as u16)
    }

    pub fn number(&mut self, field: Field) -> Result<u64, LineError> {
        let Field { name, largest } = field;
        let Some(word) = self.rest.next() else {
            return self.error(format!("the {name} is missing"));
        };
        let (digits, radix) = match word.strip_prefix("0x") {
            Some(digits) => (digits, 16),
            None => (word, 10),
        };
        if digits.is_empty() || !digits.chars().all(|digit| digit.is_digit(radix)) {
            return self.error(format!(
                "the {name} is a number, decimal or hexadecimal with 0x, not '{}'",
                shown(word)
            ));
        }
        match u64::from_str_radix(digits, radix) {
            Ok(number) if number <= largest => Ok(number),
            _ => self.error(format!(
                "the {name} {} does not fit its field, at most {largest}",
                shown(word)
            )),
        }
    }

    pub fn end(&mut self) -> Result<(), LineError> {
        match self.rest.next() {
            None => Ok(()),
            Some(word) => self.error(format!("'{}' is too much on this line", shown(word))),
        }
    }
}
