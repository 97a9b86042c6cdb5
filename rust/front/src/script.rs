//! A readable script of a policy and calls becomes the bytes that the drill reads.
//! Only what the binary form asks is checked, that each number fits its field, so refused calls can be written too.

use crate::call::{bytes_of, Call, INDEX, LENGTH};
use crate::input::DrillInput;
use crate::policy::PolicyLines;
use crate::text::shown;
use crate::words::{field64, items, last_line, Field, Words};
use crate::LineError;

const VALUE: Field = field64("value");
const BYTE: Field = Field { name: "byte", largest: u8::MAX as u64 };
const KIND: Field = Field { name: "kind", largest: u8::MAX as u64 };

const ITEMS: &str = "policy, approve, edit, synchronise, fetch, write, enter, leave, \
device-write, call or bytes";

/// Encodes a script as drill input.
pub fn encode(script: &str) -> Result<DrillInput, LineError> {
    let mut encoder = Encoder::default();
    for (name, mut words) in items(script) {
        encoder.item(name, &mut words)?;
        words.end()?;
    }
    encoder.finish(last_line(script))
}

#[derive(Default)]
struct Encoder {
    /// The policy, until the first call closes it.
    policy: Option<PolicyLines>,
    /// The bytes, from the first item on.
    input: Option<DrillInput>,
}

impl Encoder {
    fn item(&mut self, name: &str, words: &mut Words) -> Result<(), LineError> {
        match name {
            "policy" => self.begin(words),
            "approve" => match &mut self.policy {
                Some(policy) => policy.approve(words),
                None => words.error("'approve' comes after the policy and before the calls".into()),
            },
            "bytes" => {
                let bytes = read_bytes(words)?;
                self.input.get_or_insert_with(|| DrillInput::new(words.line));
                self.push(&bytes, words)
            }
            _ => {
                let bytes = read_call(name, words)?;
                self.push(&bytes, words)
            }
        }
    }

    fn push(&mut self, bytes: &[u8], words: &Words) -> Result<(), LineError> {
        self.close_policy();
        let Some(input) = &mut self.input else {
            return words.error("a script begins with its policy".into());
        };
        input.push(bytes, words.line);
        Ok(())
    }

    fn begin(&mut self, words: &mut Words) -> Result<(), LineError> {
        if self.input.is_some() {
            return words.error("a script has one policy, at its beginning".into());
        }
        self.input = Some(DrillInput::new(words.line));
        self.policy = Some(PolicyLines::read(words)?);
        Ok(())
    }

    fn close_policy(&mut self) {
        if let (Some(lines), Some(input)) = (self.policy.take(), &mut self.input) {
            for number in lines.policy().numbers() {
                input.push(&number.value.to_le_bytes(), number.line);
            }
        }
    }

    fn finish(mut self, last_line: usize) -> Result<DrillInput, LineError> {
        self.close_policy();
        let input =
            self.input.ok_or_else(|| LineError::new(last_line, "the script has no policy"))?;
        input.check_calls()?;
        Ok(input)
    }
}

fn read_bytes(words: &mut Words) -> Result<Vec<u8>, LineError> {
    let mut bytes = vec![];
    while words.has_more() {
        bytes.push(words.number(BYTE)? as u8);
    }
    Ok(bytes)
}

/// A call that the drill makes, or one of any kind.
fn read_call(name: &str, words: &mut Words) -> Result<[u8; 16], LineError> {
    match name {
        "call" => {
            let kind = words.named("kind", KIND)? as u8;
            let index = words.named16("index", INDEX)?;
            let length = words.named("length", LENGTH)? as u32;
            Ok(bytes_of(kind, index, length, words.named("value", VALUE)?))
        }
        "ask" | "commit" | "drop" => {
            let other = "guard-script runs a script with it through the library";
            words.error(format!("'{name}' is no call of the drill; {other}"))
        }
        _ => match Call::read(name, words)?.and_then(Call::bytes) {
            Some(bytes) => Ok(bytes),
            None => words.error(format!("'{}' is no item; an item is {ITEMS}", shown(name))),
        },
    }
}
