//! What a call of the archive answers, as a result.

use crate::archive::NUMBERS;
use crate::Refusal;

/// The two numbers of an accepted call.
pub(crate) fn answer(call: impl FnOnce(&mut [u64]) -> u64) -> Result<[u64; NUMBERS], Refusal> {
    let mut numbers = [0; NUMBERS];
    match call(&mut numbers) {
        0 => Ok(numbers),
        number => Err(Refusal::from_number(number).expect("the archive answers 0 or a refusal")),
    }
}
