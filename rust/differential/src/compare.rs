//! One call on the archive and on the reference: where number, runs or tables differ, a message says how.

use reference::claim::Call as Listed;
use reference::path::Path;
use reference::Mistake;

use crate::call::{Call, Lent};
use crate::sides::{by_archive, by_reference};

/// The call on both sides: the number, where number, runs and tables are the same, and what is lent as it was left.
pub fn compare(mistake: Mistake, lent: &mut Lent, call: &Call) -> Result<u64, String> {
    let mut expected = lent.clone();
    let number = by_archive(lent, call);
    let expected_number = by_reference(mistake, &mut expected, call);
    if number == expected_number && *lent == expected {
        return Ok(number);
    }
    let what = [
        ("number", number != expected_number),
        ("two numbers", lent.numbers != expected.numbers),
        ("state", lent.state != expected.state),
        ("shadow", lent.shadow != expected.shadow),
        ("map", lent.map != expected.map),
        ("exclusion", lent.exclusion != expected.exclusion),
        ("buffer", lent.buffer != expected.buffer),
    ];
    let differ: Vec<_> =
        what.iter().filter(|(_, differs)| *differs).map(|(name, _)| *name).collect();
    let mut message = format!(
        "{} differ: archive {number} {:?}, reference {expected_number} {:?}, state {:?}, {call:?}",
        differ.join(", "),
        lent.numbers,
        expected.numbers,
        expected.state,
    );
    if let Some(path) = path_of(call) {
        message += &format!(", {path:x?}");
    }
    if lent.buffer != expected.buffer {
        let (left, wanted) = (&lent.buffer, &expected.buffer);
        message += &format!(", buffers: archive {left:?}, reference {wanted:?}");
    }
    Err(message)
}

/// The way to the one page of a call with a tree that question 17 accepts.
fn path_of(call: &Call) -> Option<Path> {
    let (tree, page) = match *call {
        Call::Walk { tree, page } => (tree, page),
        Call::Listed(Listed::SynchroniseOneFromTree { tree, page }) => (tree, page),
        _ => return None,
    };
    reference::walk(tree, page).is_ok().then(|| Path::to(page, &tree))
}
