// Drop (K6): "clears the exclusion bit", and the pair; 0 and 0. Questions 7 and 22; 7 is in question_7_cases and state_run_cases.
use crate::calls::Answer::Done;
use crate::drivers::case;
use crate::drivers::drop;
use crate::drivers::in_user_mode;
use crate::drivers::started;
use crate::drivers::Guard;
use crate::guard;
use crate::tally::Tally;

// An accepted drop: what is left is what was given, with this vector and with no pair.
fn accepted(t: Tally, name: &str, given: Guard, exclusion: [u8; 2]) -> Tally {
    let left = given.excluding(exclusion).pair([0, 0, 0]);
    case(t, "drop", name, given, drop, Done(0, 0), left)
}

fn dropped(t: Tally) -> Tally {
    let pending = |page, frame, exclusion| started().pair([1, page, frame]).excluding(exclusion);
    let t = accepted(t, "frame 5", pending(0, 5, [0x24, 0x01]), [0x04, 0x01]);
    let t = accepted(t, "frame 0", pending(7, 0, [0x05, 0x01]), [0x04, 0x01]);
    let t = accepted(t, "frame 7", pending(4, 7, [0x84, 0x01]), [0x04, 0x01]);
    let user = in_user_mode().pair([1, 0, 6]).excluding([0x44, 0x01]);
    let t = accepted(t, "frame 6, user mode", user, [0x04, 0x01]);
    // Made-up vectors: every other bit stays, spare ones included, and a bit that is clear stays clear.
    let t = accepted(t, "one of all bits", pending(0, 5, [0xff, 0xff]), [0xdf, 0xff]);
    let t = accepted(t, "the last frame of all bits", pending(0, 8, [0xff, 0xff]), [0xff, 0xfe]);
    let t = accepted(t, "a bit that is clear", pending(0, 5, [0xdf, 0xff]), [0xdf, 0xff]);
    // No shadow entry and no number in the map changes, whatever they are; a drop is not lent them.
    let mapped = pending(2, 5, [0x24, 0x01]).entry(2, 0x5205).entry(4, 0x5001).number(2, 5);
    accepted(t, "pages that have the frame", mapped, [0x04, 0x01])
}

// "with 22 a commit or drop with nothing pending": the words of a pair are not read then, and stay.
fn question_22(t: Tally) -> Tally {
    let mut t = t;
    for (name, pair) in [
        ("nothing pending", [0, 0, 0]),
        ("a pair that is not pending", [0, 0, 5]),
        ("words out of range that are not read", [0, 8, 9]),
        ("wide words that are not read", [0, 18446744073709551615, 65536]),
    ] {
        for (mode, guard) in [("kernel mode", started()), ("user mode", in_user_mode())] {
            let given = guard.pair(pair).excluding([0x24, 0x01]);
            let name = format!("{name}, {mode}");
            t = crate::drivers::refused(t, "drop", &name, given, drop, 22);
        }
    }
    t
}

// The smallest and the largest vector.
fn sizes(t: Tally) -> Tally {
    let s = guard::state(1, 1, 1, [0, 0, 0, 0], crate::calls::Mode::Kernel(0));
    let pending = crate::calls::State { pending: [1, 0, 0], ..s };
    let mut exclusion = [0xff];
    let called = crate::calls::drop(pending, &mut exclusion);
    let right = called.answer == Done(0, 0) && called.state == s && exclusion == [0xfe];
    let t = t.case("drop", "the only page and the only frame", right);
    let s = guard::state(2048, 4096, 1, [0, 0, 0, 0], crate::calls::Mode::User(2047));
    let pending = crate::calls::State { pending: [1, 2047, 4095], ..s };
    let mut exclusion = [0xff; 512];
    let called = crate::calls::drop(pending, &mut exclusion);
    let bits = exclusion[..511] == [0xff; 511] && exclusion[511] == 0x7f;
    t.case("drop", "frame 4095", called.answer == Done(0, 0) && called.state == s && bits)
}

pub fn all(t: Tally) -> Tally {
    let t = dropped(t);
    let t = question_22(t);
    sizes(t)
}
