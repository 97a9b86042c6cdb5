// Ask (K6): "Ask names a page and a frame", "sets the frame's exclusion bit", and the pair is pending; 0 and 0. Questions 7, 9, 20 and 21,
// in this order; 7 is in question_7_cases and state_run_cases.
use crate::calls::Answer::Done;
use crate::drivers::ask;
use crate::drivers::case;
use crate::drivers::in_user_mode;
use crate::drivers::started;
use crate::drivers::Guard;
use crate::drivers::NO_EXECUTE;
use crate::guard;
use crate::tally::Tally;

// An accepted ask: what is left is what was given, with this vector and these words of the pair.
fn accepted(
    t: Tally,
    name: &str,
    given: Guard,
    [page, frame]: [u64; 2],
    exclusion: [u8; 2],
    pair: [u64; 3],
) -> Tally {
    let left = given.excluding(exclusion).pair(pair);
    case(t, "ask", name, given, ask(page, frame), Done(0, 0), left)
}

fn refused(t: Tally, name: &str, given: Guard, [page, frame]: [u64; 2], number: u64) -> Tally {
    crate::drivers::refused(t, "ask", name, given, ask(page, frame), number)
}

fn pending(t: Tally) -> Tally {
    let t = accepted(t, "page 0 and frame 5", started(), [0, 5], [0x24, 0x01], [1, 0, 5]);
    let t = accepted(t, "page 2 and frame 0", started(), [2, 0], [0x05, 0x01], [1, 2, 0]);
    let t = accepted(t, "the last page and frame 7", started(), [7, 7], [0x84, 0x01], [1, 7, 7]);
    let t = accepted(t, "page 4, user mode", in_user_mode(), [4, 6], [0x44, 0x01], [1, 4, 6]);
    // Where none is pending the words of the pair are not read, and an ask writes all three.
    let other = started().pair([0, 7, 4]);
    let t = accepted(t, "over other words", other, [0, 5], [0x24, 0x01], [1, 0, 5]);
    let wide = started().pair([0, 18446744073709551615, 65536]);
    let t = accepted(t, "over wide words", wide, [0, 0], [0x05, 0x01], [1, 0, 0]);
    // Spare bits of the vector stay as they are.
    let spare = started().excluding([0x00, 0xfe]);
    accepted(t, "spare bits stay", spare, [0, 8], [0x00, 0xff], [1, 0, 8])
}

// "9 [..] the named frame below F", and the page below V; no number is cut. Before 20 and 21.
fn question_9(t: Tally) -> Tally {
    let mut t = t;
    for (name, page, frame) in [
        ("page 8 of 8", 8, 5),
        ("page 65535", 65535, 5),
        ("page 65536", 65536, 5),
        ("page 65540", 65540, 5),
        ("page 2^32 + 4", 4294967300, 5),
        ("page 2^63 + 4", 9223372036854775812, 5),
        ("the highest page", 18446744073709551615, 5),
        ("frame 9 of 9", 4, 9),
        ("frame 15 of 9, a spare bit of the vector", 4, 15),
        ("frame 16 of 9, past the vector", 4, 16),
        ("frame 65535", 4, 65535),
        ("frame 65541", 4, 65541),
        ("frame 2^32 + 5", 4, 4294967301),
        ("frame 2^63 + 5", 4, 9223372036854775813),
        ("the highest frame", 4, 18446744073709551615),
        ("page 8 and frame 9", 8, 9),
    ] {
        t = refused(t, name, started(), [page, frame], 9);
        let busy = started().pair([1, 0, 5]).excluding([0x24, 0x01]);
        t = refused(t, &format!("{name} while a pair is pending"), busy, [page, frame], 9);
    }
    let t = refused(t, "page 8 with an excluded frame", started(), [8, 2], 9);
    let t = refused(t, "frame 9 for an approved page", started(), [1, 9], 9);
    let writable = started().entry(4, 0x9003).entry(5, 0x5003);
    let t = refused(t, "frame 9 that a page maps writable", writable, [4, 9], 9);
    refused(t, "page 8 with a frame that is mapped writable", writable, [8, 5], 9)
}

// "with 20 an ask while one is pending, an ask [..] whose page has an approval, or an ask for an excluded frame", before 21.
fn question_20(t: Tally) -> Tally {
    let pending = started().pair([1, 0, 5]).excluding([0x24, 0x01]);
    let t = refused(t, "while another pair is pending", pending, [4, 6], 20);
    let t = refused(t, "for the page that is pending", pending, [0, 6], 20);
    let t = refused(t, "for the frame that is pending", pending, [4, 5], 20);
    let t = refused(t, "for the pair that is pending", pending, [0, 5], 20);
    // The bit of the pending frame is clear, as no list leaves it.
    let made_up = started().pair([1, 0, 5]);
    let t = refused(t, "while a pair is pending that is not excluded", made_up, [0, 5], 20);
    let t = refused(t, "for an approved page", started(), [1, 5], 20);
    let t = refused(t, "for another approved page", started(), [3, 5], 20);
    let t = refused(t, "for an approved page in user mode", in_user_mode(), [3, 5], 20);
    // "Has an approval" is the map's word.
    let t = refused(t, "for a page approved for frame 0", started().number(0, 0), [0, 5], 20);
    let t = refused(t, "for a damaged number", started().number(0, 65534), [0, 5], 20);
    let absent = started().entry(1, 0);
    let t = refused(t, "for an approved page that is absent", absent, [1, 5], 20);
    let marked = started().entry(0, 0x5401);
    let pair = [1, 0, 5];
    let t = accepted(t, "a mark and no number in the map", marked, [0, 5], [0x24, 0x01], pair);
    let t = refused(t, "for the frame of an approved page", started(), [0, 2], 20);
    let t = refused(t, "for the last frame, which is excluded", started(), [0, 8], 20);
    let t = refused(t, "for an excluded frame in user mode", in_user_mode(), [0, 2], 20);
    let all = started().excluding([0xff, 0x01]);
    let t = refused(t, "for frame 0 where all are excluded", all, [0, 0], 20);
    let t = refused(t, "for frame 7 where all are excluded", all, [0, 7], 20);
    let only = started().excluding([0xdf, 0xff]);
    let t = accepted(t, "the only frame not excluded", only, [0, 5], [0xff, 0xff], [1, 0, 5]);
    let t = refused(t, "for an approved page and an excluded frame", started(), [1, 2], 20);
    refused(t, "all three", pending, [1, 2], 20)
}

// "with 21 an ask for a frame that a present shadow entry maps writable": bits 0 and 1 and the frame, of any page.
fn question_21(t: Tally) -> Tally {
    let mut t = t;
    for (name, entry) in [
        ("writable", 0x5003),
        ("writable and user", NO_EXECUTE | 0x5007),
        ("writable and no-execute", NO_EXECUTE | 0x5203),
        ("writable with the approved mark", 0x5403),
        ("writable with all other bits", 0xfff0000000005fff),
    ] {
        for page in [0, 4, 7] {
            let mapped = started().entry(page, entry);
            t = refused(t, &format!("{name}, page {page}"), mapped, [0, 5], 21);
        }
        // A made-up entry: an approved one is not writable.
        t = refused(t, &format!("{name}, an approved page"), started().entry(1, entry), [0, 5], 21);
    }
    let mapped = in_user_mode().entry(4, 0x5007);
    let t = refused(t, "writable in user mode", mapped, [0, 5], 21);
    let two = started().entry(4, 0x5001).entry(5, 0x5003);
    let t = refused(t, "read-only on one page and writable on another", two, [0, 5], 21);
    let last = started().entry(7, 0x3);
    refused(t, "frame 0 on the last page", last, [0, 0], 21)
}

// What 21 does not ask about.
fn not_question_21(t: Tally) -> Tally {
    let mut t = t;
    for (name, entry) in [
        ("bit 1 where bit 0 is clear", 0x5002),
        ("all bits but bit 0", 0xfff0000000005ffe),
        ("read-only", 0x5001),
        ("read-only and user", 0x5005),
        ("all bits but bit 1", 0xfff0000000005ffd),
        ("the frame below", 0x4003),
        ("the frame above", 0x6003),
        ("a frame with the same lower bits", 0x0000000010005003),
        ("a frame with the same lower 39 bits", 0x0008000000005003),
    ] {
        for page in [0, 1, 4] {
            let name = format!("{name}, page {page}");
            let mapped = started().entry(page, entry);
            t = accepted(t, &name, mapped, [0, 5], [0x24, 0x01], [1, 0, 5]);
        }
    }
    t
}

// 20 before 21: frames that are mapped writable.
fn order(t: Tally) -> Tally {
    let writable = started().entry(4, 0x5003).entry(5, 0x2003).entry(6, 0x6003);
    let pending = writable.pair([1, 0, 7]).excluding([0x84, 0x01]);
    let t = refused(t, "20 before 21, while a pair is pending", pending, [0, 5], 20);
    let t = refused(t, "20 before 21, an approved page", writable, [1, 5], 20);
    let t = refused(t, "20 before 21, an excluded frame", writable, [0, 2], 20);
    refused(t, "21 alone", writable, [0, 6], 21)
}

// The smallest and the largest tables.
fn sizes(t: Tally) -> Tally {
    let mut exclusion = [0];
    let s = guard::state(1, 1, 1, [0, 0, 0, 0], crate::calls::Mode::Kernel(0));
    let called = crate::calls::ask(s, &[0], &[65535], &mut exclusion, 0, 0);
    let pending = called.state == crate::calls::State { pending: [1, 0, 0], ..s };
    let right = called.answer == Done(0, 0) && pending && exclusion == [1];
    let t = t.case("ask", "the only page and the only frame", right);
    let s = guard::state(2048, 4096, 1, [0, 0, 0, 0], crate::calls::Mode::User(2047));
    let mut exclusion = [0; 512];
    let mut shadow = [0xffe003; 2048];
    let called = crate::calls::ask(s, &shadow, &[65535; 2048], &mut exclusion, 2047, 4095);
    let pending = called.state == crate::calls::State { pending: [1, 2047, 4095], ..s };
    let bits = exclusion[..511] == [0; 511] && exclusion[511] == 0x80;
    let t = t.case("ask", "V 2048 and F 4096", called.answer == Done(0, 0) && pending && bits);
    shadow[2047] = 0xfff003;
    let mut exclusion = [0; 512];
    let called = crate::calls::ask(s, &shadow, &[65535; 2048], &mut exclusion, 0, 4095);
    let unchanged = called.state == s && exclusion == [0; 512];
    let refused = called.answer == crate::calls::Answer::Refused(21);
    t.case("ask", "the last of 2048 entries is writable", refused && unchanged)
}

pub fn all(t: Tally) -> Tally {
    let t = pending(t);
    let t = question_9(t);
    let t = question_20(t);
    let t = question_21(t);
    let t = not_question_21(t);
    let t = order(t);
    sizes(t)
}
