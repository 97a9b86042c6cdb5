// What else K6 changes: synchronising while a pair is pending, "an ordinary entry for it clears writable and sets bit 9; this comes before
// step 4", and what becomes of fetches, writes, transfers, leaves and enters there; then lists of calls. Page 2 is pending with frame 5,
// where nothing else is said.
use crate::calls::Answer;
use crate::calls::Answer::Done;
use crate::calls::Answer::Refused;
use crate::drivers::ask;
use crate::drivers::case;
use crate::drivers::commit;
use crate::drivers::device_write;
use crate::drivers::drop;
use crate::drivers::enter;
use crate::drivers::fetch;
use crate::drivers::in_user_mode;
use crate::drivers::leave;
use crate::drivers::refused;
use crate::drivers::started;
use crate::drivers::sync_all;
use crate::drivers::sync_all_tree;
use crate::drivers::sync_page;
use crate::drivers::sync_page_tree;
use crate::drivers::write;
use crate::drivers::Guard;
use crate::drivers::List;
use crate::drivers::NO_EXECUTE;
use crate::tally::Tally;

fn pending(guard: Guard) -> Guard {
    guard.pair([1, 2, 5]).excluding([0x24, 0x01])
}

fn modes() -> [(&'static str, Guard); 2] {
    [("kernel mode", pending(started())), ("user mode", pending(in_user_mode()))]
}

// Synchronises a page by its kernel entry, alone and with the others, from a flat table and from a tree: the shadow entry, and the page's
// number in the map. The other pages have the entries that they are left with.
fn page(
    t: Tally,
    name: &str,
    given: Guard,
    (page, entry): (usize, u64),
    counts: [u64; 2],
    (shadow, number): (u64, u16),
) -> Tally {
    let mut kernel = [0, 0x2003, 0, 0x8003, 0, 0, 0, 0];
    kernel[page] = entry;
    let left = given.entry(page, shadow).number(page, number);
    let wanted = Done(counts[0], counts[1]);
    let alone = page as u64;
    let t = case(t, "sync_page", name, given, sync_page(kernel, alone), wanted, left);
    let t = case(t, "sync_all", name, given, sync_all(kernel), wanted, left);
    let t = case(t, "sync_page_tree", name, given, sync_page_tree(kernel, alone), wanted, left);
    case(t, "sync_all_tree", name, given, sync_all_tree(kernel), wanted, left)
}

// Ordinary entries with the pending frame: not writable, bit 9 set, "user and cache bits kept", and bit 63 by the ordinary rule: with bit
// 9 it is set in both modes.
fn entries(t: Tally) -> Tally {
    let mut t = t;
    for (mode, guard) in modes() {
        for (words, asked) in [("the asked page", 2), ("another page", 4), ("the last page", 7)] {
            for (name, entry, shadow) in [
                ("writable", 0x5003, 0x8000000000005201),
                ("read-only", 0x5001, 0x8000000000005201),
                ("writable and user", 0x5007, 0x8000000000005205),
                ("read-only and user", 0x5005, 0x8000000000005205),
                ("no-execute", 0x8000000000005007, 0x8000000000005205),
                ("write-through", 0x500b, 0x8000000000005209),
                ("cache disable", 0x5013, 0x8000000000005211),
                ("both cache bits and user", 0x501f, 0x800000000000521d),
                ("bits that are ignored", 0x5fe7, 0x8000000000005205),
            ] {
                let name = format!("{words} with the pending frame, {name}, {mode}");
                t = page(t, &name, guard, (asked, entry), [1, 0], (shadow, 65535));
            }
            let name = format!("{words} with the pending frame, again, {mode}");
            let given = guard.entry(asked, 0x8000000000005205);
            t = page(t, &name, given, (asked, 0x5007), [0, 0], (0x8000000000005205, 65535));
            let name = format!("{words} with the pending frame, as before the ask, {mode}");
            let given = guard.entry(asked, 0x5005);
            t = page(t, &name, given, (asked, 0x5005), [1, 0], (0x8000000000005205, 65535));
        }
    }
    t
}

// Steps 1 to 3 come before the rule.
fn before_the_rule(t: Tally) -> Tally {
    let mut t = t;
    for (mode, guard) in modes() {
        for (name, entry) in [
            ("an absent entry with the pending frame", 0x5006),
            ("a reserved bit with the pending frame", 0x0010000000005007),
            ("bit 62 with the pending frame", 0x4000000000005007),
            ("frame F", 0x9007),
            ("a frame with the same lower 16 bits", 0x0000000010005007),
            ("a frame with the same lower 39 bits", 0x0008000000005007),
        ] {
            let name = format!("{name}, {mode}");
            let given = guard.entry(4, NO_EXECUTE | 0x5205);
            t = page(t, &name, given, (4, entry), [1, 0], (0, 65535));
        }
        // Step 2: an approved page keeps its entry, be it the asked one by now.
        for (words, place, number) in
            [("an approved page", 1, 2), ("a page that joined", 4, 8), ("the asked page", 2, 2)]
        {
            let name = format!("{words} that maps the pending frame, {mode}");
            let given = guard.number(place, number).entry(place, 0);
            let approved = guard.approved(number.into());
            t = page(t, &name, given, (place, 0x5007), [1, 0], (approved, number));
        }
        let name = format!("a page approved for the pending frame, {mode}");
        let given = guard.number(4, 5);
        t = page(t, &name, given, (4, 0x5007), [1, 0], (guard.approved(5), 5));
    }
    t
}

// Other frames are what they were: an excluded one joins, another is ordinary, on the asked page too.
fn other_frames(t: Tally) -> Tally {
    let mut t = t;
    for (mode, guard) in modes() {
        for (words, place) in [("the asked page", 2), ("another page", 4)] {
            let name = format!("{words} with a frame of the policy joins, {mode}");
            t = page(t, &name, guard, (place, 0x2007), [1, 1], (guard.approved(2), 2));
            let name = format!("{words} with another frame is ordinary, {mode}");
            let ordinary = if guard.run[19] == 0 { 0x8000000000006007 } else { 0x6007 };
            t = page(t, &name, guard, (place, 0x6007), [1, 0], (ordinary, 65535));
            let name = format!("{words} with the frame below is ordinary, {mode}");
            t = page(t, &name, guard, (place, 0x4003), [1, 0], (NO_EXECUTE | 0x4003, 65535));
        }
    }
    t
}

// The rule reads the pair and not the vector; and where none is pending, it does not read the words of a pair.
fn what_the_rule_reads(t: Tally) -> Tally {
    let mut t = t;
    for (mode, guard) in modes() {
        let name = format!("a pending frame that is not excluded, {mode}");
        let given = guard.excluding([0x04, 0x01]);
        t = page(t, &name, given, (4, 0x5007), [1, 0], (0x8000000000005205, 65535));
        let name = format!("a frame of a pair that is not pending, {mode}");
        let given = guard.pair([0, 2, 5]).excluding([0x04, 0x01]);
        t = page(t, &name, given, (4, 0x5003), [1, 0], (NO_EXECUTE | 0x5003, 65535));
        let name = format!("an excluded frame of a pair that is not pending, {mode}");
        let given = guard.pair([0, 2, 5]);
        t = page(t, &name, given, (4, 0x5003), [1, 1], (guard.approved(5), 5));
        let name = format!("frame 0 is pending, {mode}");
        let given = guard.pair([1, 0, 0]).excluding([0x05, 0x01]);
        t = page(t, &name, given, (4, 0x7), [1, 0], (0x8000000000000205, 65535));
        let name = format!("frame 0 where none is pending, {mode}");
        let given = guard.pair([0, 0, 0]).excluding([0x04, 0x01]);
        t = page(t, &name, given, (4, 0x3), [1, 0], (NO_EXECUTE | 0x3, 65535));
    }
    t
}

// All pages at once: asked, alias, ordinary, approved, absent, of the policy's frame, F.
fn all_pages(t: Tally) -> Tally {
    let kernel = [0x5007, 0x5003, 0x5001, 0x8003, 0x4003, 0x2007, 0x9003, 0x5006];
    let map = [65535, 2, 65535, 8, 65535, 2, 65535, 65535];
    let mut t = t;
    for (mode, guard) in modes() {
        let shadow = [
            0x8000000000005205,
            guard.approved(2),
            0x8000000000005201,
            guard.approved(8),
            0x8000000000004003,
            guard.approved(2),
            0,
            0,
        ];
        let left = Guard { shadow, map, ..guard };
        let name = format!("all kinds of pages while a pair is pending, {mode}");
        t = case(t, "sync_all", &name, guard, sync_all(kernel), Done(4, 1), left);
        t = case(t, "sync_all_tree", &name, guard, sync_all_tree(kernel), Done(4, 1), left);
    }
    t
}

// A page that was synchronised while its frame is pending, or before the ask, and a made-up one that is writable.
fn accesses(t: Tally) -> Tally {
    let kernel_mode =
        pending(started()).entry(0, NO_EXECUTE | 0x5205).entry(2, NO_EXECUTE | 0x5201);
    let t = refused(t, "fetch", "kernel mode, a pending page", kernel_mode, fetch(2), 12);
    let t = refused(t, "fetch", "kernel mode, a user page of it", kernel_mode, fetch(0), 12);
    let user_mode = pending(in_user_mode()).entry(0, NO_EXECUTE | 0x5205);
    let t = refused(t, "fetch", "user mode, a pending page", user_mode, fetch(0), 12);
    let t = refused(t, "write", "a pending page", kernel_mode, write(0, 1), 12);
    let t = refused(t, "write", "a pending page in user mode", user_mode, write(4095, 1), 12);
    let writable = kernel_mode.entry(4, NO_EXECUTE | 0x5003);
    let t = refused(t, "write", "a made-up writable page of it", writable, write(16384, 16), 13);
    let across = writable.entry(5, NO_EXECUTE | 0x6003);
    let t = refused(t, "write", "across into another frame", across, write(20479, 2), 13);
    let t = refused(t, "device_write", "its first byte", kernel_mode, device_write(20480, 1), 13);
    let t = refused(t, "device_write", "its last byte", kernel_mode, device_write(24575, 1), 13);
    let t = refused(t, "device_write", "up to it", kernel_mode, device_write(12288, 8193), 13);
    let t = case(
        t,
        "device_write",
        "the frames before a pending one",
        kernel_mode,
        device_write(12288, 8192),
        Done(3, 4),
        kernel_mode,
    );
    let t = case(
        t,
        "device_write",
        "the frames after a pending one",
        kernel_mode,
        device_write(24576, 8192),
        Done(6, 7),
        kernel_mode,
    );
    refused(t, "leave", "to a page synchronised while pending", kernel_mode, leave(0), 12)
}

// A page that maps the frame read-only since before the ask keeps its entry, and user code may run there.
fn entry_of_before_the_ask(t: Tally) -> Tally {
    let given = pending(started()).entry(0, NO_EXECUTE | 0x5005);
    let shadow = [0x5005, NO_EXECUTE | 0x2401, 0, NO_EXECUTE | 0x8401, 0, 0, 0, 0];
    let left = Guard { shadow, ..given }.running([1, 0]);
    let t = case(t, "leave", "to a page of before the ask", given, leave(0), Done(3, 0), left);
    let t = case(t, "fetch", "a page of before the ask", left, fetch(0), Done(5, 5), left);
    refused(t, "write", "a page of before the ask", left, write(0, 1), 12)
}

// A switch keeps bits 1 and 9 of such an entry, so that it stays closed in both modes; the pair stays too.
fn switches(t: Tally) -> Tally {
    let kernel_mode =
        pending(started()).entry(0, NO_EXECUTE | 0x5205).entry(4, NO_EXECUTE | 0x6007);
    let shadow =
        [NO_EXECUTE | 0x5205, NO_EXECUTE | 0x2401, 0, NO_EXECUTE | 0x8401, 0x6007, 0, 0, 0];
    let user_mode = Guard { shadow, ..kernel_mode }.running([1, 4]);
    let t =
        case(t, "leave", "while a pair is pending", kernel_mode, leave(4), Done(3, 0), user_mode);
    let entered = kernel_mode.running([0, 3]);
    case(t, "enter", "while a pair is pending", user_mode, enter(1), Done(3, 0), entered)
}

// A driver arrives in frame 5, is inspected, and runs in page 2.
fn list_to_a_commit(t: Tally) -> Tally {
    let mut list = List::new("a driver is committed", started());
    let kernel = [0x5007, 0x2003, 0x5001, 0x8003, 0, 0, 0, 0x6007];
    let shadow =
        [NO_EXECUTE | 0x5007, 0x2401, NO_EXECUTE | 0x5001, 0x8401, 0, 0, 0, NO_EXECUTE | 0x6007];
    let left = Guard { shadow, ..started() };
    let t = list.then(t, "all pages", sync_all(kernel), Done(3, 0), left);
    let t = list.then(t, "a write to the frame", write(0, 1), Done(5, 5), left);
    let t = list.then(t, "an ask, page 0 is writable", ask(2, 5), Refused(21), left);
    let mut read_only = kernel;
    read_only[0] = 0x5005;
    let left = left.entry(0, NO_EXECUTE | 0x5005);
    let t = list.then(t, "page 0 read-only", sync_page(read_only, 0), Done(1, 0), left);
    let left = left.pair([1, 2, 5]).excluding([0x24, 0x01]);
    let t = list.then(t, "the ask", ask(2, 5), Done(0, 0), left);
    let t = list.then(t, "a write", write(0, 1), Refused(12), left);
    let t = list.then(t, "a transfer", device_write(20480, 4096), Refused(13), left);
    let t = list.then(t, "a fetch", fetch(2), Refused(12), left);
    let t = list.then(t, "another ask", ask(4, 4), Refused(20), left);
    let left = left.entry(0, NO_EXECUTE | 0x5205).entry(2, NO_EXECUTE | 0x5201);
    let t = list.then(t, "all pages again", sync_all(kernel), Done(2, 0), left);
    let t = list.then(t, "a leave to page 0", leave(0), Refused(12), left);
    let left = left.pair([0, 0, 0]).entry(0, 0x5401).entry(2, 0x5401).number(0, 5).number(2, 5);
    let t = list.then(t, "the commit", commit, Done(2, 2), left);
    let t = list.then(t, "another commit", commit, Refused(22), left);
    let t = list.then(t, "a drop", drop, Refused(22), left);
    let t = list.then(t, "an ask for the page", ask(2, 6), Refused(20), left);
    let t = list.then(t, "an ask for the frame", ask(4, 5), Refused(20), left);
    let t = list.then(t, "a write after it", write(0, 1), Refused(12), left);
    let t = list.then(t, "a transfer after it", device_write(24575, 1), Refused(13), left);
    let left = left.running([0, 2]);
    let t = list.then(t, "a fetch after it", fetch(2), Done(5, 5), left);
    // An alias that comes later joins by step 4.
    let mut alias = kernel;
    alias[4] = 0x5007;
    let left = left.entry(4, 0x5401).number(4, 5);
    let t = list.then(t, "an alias after it", sync_page(alias, 4), Done(1, 1), left);
    // Absent and present again, it is approved.
    alias[2] = 0;
    let left = left.entry(2, 0);
    let t = list.then(t, "page 2 absent", sync_page(alias, 2), Done(1, 0), left);
    alias[2] = 0x4003;
    let left = left.entry(2, 0x5401);
    list.then(t, "page 2 with another frame", sync_page(alias, 2), Done(1, 0), left)
}

// "Drop clears the exclusion bit": ask, drop and ask again.
fn list_to_a_drop(t: Tally) -> Tally {
    let mut list = List::new("a driver is dropped", started());
    let kernel = [0x5007, 0x2003, 0, 0x8003, 0, 0, 0, 0];
    let asked = started().pair([1, 2, 5]).excluding([0x24, 0x01]);
    let t = list.then(t, "the ask", ask(2, 5), Done(0, 0), asked);
    let closed = asked.entry(0, NO_EXECUTE | 0x5205);
    let t = list.then(t, "page 0", sync_page(kernel, 0), Done(1, 0), closed);
    let dropped = started().entry(0, NO_EXECUTE | 0x5205);
    let t = list.then(t, "the drop", drop, Done(0, 0), dropped);
    let t = list.then(t, "a transfer after it", device_write(20480, 1), Done(5, 5), dropped);
    let t = list.then(t, "a commit after it", commit, Refused(22), dropped);
    let t =
        list.then(t, "a write before page 0 is synchronised", write(0, 1), Refused(12), dropped);
    let t = list.then(t, "the ask again", ask(2, 5), Done(0, 0), closed);
    let t = list.then(t, "the drop again", drop, Done(0, 0), dropped);
    let open = started().entry(0, NO_EXECUTE | 0x5007);
    let t = list.then(t, "page 0 after it", sync_page(kernel, 0), Done(1, 0), open);
    let t = list.then(t, "a write after it", write(0, 1), Done(5, 5), open);
    let t = list.then(t, "an ask for it, which is writable", ask(2, 5), Refused(21), open);
    let other = open.pair([1, 2, 6]).excluding([0x44, 0x01]);
    let t = list.then(t, "an ask for another frame", ask(2, 6), Done(0, 0), other);
    let committed = open.excluding([0x44, 0x01]).entry(2, 0x6401).number(2, 6);
    list.then(t, "its commit", commit, Done(1, 1), committed)
}

// The asked page joins with a frame of the policy before the commit, which 20 refuses then; a drop ends it.
fn list_to_20(t: Tally) -> Tally {
    let mut list = List::new("the asked page joins", started());
    let kernel = [0, 0x2003, 0x2007, 0x8003, 0, 0, 0, 0];
    let asked = started().pair([1, 2, 5]).excluding([0x24, 0x01]);
    let t = list.then(t, "the ask", ask(2, 5), Done(0, 0), asked);
    let joined = asked.entry(2, 0x2401).number(2, 2);
    let t = list.then(t, "page 2", sync_page(kernel, 2), Done(1, 1), joined);
    let t = list.then(t, "the commit", commit, Refused(20), joined);
    let t = list.then(t, "an ask", ask(4, 6), Refused(20), joined);
    let dropped = started().entry(2, 0x2401).number(2, 2);
    let t = list.then(t, "the drop", drop, Done(0, 0), dropped);
    let t = list.then(t, "an ask for page 2", ask(2, 5), Refused(20), dropped);
    let again = dropped.pair([1, 4, 5]).excluding([0x24, 0x01]);
    list.then(t, "an ask for page 4", ask(4, 5), Done(0, 0), again)
}

// Asked in kernel mode and committed in user mode: the approved entries are those of user mode. Entered again, the page runs.
fn list_through_modes(t: Tally) -> Tally {
    let mut list = List::new("a commit in user mode", started());
    let kernel = [0, 0x2003, 0, 0x8003, 0x5005, 0, 0, 0x6007];
    let asked = started().pair([1, 2, 5]).excluding([0x24, 0x01]);
    let t = list.then(t, "the ask", ask(2, 5), Done(0, 0), asked);
    let closed = asked.entry(4, NO_EXECUTE | 0x5205).entry(7, NO_EXECUTE | 0x6007);
    let t = list.then(t, "all pages", sync_all(kernel), Done(2, 0), closed);
    let user = in_user_mode().pair([1, 2, 5]).excluding([0x24, 0x01]);
    let user = user.entry(4, NO_EXECUTE | 0x5205).entry(7, 0x6007);
    let t = list.then(t, "a leave", leave(7), Done(3, 0), user);
    let approved = NO_EXECUTE | 0x5401;
    let committed = user.pair([0, 0, 0]).entry(2, approved).entry(4, approved);
    let committed = committed.number(2, 5).number(4, 5);
    let t = list.then(t, "the commit", commit, Done(2, 2), committed);
    let t = list.then(t, "a fetch in user mode", fetch(2), Refused(12), committed);
    let shadow = [0, 0x2401, 0x5401, 0x8401, 0x5401, 0, 0, NO_EXECUTE | 0x6007];
    let entered = Guard { shadow, ..committed }.running([0, 1]);
    let t = list.then(t, "an enter", enter(0), Done(5, 0), entered);
    let ran = entered.running([0, 2]);
    list.then(t, "a fetch in kernel mode", fetch(2), Done(5, 5), ran)
}

// An accepted call that concerns no pair leaves its three words, whatever they are.
fn words_that_stay(t: Tally) -> Tally {
    let kernel = [0, 0x2003, 0, 0x8003, 0, 0, 0, 0x6007];
    let mut t = t;
    for (name, pair) in [
        ("a pending pair", [1, 2, 5]),
        ("a pair that is not pending", [0, 2, 5]),
        ("words out of range that are not read", [0, 8, 9]),
        ("wide words that are not read", [0, 18446744073709551615, 65536]),
    ] {
        let given = started().pair(pair).entry(7, NO_EXECUTE | 0x6007);
        let same = |t, call: &str, made: &dyn Fn(&mut Guard) -> Answer, wanted| {
            case(t, call, &format!("{name} stays"), given, made, wanted, given)
        };
        t = same(t, "sync_page", &sync_page(kernel, 7), Done(0, 0));
        t = same(t, "sync_all", &sync_all(kernel), Done(0, 0));
        t = same(t, "sync_page_tree", &sync_page_tree(kernel, 7), Done(0, 0));
        t = same(t, "sync_all_tree", &sync_all_tree(kernel), Done(0, 0));
        t = same(t, "write", &write(28672, 1), Done(6, 6));
        t = same(t, "device_write", &device_write(24576, 1), Done(6, 6));
        let name = format!("{name} stays");
        let fetched = given.running([0, 3]);
        t = case(t, "fetch", &name, given, fetch(3), Done(8, 8), fetched);
        let user = in_user_mode().pair(pair).entry(7, 0x6007);
        t = case(t, "leave", &name, given, leave(7), Done(3, 0), user);
        t = case(t, "enter", &name, user, enter(0), Done(3, 0), given);
    }
    t
}

pub fn all(t: Tally) -> Tally {
    let t = entries(t);
    let t = before_the_rule(t);
    let t = other_frames(t);
    let t = what_the_rule_reads(t);
    let t = all_pages(t);
    let t = accesses(t);
    let t = entry_of_before_the_ask(t);
    let t = switches(t);
    let t = list_to_a_commit(t);
    let t = list_to_a_drop(t);
    let t = list_to_20(t);
    let t = list_through_modes(t);
    words_that_stay(t)
}
