// Question 7 of every call but the start: "Are the state's V, F within range, e from 1 to 16, the running page below V, and does every
// lent table have its exact length". A call asks it of the tables that it is lent and of no other. It comes before every other question.
// K5: the state's number of devices is 1 to 64, "and a list of another length gives 7". K6: "Question 7 wants a pending pair below V and F".
use crate::calls::Answer;
use crate::calls::Mode;
use crate::calls::Mode::Kernel;
use crate::calls::Mode::User;
use crate::calls::State;
use crate::calls::Tree;
use crate::guard;
use crate::tally::Tally;
use ::guard::Device;

// The numbers that refuse the calls, or 0.
#[derive(Clone, Copy)]
struct Numbers {
    sync_page: u64,
    sync_all: u64,
    sync_page_tree: u64,
    sync_all_tree: u64,
    fetch: u64,
    write: u64,
    enter: u64,
    leave: u64,
    device_write: u64,
    ask: u64,
    commit: u64,
    drop: u64,
}

// How many places each table is lent with.
#[derive(Clone, Copy)]
struct Lent {
    kernel: usize,
    shadow: usize,
    map: usize,
    exclusion: usize,
    devices: usize,
}

// Tables with room for every length asked here. Page 0 is an ordinary user page and page 1 an approved one; no frame is excluded.
#[derive(Clone, Copy)]
struct Room {
    shadow: [u64; 2049],
    map: [u16; 2049],
}

fn tables() -> Room {
    let mut shadow = [0x8000000000003007u64; 2049];
    shadow[1] = 0x2401;
    let mut map = [65535u16; 2049];
    map[1] = 2;
    Room { shadow, map }
}

// The answer has the number; where the number is not 0, nothing has changed.
fn told(answer: Answer, number: u64, unchanged: bool) -> bool {
    guard::number_of(answer) == number && (number == 0 || unchanged)
}

fn sync_page(t: Tally, name: &str, s: State, lent: Lent, number: u64) -> Tally {
    let r = tables();
    let given = r.shadow;
    let numbers = r.map;
    let mut shadow = r.shadow;
    let mut map = r.map;
    let answer = crate::calls::sync_page(
        s,
        &[0; 2049][..lent.kernel],
        &mut shadow[..lent.shadow],
        &mut map[..lent.map],
        &[0; 513][..lent.exclusion],
        0,
    );
    let entries = shadow == given;
    let unchanged = map == numbers && entries;
    t.case("sync_page", name, told(answer, number, unchanged))
}

fn sync_all(t: Tally, name: &str, s: State, lent: Lent, number: u64) -> Tally {
    let r = tables();
    let given = r.shadow;
    let numbers = r.map;
    let mut shadow = r.shadow;
    let mut map = r.map;
    let answer = crate::calls::sync_all(
        s,
        &[0; 2049][..lent.kernel],
        &mut shadow[..lent.shadow],
        &mut map[..lent.map],
        &[0; 513][..lent.exclusion],
    );
    let entries = shadow == given;
    let unchanged = map == numbers && entries;
    t.case("sync_all", name, told(answer, number, unchanged))
}

// A tree has no length that this question asks for: one table of absent pages.
fn tree(run: &[u64; 512]) -> Tree<'_> {
    Tree { tables: run, root: 0, depth: 1 }
}

fn sync_page_tree(t: Tally, name: &str, s: State, lent: Lent, number: u64) -> Tally {
    let given = tables();
    let Room { mut shadow, mut map } = given;
    let answer = crate::calls::sync_page_tree(
        s,
        tree(&[0; 512]),
        &mut shadow[..lent.shadow],
        &mut map[..lent.map],
        &[0; 513][..lent.exclusion],
        0,
    );
    let unchanged = shadow == given.shadow && map == given.map;
    t.case("sync_page_tree", name, told(answer, number, unchanged))
}

fn sync_all_tree(t: Tally, name: &str, s: State, lent: Lent, number: u64) -> Tally {
    let given = tables();
    let Room { mut shadow, mut map } = given;
    let answer = crate::calls::sync_all_tree(
        s,
        tree(&[0; 512]),
        &mut shadow[..lent.shadow],
        &mut map[..lent.map],
        &[0; 513][..lent.exclusion],
    );
    let unchanged = shadow == given.shadow && map == given.map;
    t.case("sync_all_tree", name, told(answer, number, unchanged))
}

// Fetches page 1.
fn fetch(t: Tally, name: &str, s: State, lent: Lent, number: u64) -> Tally {
    let r = tables();
    let shadow = r.shadow;
    let called = crate::calls::fetch(s, &shadow[..lent.shadow], 1);
    let answer = called.answer;
    let state = called.state;
    let unchanged = state == s;
    t.case("fetch", name, told(answer, number, unchanged))
}

// Writes the first byte of page 0.
fn write(t: Tally, name: &str, s: State, lent: Lent, number: u64) -> Tally {
    let r = tables();
    let shadow = r.shadow;
    let answer = crate::calls::write(s, &shadow[..lent.shadow], &[0; 513][..lent.exclusion], 0, 1);
    t.case("write", name, told(answer, number, true))
}

// Enters by index 0.
fn enter(t: Tally, name: &str, s: State, lent: Lent, number: u64) -> Tally {
    let r = tables();
    let given = r.shadow;
    let mut shadow = r.shadow;
    let called = crate::calls::enter(s, &mut shadow[..lent.shadow], 0);
    let answer = called.answer;
    let state = called.state;
    let entries = shadow == given;
    let unchanged = state == s && entries;
    t.case("enter", name, told(answer, number, unchanged))
}

// Leaves to page 0.
fn leave(t: Tally, name: &str, s: State, lent: Lent, number: u64) -> Tally {
    let r = tables();
    let given = r.shadow;
    let mut shadow = r.shadow;
    let called = crate::calls::leave(s, &mut shadow[..lent.shadow], 0);
    let answer = called.answer;
    let state = called.state;
    let entries = shadow == given;
    let unchanged = state == s && entries;
    t.case("leave", name, told(answer, number, unchanged))
}

// Device 0 writes the first byte of frame 0.
fn device_write(t: Tally, name: &str, s: State, lent: Lent, number: u64) -> Tally {
    let exclusion = &[0; 513][..lent.exclusion];
    let devices = vec![Device::new(0, 0); lent.devices];
    let answer = crate::calls::device_write(s, exclusion, &devices, 0, 0, 1);
    t.case("device_write", name, told(answer, number, true))
}

// Asks for page 0 with frame 0.
fn ask(t: Tally, name: &str, s: State, lent: Lent, number: u64) -> Tally {
    let given = tables();
    let mut exclusion = [0; 513];
    let called = crate::calls::ask(
        s,
        &given.shadow[..lent.shadow],
        &given.map[..lent.map],
        &mut exclusion[..lent.exclusion],
        0,
        0,
    );
    let unchanged = called.state == s && exclusion == [0; 513];
    t.case("ask", name, told(called.answer, number, unchanged))
}

fn commit(t: Tally, name: &str, s: State, lent: Lent, number: u64) -> Tally {
    let given = tables();
    let Room { mut shadow, mut map } = given;
    let called = crate::calls::commit(s, &mut shadow[..lent.shadow], &mut map[..lent.map]);
    let unchanged = called.state == s && shadow == given.shadow && map == given.map;
    t.case("commit", name, told(called.answer, number, unchanged))
}

fn drop(t: Tally, name: &str, s: State, lent: Lent, number: u64) -> Tally {
    let mut exclusion = [0xff; 513];
    let called = crate::calls::drop(s, &mut exclusion[..lent.exclusion]);
    let unchanged = called.state == s && exclusion == [0xff; 513];
    t.case("drop", name, told(called.answer, number, unchanged))
}

fn calls(t: Tally, name: &str, s: State, lent: Lent, wanted: Numbers) -> Tally {
    let t = sync_page(t, name, s, lent, wanted.sync_page);
    let t = sync_all(t, name, s, lent, wanted.sync_all);
    let t = sync_page_tree(t, name, s, lent, wanted.sync_page_tree);
    let t = sync_all_tree(t, name, s, lent, wanted.sync_all_tree);
    let t = fetch(t, name, s, lent, wanted.fetch);
    let t = write(t, name, s, lent, wanted.write);
    let t = enter(t, name, s, lent, wanted.enter);
    let t = leave(t, name, s, lent, wanted.leave);
    let t = device_write(t, name, s, lent, wanted.device_write);
    let t = ask(t, name, s, lent, wanted.ask);
    let t = commit(t, name, s, lent, wanted.commit);
    drop(t, name, s, lent, wanted.drop)
}

// Kernel mode: enter is refused by question 10 where it passes 7. Nothing is pending: commit and drop are refused by 22.
fn passed() -> Numbers {
    Numbers {
        sync_page: 0,
        sync_all: 0,
        sync_page_tree: 0,
        sync_all_tree: 0,
        fetch: 0,
        write: 0,
        enter: 10,
        leave: 0,
        device_write: 0,
        ask: 0,
        commit: 22,
        drop: 22,
    }
}

// The same where page 2 is pending with frame 4: an ask is refused by 20.
fn passed_pending() -> Numbers {
    Numbers { ask: 20, commit: 0, drop: 0, ..passed() }
}

// Tables and a list of devices of these lengths on V 4, F 9 and three devices.
fn lengths(t: Tally, name: &str, lent: [usize; 5], wanted: Numbers) -> Tally {
    let [kernel, shadow, map, exclusion, devices] = lent;
    let lent = Lent { kernel, shadow, map, exclusion, devices };
    calls(t, name, guard::state_in(Kernel(1)), lent, wanted)
}

// The kernel table is lent to the synchronising calls without a tree.
fn kernel() -> Numbers {
    Numbers { sync_page: 7, sync_all: 7, ..passed() }
}

fn synchronising() -> Numbers {
    Numbers { sync_page: 7, sync_all: 7, sync_page_tree: 7, sync_all_tree: 7, ..passed() }
}

// The map is lent to the synchronising calls, to ask and to commit.
fn map() -> Numbers {
    Numbers { ask: 7, commit: 7, ..synchronising() }
}

// The shadow table is lent to every call but a device write and a drop.
fn shadow() -> Numbers {
    Numbers { fetch: 7, write: 7, enter: 7, leave: 7, ..map() }
}

// The exclusion vector is lent to the synchronising calls, to write, to device write, to ask and to drop.
fn exclusion() -> Numbers {
    Numbers { write: 7, device_write: 7, ask: 7, drop: 7, ..synchronising() }
}

// The list of devices is lent to device write alone.
fn devices() -> Numbers {
    Numbers { device_write: 7, ..passed() }
}

fn lent_tables(t: Tally) -> Tally {
    let t = lengths(t, "tables in order", [4, 4, 4, 2, 3], passed());
    let t = lengths(t, "a kernel table too short", [3, 4, 4, 2, 3], kernel());
    let t = lengths(t, "a kernel table too long", [5, 4, 4, 2, 3], kernel());
    let t = lengths(t, "a shadow table too short", [4, 3, 4, 2, 3], shadow());
    let t = lengths(t, "a shadow table too long", [4, 5, 4, 2, 3], shadow());
    let t = lengths(t, "a map too short", [4, 4, 3, 2, 3], map());
    let t = lengths(t, "a map too long", [4, 4, 5, 2, 3], map());
    let t = lengths(t, "an exclusion vector too short", [4, 4, 4, 1, 3], exclusion());
    let t = lengths(t, "an exclusion vector too long", [4, 4, 4, 3, 3], exclusion());
    let t = lengths(t, "a list of devices too short", [4, 4, 4, 2, 2], devices());
    let t = lengths(t, "a list of devices too long", [4, 4, 4, 2, 4], devices());
    lengths(t, "an empty list of devices", [4, 4, 4, 2, 0], devices())
}

// Tables of the lengths that V and F ask for, and as many devices as the state has, so that the state alone decides.
fn sized(t: Tally, name: &str, s: State, exclusion: usize, wanted: Numbers) -> Tally {
    let (pages, devices) = (s.pages as usize, s.devices as usize);
    calls(t, name, s, Lent { kernel: pages, shadow: pages, map: pages, exclusion, devices }, wanted)
}

fn state_refused(t: Tally, name: &str, s: State, exclusion: usize) -> Tally {
    let every = Numbers { device_write: 7, drop: 7, ..shadow() };
    sized(t, name, s, exclusion, every)
}

// Each part of the state, just out of its range.
fn damaged_states(t: Tally) -> Tally {
    let entry = [1, 3, 0, 0];
    let t = state_refused(t, "V 0", guard::state(0, 9, 2, entry, Kernel(0)), 2);
    let t = state_refused(t, "V 2049", guard::state(2049, 9, 2, entry, Kernel(1)), 2);
    let t = state_refused(t, "F 0", guard::state(4, 0, 2, entry, Kernel(1)), 0);
    let t = state_refused(t, "F 4097", guard::state(4, 4097, 2, entry, Kernel(1)), 513);
    let t = state_refused(t, "e 0", guard::state(4, 9, 0, entry, User(1)), 2);
    let t = state_refused(t, "e 17", guard::state(4, 9, 17, entry, User(1)), 2);
    let t = state_refused(t, "page V running in kernel mode", guard::state_in(Kernel(4)), 2);
    let t = state_refused(t, "page 65535 running in user mode", guard::state_in(User(65535)), 2);
    let t = state_refused(t, "0 devices", with_devices(0, Kernel(1)), 2);
    let t = state_refused(t, "65 devices", with_devices(65, Kernel(1)), 2);
    let t = state_refused(t, "0 devices in user mode", with_devices(0, User(1)), 2);
    state_refused(t, "65535 devices in user mode", with_devices(65535, User(1)), 2)
}

fn with_devices(devices: u16, mode: Mode) -> State {
    State { devices, ..guard::state_in(mode) }
}

// A state of V 4 and F 9 with these words of a pair.
fn with_pair(pending: [u64; 3], mode: Mode) -> State {
    State { pending, ..guard::state_in(mode) }
}

// "question 7 wants a pending pair below V and F", whatever the call and the mode; a word of it is not cut.
fn damaged_pairs(t: Tally) -> Tally {
    let mut t = t;
    for (name, pending) in [
        ("page V is pending", [1, 4, 4]),
        ("page 65535 is pending", [1, 65535, 4]),
        ("page 65538 is pending", [1, 65538, 4]),
        ("page 2^32 + 2 is pending", [1, 4294967298, 4]),
        ("page 2^63 + 2 is pending", [1, 9223372036854775810, 4]),
        ("the highest page is pending", [1, 18446744073709551615, 4]),
        ("frame F is pending", [1, 2, 9]),
        ("frame 65535 is pending", [1, 2, 65535]),
        ("frame 65540 is pending", [1, 2, 65540]),
        ("frame 2^32 + 4 is pending", [1, 2, 4294967300]),
        ("frame 2^63 + 4 is pending", [1, 2, 9223372036854775812]),
        ("the highest frame is pending", [1, 2, 18446744073709551615]),
        ("page V and frame F are pending", [1, 4, 9]),
        ("a pending word of 2", [2, 2, 4]),
        ("a pending word of 2, and no pair", [2, 0, 0]),
        ("a pending word of 65536", [65536, 2, 4]),
        ("a pending word of 2^32", [4294967296, 2, 4]),
        ("a pending word of 2^32 + 1", [4294967297, 2, 4]),
        ("a pending word of 2^63", [9223372036854775808, 0, 0]),
        ("the highest pending word", [18446744073709551615, 2, 4]),
    ] {
        t = state_refused(t, name, with_pair(pending, Kernel(1)), 2);
        t = state_refused(t, &format!("{name}, user mode"), with_pair(pending, User(1)), 2);
    }
    t
}

// Pairs at the ends of their ranges; and where none is pending, words that are not read.
fn pairs_in_order(t: Tally) -> Tally {
    let pending =
        |t, name: &str, words| sized(t, name, with_pair(words, Kernel(1)), 2, passed_pending());
    let none = |t, name: &str, words| sized(t, name, with_pair(words, Kernel(1)), 2, passed());
    let t = pending(t, "page 2 and frame 4 are pending", [1, 2, 4]);
    let t = pending(t, "page 0 and frame 0 are pending", [1, 0, 0]);
    let t = pending(t, "page V - 1 and frame F - 1 are pending", [1, 3, 8]);
    let t = none(t, "page V and frame F, which are not pending", [0, 4, 9]);
    let t = none(t, "page 65536 and frame 65536, which are not pending", [0, 65536, 65536]);
    let highest = 18446744073709551615;
    none(t, "the highest page and frame, which are not pending", [0, highest, highest])
}

// The lengths of the tables where a pair is pending: a commit and a drop ask them too, before 22 and before 20.
fn lent_tables_while_pending(t: Tally) -> Tally {
    let lengths = |t, name: &str, lent: [usize; 4], wanted| {
        let [kernel, shadow, map, exclusion] = lent;
        let lent = Lent { kernel, shadow, map, exclusion, devices: 3 };
        calls(t, name, with_pair([1, 2, 4], Kernel(1)), lent, wanted)
    };
    let wanted = |of_commit, of_drop, lent: Numbers| Numbers {
        ask: if lent.ask == 7 { 7 } else { 20 },
        commit: of_commit,
        drop: of_drop,
        ..lent
    };
    let t = lengths(t, "a kernel table too short, pending", [3, 4, 4, 2], wanted(0, 0, kernel()));
    let t = lengths(t, "a shadow table too short, pending", [4, 3, 4, 2], wanted(7, 0, shadow()));
    let t = lengths(t, "a shadow table too long, pending", [4, 5, 4, 2], wanted(7, 0, shadow()));
    let t = lengths(t, "a map too short, pending", [4, 4, 3, 2], wanted(7, 0, map()));
    let t = lengths(t, "a map too long, pending", [4, 4, 5, 2], wanted(7, 0, map()));
    let t = lengths(t, "a vector too short, pending", [4, 4, 4, 1], wanted(0, 7, exclusion()));
    lengths(t, "a vector too long, pending", [4, 4, 4, 3], wanted(0, 7, exclusion()))
}

// Each part of the state at the ends of its range, and vectors whose length is rounded up.
fn states_in_order(t: Tally) -> Tally {
    let entry = [1, 3, 0, 0];
    let t = sized(t, "V 2048", guard::state(2048, 9, 2, entry, Kernel(2047)), 2, passed());
    let t = sized(t, "F 4096", guard::state(4, 4096, 2, entry, Kernel(1)), 512, passed());
    let t = sized(t, "F 8", guard::state(4, 8, 2, entry, Kernel(1)), 1, passed());
    let t = sized(t, "F 16", guard::state(4, 16, 2, entry, Kernel(1)), 2, passed());
    let t = sized(t, "F 17", guard::state(4, 17, 2, entry, Kernel(1)), 3, passed());
    let t = sized(t, "e 1", guard::state(4, 9, 1, entry, Kernel(3)), 2, passed());
    let t = sized(t, "1 device", with_devices(1, Kernel(1)), 2, passed());
    let t = sized(t, "63 devices", with_devices(63, Kernel(1)), 2, passed());
    let t = sized(t, "64 devices", with_devices(64, Kernel(1)), 2, passed());
    // e is not compared with V, and entry pages are not looked at.
    sized(t, "e 16", guard::state(4, 9, 16, [1, 65535, 4, 0], Kernel(0)), 2, passed())
}

// V 1 and F 1: page 1 and entry page 1 do not exist, and the write's frame 3 is at or above F.
fn smallest(t: Tally) -> Tally {
    let wanted = Numbers { fetch: 9, write: 13, enter: 9, ..passed() };
    let s = guard::state(1, 1, 1, [1, 0, 0, 0], Kernel(0));
    sized(t, "V 1 and F 1", s, 1, wanted)
}

pub fn all(t: Tally) -> Tally {
    let t = lent_tables(t);
    let t = damaged_states(t);
    let t = states_in_order(t);
    let t = damaged_pairs(t);
    let t = pairs_in_order(t);
    let t = lent_tables_while_pending(t);
    smallest(t)
}
