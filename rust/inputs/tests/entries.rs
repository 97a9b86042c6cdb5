//! A kernel entry has each field in its place, and the drawn ones have the shares that the tests rely on.

use inputs::{KernelEntry, Random};

const NOTHING: KernelEntry = KernelEntry {
    present: false,
    writable: false,
    user: false,
    write_through: false,
    cache_disable: false,
    accessed: false,
    dirty: false,
    large: false,
    global: false,
    available: 0,
    frame: 0,
    marker: 0,
    no_execute: false,
};

#[test]
fn each_field_stands_in_its_place() {
    let places = [
        (KernelEntry { present: true, ..NOTHING }, 0x1),
        (KernelEntry { writable: true, ..NOTHING }, 0x2),
        (KernelEntry { user: true, ..NOTHING }, 0x4),
        (KernelEntry { write_through: true, ..NOTHING }, 0x8),
        (KernelEntry { cache_disable: true, ..NOTHING }, 0x10),
        (KernelEntry { accessed: true, ..NOTHING }, 0x20),
        (KernelEntry { dirty: true, ..NOTHING }, 0x40),
        (KernelEntry { large: true, ..NOTHING }, 0x80),
        (KernelEntry { global: true, ..NOTHING }, 0x100),
        (KernelEntry { available: u64::MAX, ..NOTHING }, 0xe00),
        (KernelEntry { frame: u64::MAX, ..NOTHING }, 0x000f_ffff_ffff_f000),
        (KernelEntry { marker: u64::MAX, ..NOTHING }, 0x7ff0_0000_0000_0000),
        (KernelEntry { no_execute: true, ..NOTHING }, 0x8000_0000_0000_0000),
    ];
    for (entry, bits) in places {
        assert_eq!(entry.bits(), bits, "{entry:?}");
    }
    assert_eq!(NOTHING.bits(), 0);
}

/// How many of a thousand drawn entries are so.
fn share(entries: &[KernelEntry], is_so: impl Fn(&KernelEntry) -> bool) -> usize {
    1000 * entries.iter().filter(|entry| is_so(entry)).count() / entries.len()
}

#[test]
fn the_fields_come_as_often_as_the_tests_need_them() {
    let mut random = Random::new(1);
    let frames = 7;
    let entries: Vec<_> = (0..100_000).map(|_| KernelEntry::random(&mut random, frames)).collect();
    let near = |count: usize, wanted: usize| count.abs_diff(wanted) < 10;
    assert!(near(share(&entries, |entry| entry.present), 800));
    assert!(near(share(&entries, |entry| entry.writable), 750));
    assert!(near(share(&entries, |entry| entry.user), 667));
    assert!(near(share(&entries, |entry| entry.no_execute), 250));
    assert!(near(share(&entries, |entry| entry.marker != 0), 100));
    assert!(near(share(&entries, |entry| entry.frame > frames), 83));
    for frame in 0..=frames {
        assert!(near(share(&entries, |entry| entry.frame == frame), 917 / 8), "frame {frame}");
    }
    for bit in 0..11 {
        assert!(share(&entries, |entry| entry.marker == 1 << bit) > 1, "marker bit {bit} alone");
    }
    for bit in 3..12 {
        assert!(near(share(&entries, |entry| entry.bits() >> bit & 1 == 1), 500), "bit {bit}");
    }
}
