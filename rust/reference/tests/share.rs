//! The share of excluded frames: K7's rows, every number of frames that a policy can have, and its planted mistakes.
//! The drill's own lines are compared in tests/vectors.rs.

use reference::mistaken;
use reference::{share, Mistake};

/// "One excluded frame of eight prints 12, three of eight print 38."
#[test]
fn exact_halves() {
    let rows = [
        (1, 8, 12),
        (3, 8, 38),
        (5, 8, 62),
        (7, 8, 88),
        (1, 200, 0),
        (3, 200, 2),
        (197, 200, 98),
        (199, 200, 100),
    ];
    for (excluded, f, expected) in rows {
        assert_eq!(share(excluded, f), expected, "{excluded} of {f}");
    }
}

#[test]
fn nearest() {
    let rows = [
        (1, 3, 33),
        (2, 3, 67),
        (1, 7, 14),
        (3, 7, 43),
        (4, 7, 57),
        (2, 8, 25),
        (1, 400, 0),
        (3, 400, 1),
        (20, 4096, 0),
        (21, 4096, 1),
        (2048, 4096, 50),
        (4075, 4096, 99),
        (4076, 4096, 100),
    ];
    for (excluded, f, expected) in rows {
        assert_eq!(share(excluded, f), expected, "{excluded} of {f}");
    }
}

/// No whole number is nearer, and an even one is taken where two are as near: one number alone meets this.
#[test]
fn of_all_numbers_of_frames() {
    for f in 1..=4096 {
        assert_eq!((share(0, f), share(f, f)), (0, 100), "{f}");
        for excluded in 1..=f {
            let found = share(excluded, f);
            let apart = 2 * (100 * excluded).abs_diff(found * f);
            let is_right = apart < f || (apart == f && found.is_multiple_of(2));
            assert!(is_right, "{excluded} of {f}: {found}");
        }
    }
}

/// Each mistake is one in the rows that its name says, and in no other.
#[test]
fn planted_mistakes() {
    let rows = [(1, 8), (3, 8), (1, 3), (2, 3), (8, 8)];
    let mistakes = [
        (Mistake::None, [12, 38, 33, 67, 100]),
        (Mistake::ShareRoundedDown, [12, 37, 33, 66, 100]),
        (Mistake::ShareRoundedUp, [13, 38, 34, 67, 100]),
        (Mistake::ShareHalfUp, [13, 38, 33, 67, 100]),
        (Mistake::ShareHalfDown, [12, 37, 33, 67, 100]),
        (Mistake::ShareHalfToOdd, [13, 37, 33, 67, 100]),
    ];
    for (mistake, expected) in mistakes {
        let shares = rows.map(|(excluded, f)| mistaken::share(mistake, excluded, f));
        assert_eq!(shares, expected, "{mistake:?}");
    }
}
