//! A guard is not cloned: a clone from before an ask, put in the guard's place later, would undo a commit in safe code.

use std::marker::PhantomData;

use guard::{Device, Guard, Options, Policy, Tree};

/// Asks of a type whether it is `Clone`. Its own method, which only such a type has, comes before that of the trait.
struct Asked<T>(PhantomData<T>);

impl<T: Clone> Asked<T> {
    fn is_clone(&self) -> bool {
        true
    }
}

trait Otherwise {
    fn is_clone(&self) -> bool {
        false
    }
}

impl<T> Otherwise for Asked<T> {}

#[test]
fn a_guard_is_not_cloned() {
    assert!(!Asked(PhantomData::<Guard>).is_clone());
    // What a guard is made from and lent may be.
    assert!(Asked(PhantomData::<Policy>).is_clone());
    assert!(Asked(PhantomData::<Options>).is_clone());
    assert!(Asked(PhantomData::<Device>).is_clone());
    assert!(Asked(PhantomData::<Tree>).is_clone());
}
