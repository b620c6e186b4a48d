//! Threads exclude one another, a guard gives the lock back, and the last caller takes the value with it.
use clof::{callers, composed_callers, Kind, NotMade, Plan};
use std::mem::forget;
use std::panic::{catch_unwind, AssertUnwindSafe};
use std::sync::Arc;
use std::thread::scope;

const KINDS: [Kind; 4] = [Kind::Ticket, Kind::Mcs, Kind::Clh, Kind::Hemlock];

#[test]
fn threads_exclude_one_another() {
    for kind in KINDS {
        for count in [2, 4, 16] {
            let mut all = callers(kind, (0_u64, false), count).unwrap();
            scope(|scope| {
                for caller in &mut all {
                    scope.spawn(move || {
                        for _ in 0..2000 {
                            let mut value = caller.lock();
                            assert!(!value.1);
                            value.1 = true;
                            value.0 += 1;
                            value.1 = false;
                        }
                    });
                }
            });
            assert_eq!(all[0].lock().0, 2000 * count as u64);
        }
    }
}

#[test]
fn a_guard_gives_the_lock_back_in_a_panic_too() {
    for kind in KINDS {
        let mut pair = callers(kind, 0, 2).unwrap();
        let (first, second) = pair.split_at_mut(1);
        let ended = catch_unwind(AssertUnwindSafe(|| {
            let mut value = first[0].lock();
            *value += 1;
            assert!(!value.waiters());
            panic!("on purpose");
        }));
        assert!(ended.is_err());
        assert_eq!(*second[0].lock(), 1);
    }
}

#[test]
fn the_last_caller_takes_the_value_with_it() {
    for kind in KINDS {
        let told = Arc::new(());
        let mut pair = callers(kind, told.clone(), 2).unwrap();
        drop(pair.pop());
        assert_eq!(Arc::strong_count(&told), 2);
        drop(pair);
        assert_eq!(Arc::strong_count(&told), 1);
    }
}

#[test]
fn a_forgotten_guard_is_told() {
    let mut one = callers(Kind::Mcs, (), 1).unwrap();
    forget(one[0].lock());
    let again = catch_unwind(AssertUnwindSafe(|| drop(one[0].lock())));
    assert!(again.is_err());
}

#[test]
fn no_callers_are_refused() {
    assert_eq!(callers(Kind::Clh, (), 0).err(), Some(NotMade::Refused));
}

const MACHINE: &str = "Package:2 Core:4 PU:2";

const PLANS: [Plan<'static>; 6] = [
    Plan {
        description: MACHINE,
        levels: "machine",
        locks: "mcs",
        keeps: "9",
    },
    Plan {
        description: MACHINE,
        levels: "package,machine",
        locks: "tkt-mcs",
        keeps: "9",
    },
    Plan {
        description: MACHINE,
        levels: "core,machine",
        locks: "",
        keeps: "3",
    },
    Plan {
        description: MACHINE,
        levels: "core,package,machine",
        locks: "tkt-hem-mcs",
        keeps: "3",
    },
    Plan {
        description: MACHINE,
        levels: "pu,core,package,machine",
        locks: "mcs-tkt-hem-clh",
        keeps: "3",
    },
    Plan {
        description: "Package:2 L3Cache:2 L2Cache:2 Core:1 PU:2",
        levels: "pu,l2,l3,package,machine",
        locks: "hem-tkt-mcs-clh-hem",
        keeps: "3",
    },
];

#[test]
fn threads_exclude_one_another_under_composed_locks() {
    for plan in &PLANS {
        for pus in [&[0, 15][..], &[0, 1, 8, 9], &[3; 16]] {
            let mut all = composed_callers(plan, pus, (0_u64, false)).unwrap();
            scope(|scope| {
                for caller in &mut all {
                    scope.spawn(move || {
                        for _ in 0..2000 {
                            let mut value = caller.lock();
                            assert!(!value.1);
                            value.1 = true;
                            value.0 += 1;
                            value.1 = false;
                        }
                    });
                }
            });
            assert_eq!(all[0].lock().0, 2000 * pus.len() as u64);
        }
    }
}

#[test]
fn refused_plans_are_told_with_their_place() {
    let unknown = Plan {
        levels: "package,die,machine",
        ..PLANS[1]
    };
    let told = Some(NotMade::Texts {
        code: 41,
        first: 1,
        second: 0,
    });
    assert_eq!(composed_callers(&unknown, &[0], ()).err(), told);
    assert_eq!(
        composed_callers(&PLANS[1], &[], ()).err(),
        Some(NotMade::Refused)
    );
}
