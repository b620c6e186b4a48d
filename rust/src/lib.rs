//! Queue locks for Rust: Ticket, MCS, CLH and Hemlock, and locks composed of them, by `libclof.a`.
//!
//! A lock is made with a fixed number of callers, and each thread that takes part has one of them.
//!
//! ```
//! let mut callers = clof::callers(clof::Kind::Mcs, 0_u64, 2)?;
//! std::thread::scope(|scope| {
//!     for caller in &mut callers {
//!         scope.spawn(move || {
//!             for _ in 0..1000 {
//!                 *caller.lock() += 1;
//!             }
//!         });
//!     }
//! });
//! assert_eq!(*callers[0].lock(), 2000);
//! # Ok::<(), clof::NotMade>(())
//! ```
//!
//! A composed lock is made by a plan on the machine's description, with a caller on each of some PUs:
//!
//! ```
//! let plan = clof::Plan {
//!     description: "Package:2 Core:2 PU:1",
//!     levels: "package,machine",
//!     locks: "tkt-mcs",
//!     keeps: "16",
//! };
//! let mut callers = clof::composed_callers(&plan, &[0, 1, 2, 3], 0_u64)?;
//! *callers[3].lock() += 1;
//! # Ok::<(), clof::NotMade>(())
//! ```
//!
//! A value that may not go to another thread makes callers that may not:
//!
//! ```compile_fail
//! let mut callers = clof::callers(clof::Kind::Mcs, std::rc::Rc::new(0), 2).unwrap();
//! std::thread::scope(|scope| {
//!     for caller in &mut callers {
//!         scope.spawn(move || drop(caller.lock()));
//!     }
//! });
//! ```

mod library;

pub use library::{ComposedHandle, Handle, Queues};

use std::cell::UnsafeCell;
use std::error::Error;
use std::fmt;
use std::ops::{Deref, DerefMut};
use std::sync::Arc;

/// Which lock.
#[derive(Clone, Copy, Debug, PartialEq, Eq)]
pub enum Kind {
    Ticket,
    Mcs,
    Clh,
    Hemlock,
}

/// What a composed lock is made by.
#[derive(Clone, Copy, Debug, PartialEq, Eq)]
pub struct Plan<'a> {
    /// The machine, as `lstopo --of synthetic` prints it.
    pub description: &'a str,
    /// One to five of its layers, the lowest first, the last one machine.
    pub levels: &'a str,
    /// The kind of each level's locks, as `tkt-mcs`; the empty text is MCS at each level.
    pub locks: &'a str,
    /// How many times in a row each lower level hands over inside one of its nodes, as `16`.
    pub keeps: &'a str,
}

/// Why no callers were made: no memory, none or 2^32 and more were asked for, or the texts of a plan are refused, with the code of
/// `clof.h` and its numbers.
#[derive(Clone, Copy, Debug, PartialEq, Eq)]
pub enum NotMade {
    NoMemory,
    Refused,
    Texts { code: u32, first: u64, second: u64 },
}

impl fmt::Display for NotMade {
    fn fmt(&self, f: &mut fmt::Formatter<'_>) -> fmt::Result {
        match self {
            NotMade::NoMemory => f.write_str("no memory"),
            NotMade::Refused => f.write_str("no callers, or too many"),
            NotMade::Texts {
                code,
                first,
                second,
            } => write!(f, "refused texts: code {code}, at {first}, {second}"),
        }
    }
}

impl Error for NotMade {}

/// The callers of a new lock of this kind round the value, as many as asked.
pub fn callers<T>(kind: Kind, value: T, count: usize) -> Result<Vec<Caller<T>>, NotMade> {
    Ok(round(value, library::make(kind, count)?))
}

/// The callers of a new composed lock by this plan round the value, one on each of these PUs, by their logical numbers.
pub fn composed_callers<T>(
    plan: &Plan<'_>,
    pus: &[u32],
    value: T,
) -> Result<Vec<Caller<T, ComposedHandle>>, NotMade> {
    Ok(round(value, library::make_composed(plan, pus)?))
}

/// A caller for each of the handles, which are of one lock.
fn round<T, H: Queues>(value: T, handles: Vec<H>) -> Vec<Caller<T, H>> {
    let value = Arc::new(Guarded(UnsafeCell::new(value)));
    handles
        .into_iter()
        .map(|handle| Caller {
            handle,
            value: value.clone(),
        })
        .collect()
}

struct Guarded<T>(UnsafeCell<T>);

// Only the caller that holds touches the value, and one holds at a time.
unsafe impl<T: Send> Sync for Guarded<T> {}
unsafe impl<T: Send> Send for Guarded<T> {}

/// One of the callers of a lock, for one thread at a time. The last one that is dropped takes the lock and the value with it.
pub struct Caller<T, H: Queues = Handle> {
    handle: H,
    value: Arc<Guarded<T>>,
}

impl<T, H: Queues> Caller<T, H> {
    /// Waits until this caller holds the lock.
    ///
    /// # Panics
    ///
    /// Where an earlier guard of this caller was forgotten, and so never dropped. A caller of a composed lock also panics where it has held
    /// as often as it may, which is its equal part of 2^64 - 1 times.
    pub fn lock(&mut self) -> Guard<'_, T, H> {
        assert!(
            self.handle.acquire(),
            "a guard of this caller was forgotten, or it has held as often as it may"
        );
        Guard { caller: self }
    }
}

/// The value, while its caller holds the lock. Dropping it gives the lock to the next caller. A panic in between does the same: there is
/// no poison.
pub struct Guard<'a, T, H: Queues = Handle> {
    caller: &'a mut Caller<T, H>,
}

impl<T> Guard<'_, T> {
    /// Whether another caller is queued behind this one.
    pub fn waiters(&mut self) -> bool {
        self.caller.handle.waiters()
    }
}

impl<T, H: Queues> Deref for Guard<'_, T, H> {
    type Target = T;

    fn deref(&self) -> &T {
        unsafe { &*self.caller.value.0.get() }
    }
}

impl<T, H: Queues> DerefMut for Guard<'_, T, H> {
    fn deref_mut(&mut self) -> &mut T {
        unsafe { &mut *self.caller.value.0.get() }
    }
}

impl<T, H: Queues> Drop for Guard<'_, T, H> {
    fn drop(&mut self) {
        self.caller.handle.release();
    }
}
