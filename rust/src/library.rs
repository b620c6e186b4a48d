//! What `c/include/clof.h` declares, and the handle of a caller.
use crate::{Kind, NotMade, Plan};
use std::ffi::c_void;
use std::hint::spin_loop;
use std::ptr::null_mut;
use std::thread::yield_now;

const DONE: u32 = 0;
const NOT_YET: u32 = 1;
const NO_MEMORY: u32 = 4;
const REFUSED: u32 = 6;

/// A `clof_caller`: null, or what the library keeps of a caller.
#[repr(C)]
pub struct Handle {
    at: *mut c_void,
}

/// A `clof_composed_caller`: null, or what the library keeps of a caller of a composed lock.
#[repr(C)]
pub struct ComposedHandle {
    at: *mut c_void,
}

/// A `clof_numbers`.
#[repr(C)]
struct Numbers {
    first: u64,
    second: u64,
}

// The library proves that what a handle has may go to another thread.
unsafe impl Send for Handle {}
unsafe impl Send for ComposedHandle {}

#[link(name = "clof", kind = "static")]
extern "C" {
    fn clof_make_ticket(callers: *mut Handle, count: usize) -> u32;
    fn clof_make_mcs(callers: *mut Handle, count: usize) -> u32;
    fn clof_make_clh(callers: *mut Handle, count: usize) -> u32;
    fn clof_make_hemlock(callers: *mut Handle, count: usize) -> u32;
    fn clof_enter(caller: *mut Handle) -> u32;
    fn clof_poll(caller: *mut Handle) -> u32;
    fn clof_begin_release(caller: *mut Handle) -> u32;
    fn clof_poll_release(caller: *mut Handle) -> u32;
    fn clof_waiters(caller: *mut Handle) -> u32;
    fn clof_free(caller: *mut Handle) -> u32;
    fn clof_make_composed_of(
        description: *const u8,
        description_length: usize,
        levels: *const u8,
        levels_length: usize,
        locks: *const u8,
        locks_length: usize,
        keeps: *const u8,
        keeps_length: usize,
        pus: *const u32,
        pus_count: usize,
        callers: *mut ComposedHandle,
        count: usize,
        numbers: *mut Numbers,
    ) -> u32;
    fn clof_composed_enter(caller: *mut ComposedHandle) -> u32;
    fn clof_composed_poll(caller: *mut ComposedHandle) -> u32;
    fn clof_composed_begin_release(caller: *mut ComposedHandle) -> u32;
    fn clof_composed_poll_release(caller: *mut ComposedHandle) -> u32;
    fn clof_composed_free(caller: *mut ComposedHandle) -> u32;
}

/// The handles of the callers of a new lock.
pub fn make(kind: Kind, count: usize) -> Result<Vec<Handle>, NotMade> {
    let mut handles: Vec<Handle> = (0..count).map(|_| Handle { at: null_mut() }).collect();
    let made = match kind {
        Kind::Ticket => clof_make_ticket,
        Kind::Mcs => clof_make_mcs,
        Kind::Clh => clof_make_clh,
        Kind::Hemlock => clof_make_hemlock,
    };
    match unsafe { made(handles.as_mut_ptr(), handles.len()) } {
        DONE => Ok(handles),
        NO_MEMORY => Err(NotMade::NoMemory),
        _ => Err(NotMade::Refused),
    }
}

/// The handles of the callers of a new composed lock, one on each of these PUs.
pub fn make_composed(plan: &Plan<'_>, pus: &[u32]) -> Result<Vec<ComposedHandle>, NotMade> {
    let mut handles: Vec<ComposedHandle> = pus
        .iter()
        .map(|_| ComposedHandle { at: null_mut() })
        .collect();
    let mut numbers = Numbers {
        first: 0,
        second: 0,
    };
    let code = unsafe {
        clof_make_composed_of(
            plan.description.as_ptr(),
            plan.description.len(),
            plan.levels.as_ptr(),
            plan.levels.len(),
            plan.locks.as_ptr(),
            plan.locks.len(),
            plan.keeps.as_ptr(),
            plan.keeps.len(),
            pus.as_ptr(),
            pus.len(),
            handles.as_mut_ptr(),
            handles.len(),
            &mut numbers,
        )
    };
    match code {
        DONE => Ok(handles),
        NO_MEMORY => Err(NotMade::NoMemory),
        REFUSED => Err(NotMade::Refused),
        _ => Err(NotMade::Texts {
            code,
            first: numbers.first,
            second: numbers.second,
        }),
    }
}

/// What a caller does, whatever its lock.
pub trait Queues {
    /// Waits until the caller holds. The answer is no where it wasn't idle, or has held as often as it may.
    fn acquire(&mut self) -> bool;

    /// Gives the lock to the next caller, and waits until this one is idle.
    fn release(&mut self);
}

/// One pause of a loop that waits: a hundred single pauses, and then the processor is given away.
fn pause(pauses: &mut u32) {
    if *pauses >= 100 {
        yield_now();
    } else {
        *pauses += 1;
        spin_loop();
    }
}

impl Queues for Handle {
    #[inline]
    fn acquire(&mut self) -> bool {
        let mut pauses = 0;
        let mut code = unsafe { clof_enter(self) };
        while code == NOT_YET {
            pause(&mut pauses);
            code = unsafe { clof_poll(self) };
        }
        code == DONE
    }

    #[inline]
    fn release(&mut self) {
        let mut pauses = 0;
        let mut code = unsafe { clof_begin_release(self) };
        while code == NOT_YET {
            pause(&mut pauses);
            code = unsafe { clof_poll_release(self) };
        }
    }
}

impl Queues for ComposedHandle {
    #[inline]
    fn acquire(&mut self) -> bool {
        let mut pauses = 0;
        let mut code = unsafe { clof_composed_enter(self) };
        while code == NOT_YET {
            pause(&mut pauses);
            code = unsafe { clof_composed_poll(self) };
        }
        code == DONE
    }

    #[inline]
    fn release(&mut self) {
        let mut pauses = 0;
        let mut code = unsafe { clof_composed_begin_release(self) };
        while code == NOT_YET {
            pause(&mut pauses);
            code = unsafe { clof_composed_poll_release(self) };
        }
    }
}

impl Handle {
    /// At a holder: whether another caller is queued behind it.
    #[inline]
    pub fn waiters(&mut self) -> bool {
        unsafe { clof_waiters(self) == NOT_YET }
    }
}

impl Drop for Handle {
    fn drop(&mut self) {
        unsafe {
            clof_free(self);
        }
    }
}

impl Drop for ComposedHandle {
    fn drop(&mut self) {
        unsafe {
            clof_composed_free(self);
        }
    }
}
