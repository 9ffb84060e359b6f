//! Memory of monitors from one array, in place of `malloc`: the feature `arena`.
//!
//! A lock keeps threads that open and close monitors apart: one that waits for it spins.

use core::hint::spin_loop;
use core::sync::atomic::{AtomicBool, Ordering};

static IS_LOCKED: AtomicBool = AtomicBool::new(false);

extern "C" {
    fn r2u2_arena(memory: *mut u8, count: usize);
    fn r2u2_arena_used() -> usize;
    fn r2u2_arena_most() -> usize;
    fn r2u2_open_bytes(program: *const u8, count: usize) -> usize;
    fn r2u2_open_under_bytes(program: *const u8, count: usize, header: *const u8, header_count: usize) -> usize;
}

/// The lock of the arena, until it is dropped.
pub(crate) struct Lock(());

pub(crate) fn lock() -> Lock {
    while IS_LOCKED.compare_exchange_weak(false, true, Ordering::Acquire, Ordering::Relaxed).is_err() {
        spin_loop();
    }
    Lock(())
}

impl Drop for Lock {
    fn drop(&mut self) {
        IS_LOCKED.store(false, Ordering::Release);
    }
}

/// Monitors are open, so the array that they are in stays.
#[derive(Clone, Copy, Debug, PartialEq, Eq)]
pub struct InUse;

impl core::fmt::Display for InUse {
    fn fmt(&self, out: &mut core::fmt::Formatter<'_>) -> core::fmt::Result {
        out.write_str("monitors are open in the arena")
    }
}

impl core::error::Error for InUse {}

/// Takes the memory of all later monitors from this array. Before the first call each opening fails with `NoMemory`.
///
/// # Errors
///
/// `InUse` while a monitor is open.
pub fn set_memory(memory: &'static mut [u8]) -> Result<(), InUse> {
    let _lock = lock();
    // SAFETY: the array lives as long as the program, nothing else uses it, and no block of another array is in use.
    unsafe {
        if r2u2_arena_used() > 0 {
            return Err(InUse);
        }
        r2u2_arena(memory.as_mut_ptr(), memory.len());
    }
    Ok(())
}

/// Returns how many bytes of the array are used now.
#[must_use]
pub fn used() -> usize {
    let _lock = lock();
    // SAFETY: it reads a number, under the lock.
    unsafe { r2u2_arena_used() }
}

/// Returns how many bytes of the array were used at most.
#[must_use]
pub fn most() -> usize {
    let _lock = lock();
    // SAFETY: as above.
    unsafe { r2u2_arena_most() }
}

/// Returns how many bytes of an array suffice to open this program in it, with no other monitor there; 0 for bytes that are
/// no program by their header. Tested, not proved.
#[must_use]
pub fn open_bytes(program: &[u8]) -> usize {
    // SAFETY: the pointer has its true count.
    unsafe { r2u2_open_bytes(program.as_ptr(), program.len()) }
}

/// Returns the same for a program under a header.
#[must_use]
pub fn open_under_bytes(program: &[u8], header: &[u8]) -> usize {
    // SAFETY: the pointers have their true counts.
    unsafe { r2u2_open_under_bytes(program.as_ptr(), program.len(), header.as_ptr(), header.len()) }
}
