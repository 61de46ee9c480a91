//! How much of the stack a run takes: the stack below it is filled before, and the lowest byte that is changed after it counts.
use std::hint::black_box;

/// How far down is looked at.
const DEPTH: usize = 1 << 20;
/// How far down the filling itself may reach.
const OWN: usize = 1 << 10;
const FILL: u8 = 0x5a;

/// The bytes between this function's own place and the lowest byte that a run changed; at least `OWN`, which is never looked at.
#[inline(never)]
pub fn used(run: impl FnOnce()) -> usize {
    let own = 0u8;
    let top = black_box(&own) as *const u8 as usize;
    fill(top - DEPTH, top - OWN);
    run();
    top - lowest_changed(top - DEPTH, top - OWN)
}

#[inline(never)]
fn fill(from: usize, end: usize) {
    // SAFETY: the thread's stack is larger than `DEPTH`, and no frame is in use below `OWN`.
    (from..end).for_each(|at| unsafe { (at as *mut u8).write_volatile(FILL) });
}

#[inline(never)]
fn lowest_changed(from: usize, end: usize) -> usize {
    // SAFETY: as above.
    (from..end).find(|&at| unsafe { (at as *const u8).read_volatile() } != FILL).unwrap_or(end)
}
