//! How much of its thread's stack a call has used: the stack below is painted, and what the call has
//! written over it is told by the paint that is left.

#![allow(unsafe_code)]

use crate::on_promised_stack;
use std::hint::black_box;

/// The paint, a number that no call is likely to leave.
const PAINT: u64 = 0x5a5a_a5a5_5a5a_a5a5;

/// What the painter's own calls need: nothing is painted so near. So no answer is smaller.
const NEAR: usize = 4_096;

/// How far down is painted.
const FAR: usize = 6 << 20;

/// The bytes of stack that the call uses, on a thread of its own.
pub fn used(call: impl FnOnce() + Send) -> usize {
    on_promised_stack(|| {
        let mark = 0_u64;
        let top = (&raw const mark).addr() & !7;
        paint(top);
        call();
        let lowest = lowest(top);
        black_box(&mark);
        top - lowest
    })
}

#[inline(never)]
fn paint(top: usize) {
    for at in (top - FAR..top - NEAR).step_by(8) {
        // SAFETY: it is this thread's stack, which has room for it, below all that is in use.
        unsafe { (at as *mut u64).write_volatile(PAINT) }
    }
}

/// The lowest place where the paint is gone.
#[inline(never)]
fn lowest(top: usize) -> usize {
    // SAFETY: as above, and all of it has been written.
    let painted = |at: &usize| unsafe { (*at as *const u64).read_volatile() } == PAINT;
    (top - FAR..top - NEAR).step_by(8).find(|at| !painted(at)).unwrap_or(top - NEAR)
}
