//! How deep a call's stack is: the stack below is filled with a pattern, and what is left of it afterwards is looked for.

use std::hint::black_box;
use std::ptr::{read_volatile, write_volatile};

const PATTERN: u8 = 0xa5;

/// Octets below this frame that are filled; the thread's stack is larger.
const DEPTH: usize = 256 * 1024;

/// Octets just below a frame that the filling itself may use.
const NEAR: usize = 256;

/// Fills the stack below and tells where the filling ends.
#[inline(never)]
fn fill() -> usize {
    let here = 0u8;
    let top = black_box(&here) as *const u8 as usize - NEAR;
    for at in top - DEPTH..top {
        unsafe { write_volatile(at as *mut u8, PATTERN) };
    }
    top
}

/// The lowest place below `top` that no longer has the pattern.
#[inline(never)]
fn lowest(top: usize) -> usize {
    (top - DEPTH..top).find(|at| unsafe { read_volatile(*at as *const u8) } != PATTERN).unwrap_or(top)
}

/// The octets of stack below this frame that the call used: the closure's own are among them, and a few hundred at least.
pub fn used(call: &mut (dyn FnMut() + Send)) -> usize {
    let depth = || {
        let here = 0u8;
        let from = black_box(&here) as *const u8 as usize;
        let top = fill();
        black_box(call)();
        from - lowest(top)
    };
    std::thread::scope(|scope| {
        let thread = std::thread::Builder::new().stack_size(4 * DEPTH).spawn_scoped(scope, depth);
        thread.expect("a thread starts").join().expect("a depth")
    })
}
