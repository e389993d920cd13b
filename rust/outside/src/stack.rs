//! How much stack a call uses: the stack below the caller is painted, and after the call looked through from its far
//! end.

use std::arch::asm;
use std::thread;

// The stack that each call has to make do with.
const STACK: usize = 256 * 1024;

// What is painted, and what the thread itself may take of the stack above that.
const PAINTED: usize = STACK - 24 * 1024;
const PAINT: u8 = 0xA5;

/// Runs the call in a thread with a small stack, and gives the bytes of it that the call used.
pub fn used_by(call: impl FnOnce() + Send) -> usize {
    thread::scope(|scope| {
        let small = thread::Builder::new().stack_size(STACK);
        let thread = small.spawn_scoped(scope, || measured(call)).expect("a thread");
        thread.join().expect("the call returns")
    })
}

#[inline(never)]
fn measured(call: impl FnOnce()) -> usize {
    let top = paint();
    call();
    let bottom = top - PAINTED;
    // SAFETY: what was painted lies in the thread's own stack.
    let painted = |at: usize| unsafe { ((bottom + at) as *const u8).read_volatile() } == PAINT;
    PAINTED - (0..PAINTED).find(|&at| !painted(at)).unwrap_or(PAINTED)
}

// Paints what lies below the stack pointer, past the bytes that a function may use without moving it, and gives that
// end.
#[inline(always)]
fn paint() -> usize {
    let top: usize;
    // SAFETY: it lies in the thread's own stack, of which less than the rest is in use above it, and nothing is kept
    // below the stack pointer past those 128 bytes.
    unsafe {
        asm!("lea {top}, [rsp - 128]", top = out(reg) top, options(nostack));
        asm!(
            "rep stosb",
            inout("rcx") PAINTED => _,
            inout("rdi") top - PAINTED => _,
            in("al") PAINT,
            options(nostack),
        );
    }
    top
}
