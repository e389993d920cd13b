//! Whether standard output was closed when the program began, as by `>&-`. Rust opens `/dev/null` in its place before
//! `main`, and what is written there is lost without an error; so it is looked at earlier.

use std::ffi::c_int;
use std::sync::atomic::{AtomicBool, Ordering};

static IS_CLOSED: AtomicBool = AtomicBool::new(false);

unsafe extern "C" {
    fn fcntl(descriptor: c_int, command: c_int, ...) -> c_int;
}

// Of POSIX: the descriptor's flags, or -1 where there is no such descriptor.
const F_GETFD: c_int = 1;

extern "C" fn look() {
    // SAFETY: it reads what the system knows of descriptor 1, and changes nothing.
    IS_CLOSED.store(unsafe { fcntl(1, F_GETFD) } == -1, Ordering::Relaxed);
}

// SAFETY: what this section names is called once, before `main`; `look` needs nothing of Rust's own.
#[used]
#[unsafe(link_section = ".init_array")]
static LOOK: extern "C" fn() = look;

pub fn output() -> bool {
    IS_CLOSED.load(Ordering::Relaxed)
}
