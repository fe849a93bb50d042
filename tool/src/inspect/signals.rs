//! An interruption by the user or the system: it is noted, so that a report can be filed.

use std::ffi::c_int;
use std::sync::atomic::{AtomicBool, Ordering};

static CAUGHT: AtomicBool = AtomicBool::new(false);

extern "C" {
    fn signal(number: c_int, handler: extern "C" fn(c_int)) -> usize;
}

extern "C" fn note(_: c_int) {
    CAUGHT.store(true, Ordering::Relaxed);
}

/// From here on an interruption is noted and ends nothing.
pub fn watch() {
    const SIGINT: c_int = 2;
    const SIGTERM: c_int = 15;
    // The handler stores one flag, which a handler may do.
    unsafe {
        signal(SIGINT, note);
        signal(SIGTERM, note);
    }
}

pub fn caught() -> bool {
    CAUGHT.load(Ordering::Relaxed)
}
