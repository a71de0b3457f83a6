//! R's panics, caught and not written. Any other panic is a fault of this program, and is written.

use std::panic::{AssertUnwindSafe, catch_unwind, set_hook, take_hook};
use std::sync::atomic::{AtomicBool, Ordering::Relaxed};

static IN_R: AtomicBool = AtomicBool::new(false);

/// What a call of R gives. `None`: it panics.
pub fn caught<T>(call: impl FnOnce() -> T) -> Option<T> {
    IN_R.store(true, Relaxed);
    let given = catch_unwind(AssertUnwindSafe(call)).ok();
    IN_R.store(false, Relaxed);
    given
}

/// From here on R's panics are not written.
pub fn keep_silent() {
    let usual = take_hook();
    set_hook(Box::new(move |panic| {
        if !IN_R.load(Relaxed) {
            usual(panic);
        }
    }));
}
