//! A stack deep enough for the original's recursion on any text of 65,536 bytes.

use std::cell::Cell;
use std::panic;
use std::thread;

/// At least twice what 65,536 bytes of `(` take in any profile of Cargo.toml.
const STACK_BYTES: usize = 512 * 1024 * 1024;

thread_local! {
    /// Whether this thread has a deep stack already.
    static DEEP: Cell<bool> = const { Cell::new(false) };
}

/// Runs `work` on a deep stack: on this thread if it has one, else on a new one.
/// A panic of `work` goes on here.
pub fn on_deep_stack<T: Send>(work: impl FnOnce() -> T + Send) -> T {
    if DEEP.get() {
        return work();
    }
    let joined = thread::scope(|scope| {
        thread::Builder::new()
            .stack_size(STACK_BYTES)
            .spawn_scoped(scope, || {
                DEEP.set(true);
                work()
            })
            .expect("a thread with a deep stack can be had")
            .join()
    });
    joined.unwrap_or_else(|payload| panic::resume_unwind(payload))
}
