//! The one order of the operations of all threads.

use std::cell::Cell;
use std::sync::{Mutex, MutexGuard};

static ORDER: Mutex<()> = Mutex::new(());

thread_local! {
    static IS_INSIDE: Cell<bool> = const { Cell::new(false) };
}

/// Does one operation: its line, its effect and all that its drops destroy, with no other thread's operation in between.
///
/// A value that is dropped, or cloned, may have handles of its own. Their operations are part of the one that is under way, and
/// their lines come after its line.
pub(crate) fn in_order<R>(operation: impl FnOnce() -> R) -> R {
    if is_inside() {
        return operation();
    }
    let _order = locked(&ORDER);
    let _inside = Inside::enter();
    operation()
}

/// Whether this thread is in an operation.
pub(crate) fn is_inside() -> bool {
    IS_INSIDE.get()
}

/// Takes a lock, also where a thread panicked that held it: the program goes on, and so does its recording.
pub(crate) fn locked<T>(mutex: &Mutex<T>) -> MutexGuard<'_, T> {
    mutex
        .lock()
        .unwrap_or_else(|poisoned| poisoned.into_inner())
}

// Says that this thread is in an operation, until it is dropped: also by a panic of a value that is dropped.
struct Inside;

impl Inside {
    fn enter() -> Self {
        IS_INSIDE.set(true);
        Inside
    }
}

impl Drop for Inside {
    fn drop(&mut self) {
        IS_INSIDE.set(false);
    }
}
