//! Variables that hold an `Arc`, a `Weak`, or a value that was moved out of its allocation.

use crate::line::Line;
use crate::order::in_order;
use crate::recording::{self, Name};
use std::fmt;
use std::ops::{Deref, DerefMut};
use std::panic::Location;
use std::sync::{Arc, Weak};

/// A variable that holds a pointer: a handle of the trace.
///
/// It is an operation to make one, to clone it and to drop it. To move it is none: it stays the same handle. The line of its drop
/// tells as `made_at` where it was made, since Rust doesn't tell a drop where it stands.
///
/// A method here goes before one of the value with the same name, which is called as `(*handle).get()`.
pub struct Handle<P> {
    // None in a handle that was taken apart, and in one that is dropped at once, since it would hold nothing
    pointer: Option<P>,
    name: Name,
    made_at: &'static Location<'static>,
}

/// An `Arc` in a variable.
pub type Traced<T> = Handle<Arc<T>>;

/// A `Weak` in a variable.
pub type TracedWeak<T> = Handle<Weak<T>>;

/// A value that was moved out of its allocation, with what its slots hold.
pub type Bare<T> = Handle<Box<T>>;

/// What a slot may hold: an `Arc` or a `Weak`.
pub trait Pointer: Clone + sealed::Sealed {
    #[doc(hidden)]
    fn address(&self) -> *const ();
}

impl<T> Pointer for Arc<T> {
    fn address(&self) -> *const () {
        Arc::as_ptr(self).cast()
    }
}

impl<T> Pointer for Weak<T> {
    fn address(&self) -> *const () {
        Weak::as_ptr(self).cast()
    }
}

mod sealed {
    pub trait Sealed {}
    impl<T> Sealed for std::sync::Arc<T> {}
    impl<T> Sealed for std::sync::Weak<T> {}
}

impl<P> Handle<P> {
    pub(crate) fn holding(pointer: P, name: Name, made_at: &'static Location<'static>) -> Self {
        Handle {
            pointer: Some(pointer),
            name,
            made_at,
        }
    }

    /// A handle that an operation gives: `None` where it would hold nothing, and then it is dropped at once.
    pub(crate) fn found(
        pointer: Option<P>,
        name: Name,
        made_at: &'static Location<'static>,
    ) -> Option<Self> {
        let handle = Handle {
            pointer,
            name,
            made_at,
        };
        handle.pointer.is_some().then_some(handle)
    }

    /// Takes the handle apart without an operation.
    pub(crate) fn into_parts(mut self) -> (P, Name, &'static Location<'static>) {
        let name = std::mem::replace(&mut self.name, Name::NONE);
        let pointer = self.pointer.take().expect("a handle holds a pointer");
        (pointer, name, self.made_at)
    }

    pub(crate) fn name(&self) -> Name {
        self.name
    }

    pub(crate) fn pointer(&self) -> &P {
        self.pointer.as_ref().expect("a handle holds a pointer")
    }

    pub(crate) fn pointer_mut(&mut self) -> &mut P {
        self.pointer.as_mut().expect("a handle holds a pointer")
    }
}

impl<P> Drop for Handle<P> {
    fn drop(&mut self) {
        if self.pointer.is_none() && self.name == Name::NONE {
            return; // it was taken apart
        }
        in_order(|| {
            if self.name != Name::NONE {
                Line::of_end("drop", self.made_at)
                    .handle("h", self.name)
                    .write();
                recording::ended(self.name);
            }
            drop(self.pointer.take());
        })
    }
}

impl<P: Pointer> Clone for Handle<P> {
    #[track_caller]
    fn clone(&self) -> Self {
        let at = Location::caller();
        in_order(|| {
            let pointer = self.pointer().clone();
            let to = Line::of("clone", at)
                .handle("from", self.name)
                .write_making("to");
            Handle::holding(pointer, to, at)
        })
    }
}

impl<P: Deref> Deref for Handle<P> {
    type Target = P::Target;

    fn deref(&self) -> &P::Target {
        self.pointer()
    }
}

impl<T> DerefMut for Bare<T> {
    fn deref_mut(&mut self) -> &mut T {
        self.pointer_mut()
    }
}

impl<P: fmt::Debug> fmt::Debug for Handle<P> {
    fn fmt(&self, f: &mut fmt::Formatter<'_>) -> fmt::Result {
        self.pointer().fmt(f)
    }
}

impl<T> Traced<T> {
    /// A `Weak` to the same allocation, as `Arc::downgrade` gives it.
    #[track_caller]
    pub fn downgrade(&self) -> TracedWeak<T> {
        let at = Location::caller();
        in_order(|| {
            let pointer = Arc::downgrade(self.pointer());
            let to = Line::of("downgrade", at)
                .handle("from", self.name)
                .write_making("to");
            Handle::holding(pointer, to, at)
        })
    }

    /// Whether both hold the same allocation, as `Arc::ptr_eq` says.
    #[track_caller]
    pub fn ptr_eq(&self, other: &Self) -> bool {
        let at = Location::caller();
        in_order(|| {
            let is_same = Arc::ptr_eq(self.pointer(), other.pointer());
            Line::of("ptr_eq", at)
                .handle("a", self.name)
                .handle("b", other.name)
                .answer(yes_or_no(is_same))
                .write();
            is_same
        })
    }

    /// How many hold the allocation strongly, as `Arc::strong_count` says.
    #[track_caller]
    pub fn strong_count(&self) -> usize {
        self.counts(Location::caller()).0
    }

    /// How many hold the allocation weakly, as `Arc::weak_count` says.
    #[track_caller]
    pub fn weak_count(&self) -> usize {
        self.counts(Location::caller()).1
    }

    fn counts(&self, at: &'static Location<'static>) -> (usize, usize) {
        in_order(|| {
            let pointer = self.pointer();
            let counts = (Arc::strong_count(pointer), Arc::weak_count(pointer));
            write_counts(self.name, counts, at);
            counts
        })
    }
}

impl<T> TracedWeak<T> {
    /// A `Weak` to no allocation, as `Weak::new` makes it.
    #[track_caller]
    #[allow(clippy::new_without_default)]
    pub fn new() -> Self {
        let at = Location::caller();
        in_order(|| {
            let to = Line::of("weak_new", at).write_making("to");
            Handle::holding(Weak::new(), to, at)
        })
    }

    /// The `Arc`, where the value is still there, as `Weak::upgrade` gives it.
    #[track_caller]
    pub fn upgrade(&self) -> Option<Traced<T>> {
        let at = Location::caller();
        in_order(|| {
            let pointer = self.pointer().upgrade();
            let to = Line::of("upgrade", at)
                .handle("from", self.name)
                .answer(yes_or_no(pointer.is_some()))
                .write_making("to");
            Handle::found(pointer, to, at)
        })
    }

    /// How many hold the allocation strongly, as `Weak::strong_count` says.
    #[track_caller]
    pub fn strong_count(&self) -> usize {
        self.counts(Location::caller()).0
    }

    /// How many hold the allocation weakly, and 0 where its value is gone, as `Weak::weak_count` says.
    #[track_caller]
    pub fn weak_count(&self) -> usize {
        self.counts(Location::caller()).1
    }

    fn counts(&self, at: &'static Location<'static>) -> (usize, usize) {
        in_order(|| {
            let pointer = self.pointer();
            let counts = (pointer.strong_count(), pointer.weak_count());
            write_counts(self.name, counts, at);
            counts
        })
    }
}

/// An answer, in the words of the report.
pub(crate) fn yes_or_no(is_yes: bool) -> &'static str {
    if is_yes {
        "yes"
    } else {
        "no"
    }
}

// Counts are an answer in the form of the report, which goes on to count Weaks where the value is gone.
fn write_counts(name: Name, (strong, weak): (usize, usize), at: &'static Location<'static>) {
    let line = Line::of("counts", at).handle("h", name);
    if strong == 0 {
        line.write();
    } else {
        line.answer(format_args!("{strong}/{weak}")).write();
    }
}
