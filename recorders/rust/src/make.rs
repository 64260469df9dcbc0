//! How a value comes into an allocation.

use crate::fields::{settle, Fields};
use crate::handle::{Bare, Handle, Traced};
use crate::line::{FirstSlot, Line};
use crate::order::in_order;
use crate::recording::{self, Name};
use crate::slot::Slot;
use std::panic::Location;
use std::ptr;
use std::sync::{Arc, Weak};

/// What a value that is being made knows of its own allocation.
pub struct Me<'a, T>(&'a Weak<T>);

impl<T> Me<'_, T> {
    /// A slot with a `Weak` to the value that is being made: for a field of that value alone.
    pub fn slot(&self) -> Slot<Weak<T>> {
        Slot::of_me(self.0.clone())
    }
}

impl<T: Fields> Traced<T> {
    /// Moves a value into an allocation of its own, as `Arc::new`. The handles in its slots end: they are fields now.
    #[track_caller]
    pub fn new(value: T) -> Self {
        let at = Location::caller();
        in_order(|| {
            let name = write_new("new", &value, ptr::null(), at);
            Handle::holding(Arc::new(value), name, at)
        })
    }

    /// Makes a value that holds a `Weak` to itself, as `Arc::new_cyclic`.
    ///
    /// What `make` does are operations before this one, and other threads' operations may come between.
    #[track_caller]
    pub fn new_cyclic(make: impl FnOnce(&Me<'_, T>) -> T) -> Self {
        let at = Location::caller();
        let mut name = Name::NONE;
        let pointer = Arc::new_cyclic(|me| {
            let value = make(&Me(me));
            name = in_order(|| write_new("new_cyclic", &value, me.as_ptr().cast(), at));
            value
        });
        Handle::holding(pointer, name, at)
    }
}

impl<T> Bare<T> {
    /// Moves the value into an allocation again, as `Arc::new`. Its slots hold what they held.
    #[track_caller]
    pub fn into_traced(self) -> Traced<T> {
        let at = Location::caller();
        in_order(|| {
            let (value, name, _) = self.into_parts();
            let to = Line::of("new_from", at)
                .handle("from", name)
                .write_making("to");
            recording::ended(name); // not before: `to` has to be another number
            Handle::holding(Arc::new(*value), to, at)
        })
    }
}

fn write_new<T: Fields>(
    op: &'static str,
    value: &T,
    me: *const (),
    at: &'static Location<'static>,
) -> Name {
    let fields = settle(value, me);
    let name = Line::of(op, at).fields(&fields).write_making("to");
    for field in fields {
        if let FirstSlot::Handle(name) = field {
            recording::ended(name); // not before: `to` has to be another number
        }
    }
    name
}
