//! What an `Arc` lets its only holder do.

use crate::fields::Fields;
use crate::handle::{yes_or_no, Bare, Handle, Traced};
use crate::line::Line;
use crate::order::in_order;
use crate::slot::while_copying;
use std::panic::Location;
use std::sync::Arc;

impl<T> Traced<T> {
    /// The value, where this is the only `Arc` that holds it, as `Arc::try_unwrap` gives it; else the handle as it was.
    #[track_caller]
    pub fn try_unwrap(self) -> Result<Bare<T>, Self> {
        let at = Location::caller();
        in_order(|| {
            let (pointer, name, made_at) = self.into_parts();
            let value = Arc::try_unwrap(pointer);
            Line::of("try_unwrap", at)
                .handle("h", name)
                .answer(yes_or_no(value.is_ok()))
                .write();
            match value {
                Ok(value) => Ok(Handle::holding(Box::new(value), name, made_at)),
                Err(pointer) => Err(Handle::holding(pointer, name, made_at)),
            }
        })
    }

    /// The value, where this is the only `Arc` that holds it, as `Arc::into_inner` gives it; else the handle is dropped.
    #[track_caller]
    pub fn into_inner(self) -> Option<Bare<T>> {
        let at = Location::caller();
        in_order(|| {
            let (pointer, name, made_at) = self.into_parts();
            let value = Arc::into_inner(pointer);
            Line::of("into_inner", at)
                .handle("h", name)
                .answer(yes_or_no(value.is_some()))
                .write();
            Handle::found(value.map(Box::new), name, made_at)
        })
    }

    /// The value, where nobody else holds it, not even weakly, as `Arc::get_mut` gives it.
    ///
    /// Change its slots by operations alone: a slot that is replaced or swapped through `&mut` ends the recording, or makes its
    /// trace wrong.
    #[track_caller]
    pub fn get_mut(&mut self) -> Option<&mut T> {
        let at = Location::caller();
        in_order(|| {
            let line = Line::of("get_mut", at).handle("h", self.name());
            let value = Arc::get_mut(self.pointer_mut());
            line.answer(yes_or_no(value.is_some())).write();
            value
        })
    }

    /// The value, as `Arc::make_mut` gives it: where another `Arc` holds it, this handle gets a clone; where only `Weak`s do, it is
    /// moved away from them. A clone's slots hold what those of the value held.
    ///
    /// Of its slots the same is true as with [`get_mut`](Handle::get_mut).
    #[track_caller]
    pub fn make_mut(&mut self) -> &mut T
    where
        T: Clone + Fields,
    {
        let at = Location::caller();
        in_order(|| {
            let name = self.name();
            let pointer = self.pointer_mut();
            let answer = match (Arc::strong_count(pointer), Arc::weak_count(pointer)) {
                (1, 0) => "unique",
                (1, _) => "moved",
                _ => "cloned",
            };
            Line::of("make_mut", at)
                .handle("h", name)
                .answer(answer)
                .write();
            while_copying(|| Arc::make_mut(pointer))
        })
    }
}
