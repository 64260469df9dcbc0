//! A field of a value.

use crate::fault::Fault;
use crate::handle::{Handle, Pointer};
use crate::line::FirstSlot;
use crate::order::{in_order, is_inside, locked};
use crate::recording;
use std::cell::Cell;
use std::fmt;
use std::mem;
use std::sync::atomic::{AtomicUsize, Ordering::Relaxed};
use std::sync::Mutex;

thread_local! {
    static IS_COPYING: Cell<bool> = const { Cell::new(false) };
}

// The number of a slot whose value was in no allocation yet.
const UNNUMBERED: usize = usize::MAX;

/// A field of a value that holds an `Arc` or a `Weak`, or nothing.
///
/// It is used by the handle of its value: [`set`](Handle::set), [`take`](Handle::take) and [`get`](Handle::get). It is dropped with
/// its value, and no line tells it, since the replay knows. Before its value comes into an allocation, what it holds is a handle.
pub struct Slot<P: Pointer> {
    held: Mutex<Held<P>>,
    number: AtomicUsize,
}

enum Held<P> {
    Nothing,
    Handle(Handle<P>),
    Me(P),
    Field(P),
}

impl<P: Pointer> Slot<P> {
    /// A slot that holds nothing.
    pub fn empty() -> Self {
        Self::holding(Held::Nothing)
    }

    /// A slot that holds what a handle holds.
    pub fn of(handle: Handle<P>) -> Self {
        Self::holding(Held::Handle(handle))
    }

    pub(crate) fn of_me(me: P) -> Self {
        Self::holding(Held::Me(me))
    }

    fn holding(held: Held<P>) -> Self {
        Slot {
            held: Mutex::new(held),
            number: AtomicUsize::new(UNNUMBERED),
        }
    }

    /// The number of the slot among those of its value.
    pub(crate) fn number(&self) -> usize {
        let number = self.number.load(Relaxed);
        if number == UNNUMBERED {
            recording::stop(Fault::HiddenSlot);
        }
        number
    }

    /// Puts a pointer into the field, and gives what was there.
    pub(crate) fn replace(&self, pointer: Option<P>) -> Option<P> {
        let new = pointer.map_or(Held::Nothing, Held::Field);
        let old = mem::replace(&mut *locked(&self.held), new);
        match old {
            Held::Nothing => None,
            Held::Handle(handle) => Some(handle.into_parts().0),
            Held::Me(old) | Held::Field(old) => Some(old),
        }
    }

    /// A clone of what the field holds.
    pub(crate) fn copy(&self) -> Option<P> {
        match &*locked(&self.held) {
            Held::Nothing => None,
            Held::Handle(handle) => Some(handle.pointer().clone()),
            Held::Me(pointer) | Held::Field(pointer) => Some(pointer.clone()),
        }
    }

    /// Makes the slot the field `number` of a value that comes into the allocation at `me`, or of one that doesn't know where.
    pub(crate) fn settle(&self, number: usize, me: *const ()) -> FirstSlot {
        self.number.store(number, Relaxed);
        let mut held = locked(&self.held);
        let (settled, first) = match mem::replace(&mut *held, Held::Nothing) {
            Held::Nothing => (Held::Nothing, FirstSlot::Nothing),
            Held::Handle(handle) => {
                let (pointer, name, _) = handle.into_parts();
                (Held::Field(pointer), FirstSlot::Handle(name))
            }
            Held::Me(pointer) => {
                if pointer.address() != me {
                    recording::stop(Fault::ForeignMe);
                }
                (Held::Field(pointer), FirstSlot::Me)
            }
            Held::Field(pointer) => {
                recording::stop(Fault::LostSlot);
                (Held::Field(pointer), FirstSlot::Nothing)
            }
        };
        *held = settled;
        first
    }
}

/// Does what clones a value with its slots, as `make_mut` does: each then holds what the cloned one holds, and no line tells it.
pub(crate) fn while_copying<R>(work: impl FnOnce() -> R) -> R {
    let _copying = Copying(IS_COPYING.replace(true));
    work()
}

struct Copying(bool);

impl Drop for Copying {
    fn drop(&mut self) {
        IS_COPYING.set(self.0);
    }
}

impl<P: Pointer> Default for Slot<P> {
    fn default() -> Self {
        Self::empty()
    }
}

impl<P: Pointer> From<Handle<P>> for Slot<P> {
    fn from(handle: Handle<P>) -> Self {
        Self::of(handle)
    }
}

/// What a slot holds as a handle is cloned by an operation. What it holds as a field is cloned by
/// [`make_mut`](Handle::make_mut) alone: otherwise recording stops, since no handle would tell of the clone.
impl<P: Pointer> Clone for Slot<P> {
    fn clone(&self) -> Self {
        in_order(|| {
            let held = match &*locked(&self.held) {
                Held::Nothing => Held::Nothing,
                Held::Handle(handle) => Held::Handle(handle.clone()),
                Held::Me(pointer) => Held::Me(pointer.clone()),
                Held::Field(pointer) => {
                    if !IS_COPYING.get() {
                        recording::stop(Fault::CopiedSlot);
                    }
                    Held::Field(pointer.clone())
                }
            };
            Slot {
                held: Mutex::new(held),
                number: AtomicUsize::new(self.number.load(Relaxed)),
            }
        })
    }
}

impl<P: Pointer> Drop for Slot<P> {
    fn drop(&mut self) {
        if is_inside() {
            return; // it is dropped with its value
        }
        if let Held::Field(_) = &*locked(&self.held) {
            recording::stop(Fault::LostSlot);
        }
    }
}

impl<P: Pointer> fmt::Debug for Slot<P> {
    fn fmt(&self, f: &mut fmt::Formatter<'_>) -> fmt::Result {
        f.write_str(match &*locked(&self.held) {
            Held::Nothing => "Slot(empty)",
            _ => "Slot(..)",
        })
    }
}
