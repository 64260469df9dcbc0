//! What a value tells of its slots, and how a handle uses them.

use crate::handle::{Handle, Pointer};
use crate::line::{FirstSlot, Line};
use crate::order::in_order;
use crate::recording;
use crate::slot::Slot;
use std::ops::Deref;
use std::panic::Location;

/// A value that tells its slots. [`fields!`](crate::fields!) writes this for a struct.
pub trait Fields {
    /// Shows each slot to `visit`, in the order of declaration, in which they are dropped. It shows the same ones each time.
    fn each(&self, visit: &mut dyn FnMut(&dyn Field)) {
        let _ = visit;
    }
}

/// A slot of any type, as [`Fields`] shows it.
pub trait Field: sealed::Settle {}

impl<P: Pointer> Field for Slot<P> {}

mod sealed {
    use super::{FirstSlot, Pointer, Slot};

    pub trait Settle {
        #[allow(private_interfaces)]
        fn settle(&self, number: usize, me: *const ()) -> FirstSlot;
    }

    impl<P: Pointer> Settle for Slot<P> {
        #[allow(private_interfaces)]
        fn settle(&self, number: usize, me: *const ()) -> FirstSlot {
            Slot::settle(self, number, me)
        }
    }
}

/// Writes [`Fields`] for a struct: its name, and its fields that are slots, or hold slots, in the order of declaration.
///
/// ```
/// # use arc_trace::{fields, Slot};
/// # use std::sync::{Arc, Weak};
/// struct Config;
/// struct Session {
///     name: String,
///     config: Slot<Arc<Config>>,
///     others: [Slot<Weak<Session>>; 4],
/// }
/// fields!(Config {});
/// fields!(Session { config, others });
/// ```
#[macro_export]
macro_rules! fields {
    ($value:ty { $($field:ident),* $(,)? }) => {
        impl $crate::Fields for $value {
            fn each(&self, visit: &mut dyn FnMut(&dyn $crate::Field)) {
                let _ = &visit;
                $($crate::Fields::each(&self.$field, visit);)*
            }
        }
    };
}

impl<P: Pointer> Fields for Slot<P> {
    fn each(&self, visit: &mut dyn FnMut(&dyn Field)) {
        visit(self);
    }
}

impl<F: Fields, const N: usize> Fields for [F; N] {
    fn each(&self, visit: &mut dyn FnMut(&dyn Field)) {
        self.as_slice().each(visit);
    }
}

impl<F: Fields> Fields for [F] {
    fn each(&self, visit: &mut dyn FnMut(&dyn Field)) {
        for part in self {
            part.each(visit);
        }
    }
}

impl<F: Fields> Fields for Vec<F> {
    fn each(&self, visit: &mut dyn FnMut(&dyn Field)) {
        self.as_slice().each(visit);
    }
}

impl<F: Fields> Fields for Option<F> {
    fn each(&self, visit: &mut dyn FnMut(&dyn Field)) {
        if let Some(part) = self {
            part.each(visit);
        }
    }
}

impl<F: Fields + ?Sized> Fields for Box<F> {
    fn each(&self, visit: &mut dyn FnMut(&dyn Field)) {
        self.as_ref().each(visit);
    }
}

/// Makes the slots of a value the fields of an object, numbered in their order.
pub(crate) fn settle(value: &impl Fields, me: *const ()) -> Vec<FirstSlot> {
    let mut fields = Vec::new();
    value.each(&mut |field| fields.push(field.settle(fields.len(), me)));
    fields
}

// What `field` gives has to be a slot of the handle's own value.
impl<P> Handle<P>
where
    P: Deref,
    P::Target: Fields,
{
    /// Moves a handle into a field of the value, and drops what was there.
    #[track_caller]
    pub fn set<Q: Pointer>(&self, field: impl FnOnce(&P::Target) -> &Slot<Q>, from: Handle<Q>) {
        let at = Location::caller();
        let slot = field(self);
        in_order(|| {
            let (pointer, name, _) = from.into_parts();
            self.line_of_field("set", slot, at)
                .handle("from", name)
                .write();
            recording::ended(name);
            drop(slot.replace(Some(pointer)));
        })
    }

    /// Takes what a field holds out of it.
    #[track_caller]
    pub fn take<Q: Pointer>(
        &self,
        field: impl FnOnce(&P::Target) -> &Slot<Q>,
    ) -> Option<Handle<Q>> {
        let at = Location::caller();
        let slot = field(self);
        in_order(|| {
            let pointer = slot.replace(None);
            let to = self.line_of_field("take", slot, at).write_making("to");
            Handle::found(pointer, to, at)
        })
    }

    /// A clone of what a field holds.
    #[track_caller]
    pub fn get<Q: Pointer>(&self, field: impl FnOnce(&P::Target) -> &Slot<Q>) -> Option<Handle<Q>> {
        let at = Location::caller();
        let slot = field(self);
        in_order(|| {
            let pointer = slot.copy();
            let to = self.line_of_field("get", slot, at).write_making("to");
            Handle::found(pointer, to, at)
        })
    }

    fn line_of_field<Q: Pointer>(
        &self,
        op: &'static str,
        slot: &Slot<Q>,
        at: &'static Location<'static>,
    ) -> Line {
        Line::of(op, at)
            .handle("h", self.name())
            .number("i", slot.number())
    }
}
