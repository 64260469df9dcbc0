//! Why a recording stops.

use std::{error, fmt, io};

/// Why a recording stopped. What was written before is a trace that can be replayed.
#[derive(Debug)]
#[non_exhaustive]
pub enum Fault {
    /// A write failed.
    Write(io::Error),
    /// The trace has as many operations, or bytes, as a trace may have: 1,000,000, or 1,000,000,000.
    Full,
    /// More than 65,536 threads did an operation.
    Threads,
    /// A value has more than 64 slots.
    Fields,
    /// An operation names a handle that was made before the recording began, beside one that was made in it.
    EarlierHandle,
    /// An operation names a slot that the [`Fields`](crate::Fields) of its value don't show.
    HiddenSlot,
    /// A value was cloned with what its slots hold, and not by [`make_mut`](crate::Handle::make_mut).
    CopiedSlot,
    /// A slot of a value was dropped, replaced or moved without an operation, through `&mut`.
    LostSlot,
    /// A slot of [`Me`](crate::Me) came into another value than the one that it names.
    ForeignMe,
}

impl fmt::Display for Fault {
    fn fmt(&self, f: &mut fmt::Formatter<'_>) -> fmt::Result {
        let text = match self {
            Fault::Write(cause) => return write!(f, "the trace couldn't be written: {cause}"),
            Fault::Full => "the trace is full",
            Fault::Threads => "more than 65,536 threads did an operation",
            Fault::Fields => "a value has more than 64 slots",
            Fault::EarlierHandle => "a handle from before the recording met one that was recorded",
            Fault::HiddenSlot => "a slot was used that the fields of its value don't show",
            Fault::CopiedSlot => "a value with slots was cloned otherwise than by make_mut",
            Fault::LostSlot => "a slot was dropped, replaced or moved without an operation",
            Fault::ForeignMe => "a slot with `me` came into another value",
        };
        f.write_str(text)
    }
}

impl error::Error for Fault {
    fn source(&self) -> Option<&(dyn error::Error + 'static)> {
        match self {
            Fault::Write(cause) => Some(cause),
            _ => None,
        }
    }
}
