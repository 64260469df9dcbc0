//! `Arc` and `Weak` that write each operation as a line of a trace, which `arc_scope` replays.
//!
//! [`Traced`] stands for an `Arc` in a variable, [`TracedWeak`] for a `Weak`, and [`Slot`] for a field of a value that holds either.
//! Each value that goes into a [`Traced`] tells its slots by [`Fields`]. What is done while a [`Recording`] is open is written,
//! on any number of threads, in one order.
//!
//! ```
//! use arc_trace::{fields, Recording, Slot, Traced};
//! use std::sync::{Arc, Weak};
//!
//! struct Parent {
//!     child: Slot<Arc<Child>>,
//! }
//! struct Child {
//!     parent: Slot<Weak<Parent>>,
//! }
//! fields!(Parent { child });
//! fields!(Child { parent });
//!
//! # fn main() -> Result<(), Box<dyn std::error::Error>> {
//! let recording = Recording::to(std::io::stdout())?;
//! let parent = Traced::new(Parent { child: Slot::empty() });
//! let child = Traced::new(Child { parent: Slot::of(parent.downgrade()) });
//! parent.set(|p| &p.child, child);
//! drop(parent);
//! let operations = recording.finish()?;
//! assert_eq!(operations, 5);
//! # Ok(())
//! # }
//! ```
//!
//! # One lock round each operation
//!
//! A lock is held from the line of an operation until its effect is over, with all that its drops destroy. Without it two threads
//! may write their lines in one order and take effect in the other. The replay follows the lines, so it would answer an upgrade
//! otherwise than the program did, and skip what comes of it.
//!
//! The lock has a price. The threads of the program wait for each other where they didn't, so a race may show less often. And a
//! value whose own `Drop` (or whose `Clone`, in [`make_mut`](Handle::make_mut)) waits for a lock must not meet a thread that does
//! operations while it holds that lock: each would wait for the other.
//!
//! # What ends a recording
//!
//! Where the trace can't be right any more, or can't be written, recording stops. One line on standard error says why, and
//! [`Recording::finish`] gives the [`Fault`]. What was written up to there can be replayed, and the program goes on as if nothing
//! recorded. No destructor panics.

mod fault;
mod fields;
mod handle;
mod line;
mod make;
mod order;
mod recording;
mod slot;
mod unique;

pub use fault::Fault;
pub use fields::{Field, Fields};
pub use handle::{Bare, Handle, Pointer, Traced, TracedWeak};
pub use make::Me;
pub use recording::Recording;
pub use slot::Slot;
