// std::shared_ptr, std::weak_ptr and std::atomic<std::shared_ptr> that write each operation as a line of a trace,
// which arc_scope replays. C++20, and the standard library alone.
//
//     struct Parent;
//     struct Child {
//         arc_trace::WeakSlot<Parent> parent;
//         auto fields() { return std::tie(parent); }
//     };
//     struct Parent {
//         arc_trace::Slot<Child> child;
//         auto fields() { return std::tie(child); }
//     };
//
//     arc_trace::Recording recording("trace.jsonl");
//     arc_trace::Shared<Parent> parent(std::make_shared<Parent>());
//     arc_trace::Shared<Child> child(std::make_shared<Child>());
//     child.set(&Child::parent, arc_trace::Weak<Parent>(parent));
//     parent.set(&Parent::child, std::move(child));
//
// Shared and Weak are variables that hold a shared_ptr or a weak_ptr: handles of the trace. Slot and WeakSlot are members of a
// value that hold one: fields. Cell is a std::atomic<std::shared_ptr>. What is done while a Recording is open is written, on any
// number of threads, in one order.
//
// ONE LOCK ROUND EACH OPERATION. It is held from the line of an operation until its effect is over, with all that its drops
// destroy. Without it two threads may write their lines in one order and take effect in the other. The replay follows the lines,
// so it would answer a lock() otherwise than the program did. The lock has a price: the threads of the program wait for each other
// where they didn't, and a value whose destructor waits for a lock must not meet a thread that does operations while it holds that
// lock: each would wait for the other.
//
// THE FIELDS OF A VALUE are what its fields() ties together, in the order of declaration. C++ destroys members in the reverse
// order, and a replay destroys field 0 first: so field 0 is the one that is declared last.
//
// WHAT ENDS A RECORDING. Where the trace can't be right any more, or can't be written, recording stops. One line on standard error
// says why, and Recording::finish gives the Fault. What was written up to there can be replayed, and the program goes on as if
// nothing recorded. No destructor throws.
#pragma once

#include "arc_trace/cell.hpp"
#include "arc_trace/fault.hpp"
#include "arc_trace/handle.hpp"
#include "arc_trace/recorder.hpp"
#include "arc_trace/slot.hpp"
