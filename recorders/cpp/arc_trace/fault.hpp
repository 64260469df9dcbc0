// Why a recording stops.
#pragma once

#include <string_view>

namespace arc_trace {

/// Why a recording stopped. What was written before is a trace that can be replayed.
enum class Fault {
    /// It didn't stop.
    none,
    /// A write failed.
    write,
    /// There was no memory for a line.
    memory,
    /// The trace has as many operations, or bytes, as a trace may have: 1,000,000, or 1,000,000,000.
    full,
    /// More than 65,536 threads did an operation.
    threads,
    /// A value has more than 64 slots.
    fields,
    /// An operation names a handle or cell that was made before the recording began, beside one that was made in it.
    earlier_handle,
    /// An operation names a slot that the fields() of its value don't tie.
    hidden_slot,
    /// A shared_ptr that others hold too was to be a new object.
    held_before,
    /// A slot with `me` came into a value of another class.
    foreign_me,
};

/// A fault in words.
constexpr std::string_view text_of(Fault fault) {
    switch (fault) {
        case Fault::none:
            return "it didn't stop";
        case Fault::write:
            return "the trace couldn't be written";
        case Fault::memory:
            return "there was no memory for a line";
        case Fault::full:
            return "the trace is full";
        case Fault::threads:
            return "more than 65,536 threads did an operation";
        case Fault::fields:
            return "a value has more than 64 slots";
        case Fault::earlier_handle:
            return "a handle from before the recording met one that was recorded";
        case Fault::hidden_slot:
            return "a slot was used that the fields of its value don't tie";
        case Fault::held_before:
            return "a new object was held by others before";
        case Fault::foreign_me:
            return "a slot with `me` came into a value of another class";
    }
    return "";
}

}  // namespace arc_trace
