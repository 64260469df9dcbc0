// Where the lines go, how far, what ends it, and the one order of all threads.
#pragma once

#include <cstddef>
#include <fstream>
#include <iostream>
#include <memory>
#include <mutex>
#include <ostream>
#include <stdexcept>
#include <string>
#include <utility>
#include <vector>

#include "fault.hpp"
#include "line.hpp"

namespace arc_trace {

namespace detail {

// The limits of the reader of a trace.
constexpr unsigned max_operations = 1'000'000;
constexpr std::size_t max_bytes = 1'000'000'000;
constexpr std::size_t max_line = 4'096;
constexpr unsigned max_labels = 65'536;
constexpr std::size_t max_fields = 64;

// Lines are kept until they are this many bytes, and then written as whole lines: a program that is killed leaves a trace.
constexpr std::size_t buffer_size = 65'536;

// Where the lines go, how far, and what ends it. Its functions are called in the one order.
class Recorder {
  public:
    std::recursive_mutex order;  // recursive: a value that is destroyed may have handles of its own

    bool open(std::unique_ptr<std::ostream> owned, std::ostream& sink) {
        if (sink_) return false;
        state_ = State{};
        owned_ = std::move(owned);
        sink_ = &sink;
        recording_++;
        return true;
    }

    Fault close() noexcept {
        if (sink_ && state_.fault == Fault::none && !flush()) stop(Fault::write);
        sink_ = nullptr;
        owned_.reset();
        return state_.fault;
    }

    // The recording that goes on, or 0.
    unsigned current() const { return sink_ && state_.fault == Fault::none ? recording_ : 0; }

    unsigned operations() const { return state_.operations; }

    // Writes a line, where a recording goes on that knows its handles. Names what the operation makes.
    Name write(const char* op, const Place& place, const Line& line) {
        if (!current()) return {};
        if (line.is_foreign_) {
            if (line.is_known_) stop(Fault::earlier_handle);
            return {};
        }
        if (!label()) {
            stop(Fault::threads);
            return {};
        }
        const unsigned number = next(line);
        std::string text = text_of(op, &place, line, number);
        if (text.size() > max_line + 1) text = text_of(op, nullptr, line, number);
        if (state_.operations == max_operations || state_.bytes + text.size() > max_bytes) {
            stop(Fault::full);
            return {};
        }
        state_.buffer += text;
        state_.bytes += text.size();
        state_.operations++;
        if (line.makes_) use(line);
        if (state_.buffer.size() >= buffer_size && !flush()) stop(Fault::write);
        return line.makes_ ? Name{recording_, number} : Name{};
    }

    // Takes note that a handle ended: its number is free for another one.
    void ended(Name name) {
        if (name && name.recording == current()) state_.free.push_back(name.number);
    }

    // Ends a recording whose trace can't go on, and says so.
    void stop(Fault fault) noexcept {
        if (!sink_ || state_.fault != Fault::none) return;
        state_.fault = fault;
        tell(fault);
        if (fault != Fault::write && !flush()) tell(state_.fault = Fault::write);
    }

  private:
    struct State {
        std::string buffer;
        unsigned operations = 0;
        std::size_t bytes = 0;
        unsigned labels = 0;
        unsigned handles = 0;
        unsigned cells = 0;
        std::vector<unsigned> free;
        Fault fault = Fault::none;
    };

    std::string text_of(const char* op, const Place* place, const Line& line, unsigned number) const {
        std::string text = "{\"id\":" + std::to_string(state_.operations + 1);
        text += ",\"t\":" + std::to_string(label_.number) + ",\"op\":\"" + op + '"' + line.members_;
        if (line.makes_) text += std::string(",\"") + line.makes_ + "\":" + std::to_string(number);
        if (place) {
            text += std::string(",\"") + place->member + "\":\"" + escaped(place->at.file_name());
            text += ':' + std::to_string(place->at.line()) + '"';
        }
        return text + "}\n";
    }

    // The number of the handle or cell that a line makes. Those of handles that ended are used again.
    unsigned next(const Line& line) const {
        if (line.makes_ == Line::cell) return state_.cells;
        return state_.free.empty() ? state_.handles : state_.free.back();
    }
    void use(const Line& line) {
        if (line.makes_ == Line::cell)
            state_.cells++;
        else if (state_.free.empty())
            state_.handles++;
        else
            state_.free.pop_back();
    }

    // Whether this thread has a label. It gets one with its first operation.
    bool label() {
        if (label_.recording == recording_) return true;
        if (state_.labels == max_labels) return false;
        label_ = Name{recording_, state_.labels++};
        return true;
    }

    bool flush() noexcept {
        try {
            sink_->write(state_.buffer.data(), static_cast<std::streamsize>(state_.buffer.size()));
            sink_->flush();
            state_.buffer.clear();
            return sink_->good();
        } catch (...) {
            return false;
        }
    }

    // Where standard error is closed too, nobody is left to be told: this may be in a destructor.
    static void tell(Fault fault) noexcept {
        try {
            std::cerr << "arc_trace: recording stopped: " << arc_trace::text_of(fault)
                      << "; the program goes on\n";
        } catch (...) {
        }
    }

    static inline thread_local Name label_;

    std::unique_ptr<std::ostream> owned_;
    std::ostream* sink_ = nullptr;
    unsigned recording_ = 0;
    State state_;
};

// The one recorder. It is never destroyed, since variables with static storage may end after anything else.
inline Recorder& recorder() {
    static Recorder& only = *new Recorder;
    return only;
}

// What stands in the block of one of these is one operation, with all that its drops destroy.
class InOrder {
  public:
    InOrder() : order_(recorder().order) {}

  private:
    std::lock_guard<std::recursive_mutex> order_;
};

// Writes the line of an operation, whose members are put together by `add`. Names what the operation makes.
template <class Add>
Name write(const char* op, const Place& place, Add add) noexcept {
    try {
        Line line(recorder().current());
        add(line);
        return recorder().write(op, place, line);
    } catch (...) {
        recorder().stop(Fault::memory);
        return {};
    }
}
template <class Add>
Name write(const char* op, At at, Add add) noexcept {
    return write(op, Place{"at", at}, add);
}
template <class Add>
Name write_end(const char* op, At made_at, Add add) noexcept {
    return write(op, Place{"made_at", made_at}, add);
}

inline void ended(Name name) noexcept {
    try {
        recorder().ended(name);
    } catch (...) {  // no memory to keep the number: it isn't used again
    }
}

}  // namespace detail

/// A recording that is open, until it is destroyed. One can be open at a time.
///
/// Declare it before all handles, so that it is destroyed after them: what is done later isn't recorded. std::exit destroys no
/// variable of a block, so call finish before it.
class Recording {
  public:
    /// Records into a file that is made, or emptied. Throws std::runtime_error where that fails, or another recording is open.
    explicit Recording(const std::string& path) {
        auto file = std::make_unique<std::ofstream>(path, std::ios::binary);
        if (!*file) throw std::runtime_error("arc_trace: " + path + " can't be written");
        std::ostream& sink = *file;
        open(std::move(file), sink);
    }

    /// Records into a stream, which must not do recorded operations itself. It is written to in pieces of whole lines.
    explicit Recording(std::ostream& sink) { open(nullptr, sink); }

    Recording(const Recording&) = delete;
    Recording& operator=(const Recording&) = delete;

    ~Recording() { finish(); }

    /// Writes what is left, and says why the trace doesn't have all operations, or Fault::none.
    Fault finish() noexcept {
        detail::InOrder in_order;
        if (is_open_) {
            fault_ = detail::recorder().close();
            operations_ = detail::recorder().operations();
        }
        is_open_ = false;
        return fault_;
    }

    /// How many operations the trace has. To be asked when the recording is finished.
    unsigned operations() const { return operations_; }

  private:
    void open(std::unique_ptr<std::ostream> owned, std::ostream& sink) {
        detail::InOrder in_order;
        if (!detail::recorder().open(std::move(owned), sink))
            throw std::runtime_error("arc_trace: another recording is open");
    }

    bool is_open_ = true;
    unsigned operations_ = 0;
    Fault fault_ = Fault::none;
};

}  // namespace arc_trace
