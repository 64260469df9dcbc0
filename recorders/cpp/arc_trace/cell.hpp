// Atomic cells.
#pragma once

#include <atomic>
#include <memory>
#include <utility>

#include "handle.hpp"

#ifndef __cpp_lib_atomic_shared_ptr
#error "arc_trace wants a standard library with std::atomic<std::shared_ptr>"
#endif

namespace arc_trace {

/// A std::atomic<std::shared_ptr>.
template <class T>
class Cell {
  public:
    /// Holds nothing.
    explicit Cell(At at = At::current()) : Cell(Shared<T>(), at) {}

    explicit Cell(Shared<T> from, At at = At::current()) : made_at_(at) {
        detail::InOrder in_order;
        from.come_into_trace(at);
        name_ = detail::write("cell_new", at, [&](detail::Line& line) {
            line.name("from", from.name_);
            line.makes_cell();
        });
        cell_.store(over(from));
    }
    Cell(const Cell&) = delete;
    Cell& operator=(const Cell&) = delete;

    ~Cell() {
        detail::InOrder in_order;
        if (name_)
            detail::write_end("cell_drop", made_at_, [&](detail::Line& line) { line.name("c", name_); });
        cell_.store(nullptr);
    }

    Shared<T> load(At at = At::current()) const {
        detail::InOrder in_order;
        const detail::Name to = detail::write("cell_load", at, [&](detail::Line& line) {
            line.name("c", name_);
            line.makes("to");
        });
        return {cell_.load(), to, at};
    }

    void store(Shared<T> from, At at = At::current()) {
        detail::InOrder in_order;
        from.come_into_trace(at);
        write_swap(from, at, nullptr);
        cell_.store(over(from));
    }

    Shared<T> exchange(Shared<T> from, At at = At::current()) {
        detail::InOrder in_order;
        from.come_into_trace(at);
        const detail::Name to = write_swap(from, at, "to");
        return {cell_.exchange(over(from)), to, at};
    }

    /// Where the cell isn't as expected, `expected` is what it holds, and `desired` is dropped.
    bool compare_exchange_strong(Shared<T>& expected, Shared<T> desired, At at = At::current()) {
        detail::InOrder in_order;
        expected.come_into_trace(at);
        desired.come_into_trace(at);
        const bool is_expected = cell_.load() == expected.pointer_;
        detail::write("cell_cas", at, [&](detail::Line& line) {
            line.name("c", name_);
            line.name("expected", expected.name_);
            line.name("desired", desired.name_);
            line.answer(is_expected ? "yes" : "no");
        });
        return cell_.compare_exchange_strong(expected.pointer_, over(desired));
    }

    /// The same: under the lock it doesn't fail without a cause.
    bool compare_exchange_weak(Shared<T>& expected, Shared<T> desired, At at = At::current()) {
        return compare_exchange_strong(expected, std::move(desired), at);
    }

  private:
    detail::Name write_swap(const Shared<T>& from, At at, const char* makes) {
        return detail::write("cell_swap", at, [&](detail::Line& line) {
            line.name("c", name_);
            line.name("from", from.name_);
            if (makes) line.makes(makes);
        });
    }

    // What a handle held that ended with the operation.
    static std::shared_ptr<T> over(Shared<T>& from) {
        detail::ended(std::exchange(from.name_, {}));
        return std::move(from.pointer_);
    }

    std::atomic<std::shared_ptr<T>> cell_;
    detail::Name name_;
    At made_at_;
};

}  // namespace arc_trace
