// Variables that hold a shared_ptr or a weak_ptr.
#pragma once

#include <cstddef>
#include <functional>
#include <memory>
#include <string_view>
#include <typeinfo>
#include <utility>
#include <vector>

#include "fields.hpp"
#include "recorder.hpp"

namespace arc_trace {

namespace detail {

template <class T>
bool is_empty(const std::shared_ptr<T>& pointer) {
    return !pointer;
}
template <class T>
bool is_empty(const std::weak_ptr<T>& pointer) {
    const std::weak_ptr<T> empty;
    return !pointer.owner_before(empty) && !empty.owner_before(pointer);
}
template <class T>
constexpr const char* op_of_empty(const std::shared_ptr<T>&) {
    return "null";
}
template <class T>
constexpr const char* op_of_empty(const std::weak_ptr<T>&) {
    return "weak_new";
}

template <class Pointer>
constexpr bool is_shared = false;
template <class T>
constexpr bool is_shared<std::shared_ptr<T>> = true;

}  // namespace detail

/// A variable that holds a shared_ptr or a weak_ptr: a handle of the trace.
///
/// It is an operation to make one, to copy it and to destroy it. To move it is none: it stays the same handle. One that holds
/// nothing, since nothing was put into it or it was moved from, comes into the trace with its first operation.
template <class Pointer>
class Handle {
  public:
    using element_type = typename Pointer::element_type;

    /// Holds nothing.
    Handle() noexcept = default;
    Handle(std::nullptr_t) noexcept {}

    /// Takes over a shared_ptr to a new object, as `std::make_shared` makes it. The handles in its slots end: they are fields now.
    explicit Handle(Pointer made, At at = At::current()) requires detail::is_shared<Pointer> : made_at_(at) {
        detail::InOrder in_order;
        pointer_ = std::move(made);
        if (pointer_) write_new();
    }

    /// A weak_ptr to what a shared_ptr holds.
    Handle(const Shared<element_type>& from, At at = At::current()) requires(!detail::is_shared<Pointer>)
        : made_at_(at) {
        detail::InOrder in_order;
        pointer_ = from.pointer_;
        name_ = from.pointer_ ? from.write_making("downgrade", at) : detail::Name{};
    }

    Handle(const Handle& other, At at = At::current()) : made_at_(at) {
        detail::InOrder in_order;
        pointer_ = other.pointer_;
        if (other.name_) name_ = other.write_making("clone", at);
    }
    Handle(Handle&& other) noexcept
        : pointer_(std::move(other.pointer_)),
          name_(std::exchange(other.name_, {})),
          made_at_(other.made_at_) {}

    /// Drops what it held, when it holds the other.
    Handle& operator=(Handle other) noexcept {
        std::swap(pointer_, other.pointer_);
        std::swap(name_, other.name_);
        std::swap(made_at_, other.made_at_);
        return *this;
    }

    ~Handle() { reset(); }

    /// Drops what it holds.
    void reset() noexcept {
        if (!name_ && detail::is_empty(pointer_)) return;
        detail::InOrder in_order;
        const detail::Name name = std::exchange(name_, {});
        if (name) {
            detail::write_end("drop", made_at_, [&](detail::Line& line) { line.name("h", name); });
            detail::ended(name);
        }
        Pointer().swap(pointer_);
    }

    element_type* get() const requires detail::is_shared<Pointer> { return pointer_.get(); }
    element_type& operator*() const requires detail::is_shared<Pointer> { return *pointer_; }
    element_type* operator->() const requires detail::is_shared<Pointer> { return pointer_.get(); }
    explicit operator bool() const requires detail::is_shared<Pointer> { return static_cast<bool>(pointer_); }

    /// Whether both hold the same object. No operation where one holds nothing, and `==` never is one.
    bool ptr_eq(const Handle& other, At at = At::current()) const requires detail::is_shared<Pointer> {
        detail::InOrder in_order;
        const bool is_same = *this == other;
        if (pointer_ && other.pointer_) {
            detail::write("ptr_eq", at, [&](detail::Line& line) {
                line.name("a", name_);
                line.name("b", other.name_);
                line.answer(is_same ? "yes" : "no");
            });
        }
        return is_same;
    }
    friend bool operator==(const Handle& a, const Handle& b) requires detail::is_shared<Pointer> {
        return a.pointer_ == b.pointer_;
    }

    /// How many hold the object. No operation where this holds nothing.
    long use_count(At at = At::current()) const {
        detail::InOrder in_order;
        if (!detail::is_empty(pointer_))
            detail::write("counts", at, [&](detail::Line& line) { line.name("h", name_); });
        return pointer_.use_count();
    }

    /// Whether the object is gone.
    bool expired(At at = At::current()) const requires(!detail::is_shared<Pointer>) {
        return use_count(at) == 0;
    }

    /// A handle to the object, or to nothing where it is gone.
    Shared<element_type> lock(At at = At::current()) const requires(!detail::is_shared<Pointer>) {
        detail::InOrder in_order;
        come_into_trace(at);
        std::shared_ptr<element_type> found = pointer_.lock();
        const detail::Name to = detail::write("upgrade", at, [&](detail::Line& line) {
            line.name("from", name_);
            line.answer(found ? "yes" : "no");
            line.makes("to");
        });
        return {std::move(found), to, at};
    }

    /// Moves a handle into a slot of the object, and drops what was there.
    template <class Where, class Other>
    void set(Where where, Handle<Other> from,
             At at = At::current()) const requires detail::is_shared<Pointer> {
        detail::InOrder in_order;
        BasicSlot<Other>& slot = std::invoke(where, *pointer_);
        from.come_into_trace(at);
        write_of_slot("set", slot, at, [&](detail::Line& line) { line.name("from", from.name_); });
        detail::ended(std::exchange(from.name_, {}));
        Other old = std::exchange(slot.held_.pointer_, std::move(from.pointer_));
    }

    /// Moves what a slot of the object holds into a handle.
    template <class Where>
    auto take(Where where, At at = At::current()) const requires detail::is_shared<Pointer> {
        detail::InOrder in_order;
        auto& slot = std::invoke(where, *pointer_);
        const detail::Name to = write_of_slot("take", slot, at, [](detail::Line& line) { line.makes("to"); });
        return found(std::exchange(slot.held_.pointer_, {}), to, at);
    }

    /// A copy of what a slot of the object holds.
    template <class Where>
    auto get(Where where, At at = At::current()) const requires detail::is_shared<Pointer> {
        detail::InOrder in_order;
        auto& slot = std::invoke(where, *pointer_);
        const detail::Name to = write_of_slot("get", slot, at, [](detail::Line& line) { line.makes("to"); });
        auto held = slot.held_.pointer_;
        return found(std::move(held), to, at);
    }

  private:
    template <class Other>
    friend class Handle;
    template <class Other>
    friend class BasicSlot;
    template <class T>
    friend class Cell;

    Handle(Pointer pointer, detail::Name name, At made_at)
        : pointer_(std::move(pointer)), name_(name), made_at_(made_at) {}

    // What a slot held. An empty slot holds nothing in the trace, where an empty weak_ptr is one that was made so: its handle is dropped
    // at once, and comes into the trace again when it is used.
    template <class Held>
    static Handle<Held> found(Held held, detail::Name to, At at) {
        Handle<Held> handle(std::move(held), to, at);
        if (!detail::is_shared<Held> && detail::is_empty(handle.pointer_)) handle.reset();
        return handle;
    }

    detail::Name write_making(const char* op, At at) const {
        return detail::write(op, at, [&](detail::Line& line) {
            line.name("from", name_);
            line.makes("to");
        });
    }

    // A handle that holds nothing gets its name where an operation names it.
    void come_into_trace(At at) const {
        if (name_ || !detail::is_empty(pointer_)) return;
        made_at_ = at;
        name_ =
            detail::write(detail::op_of_empty(pointer_), at, [](detail::Line& line) { line.makes("to"); });
    }

    template <class Other, class Add>
    detail::Name write_of_slot(const char* op, const BasicSlot<Other>& slot, At at, Add add) const {
        if (slot.number_ == slot.unnumbered) detail::recorder().stop(Fault::hidden_slot);
        return detail::write(op, at, [&](detail::Line& line) {
            line.name("h", name_);
            line.number("i", slot.number_);
            add(line);
        });
    }

    void write_new() {
        using Kind = detail::FirstSlot::Kind;
        if (pointer_.use_count() != 1) detail::recorder().stop(Fault::held_before);
        const std::vector<detail::FirstSlot> fields = settle();
        if (fields.size() > detail::max_fields) detail::recorder().stop(Fault::fields);
        bool is_cyclic = false;
        for (const auto& field : fields) {
            if (field.kind == Kind::me) is_cyclic = true;
            if (field.kind == Kind::foreign_me) detail::recorder().stop(Fault::foreign_me);
        }
        name_ = detail::write(is_cyclic ? "new_cyclic" : "new", made_at_, [&](detail::Line& line) {
            line.fields(fields);
            line.makes("to");
        });
        for (const auto& field : fields)
            if (field.kind == Kind::handle)
                detail::ended(field.name);  // not before: `to` has to be another number
    }

    // Makes the slots of the object its fields, and says what they hold.
    std::vector<detail::FirstSlot> settle() {
        std::vector<detail::FirstSlot> fields;
        for (detail::AnySlot* slot : detail::slots_of(*pointer_))
            fields.push_back(slot->settle(fields.size(), pointer_, typeid(element_type)));
        return fields;
    }

    Pointer pointer_;
    mutable detail::Name name_;
    mutable At made_at_;
};

}  // namespace arc_trace
