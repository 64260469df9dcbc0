// What a value tells of its slots.
#pragma once

#include <array>
#include <cstddef>
#include <memory>
#include <tuple>
#include <typeinfo>
#include <vector>

#include "line.hpp"

namespace arc_trace {

template <class Pointer>
class Handle;
template <class Pointer>
class BasicSlot;

/// A shared_ptr in a variable.
template <class T>
using Shared = Handle<std::shared_ptr<T>>;

/// A weak_ptr in a variable.
template <class T>
using Weak = Handle<std::weak_ptr<T>>;

/// A shared_ptr in a member of a value.
template <class T>
using Slot = BasicSlot<std::shared_ptr<T>>;

/// A weak_ptr in a member of a value.
template <class T>
using WeakSlot = BasicSlot<std::weak_ptr<T>>;

namespace detail {

// A slot of any type.
class AnySlot {
  public:
    AnySlot() = default;
    AnySlot(const AnySlot&) = delete;
    AnySlot& operator=(const AnySlot&) = delete;

    // Makes the slot field `number` of a value that comes into a Shared, and says what it holds. A slot with `me` holds the value.
    virtual FirstSlot settle(std::size_t number, const std::shared_ptr<void>& value,
                             const std::type_info& type) = 0;

  protected:
    ~AnySlot() = default;
};

template <class Pointer>
void gather(std::vector<AnySlot*>& slots, BasicSlot<Pointer>& slot) {
    slots.push_back(&slot);
}
template <class Part, std::size_t count>
void gather(std::vector<AnySlot*>& slots, std::array<Part, count>& parts) {
    for (Part& part : parts) gather(slots, part);
}

// The slots of a value, in the order in which they are destroyed.
template <class T>
std::vector<AnySlot*> slots_of(T& value) {
    std::vector<AnySlot*> slots;
    if constexpr (requires { value.fields(); })
        std::apply([&](auto&... parts) { (gather(slots, parts), ...); }, value.fields());
    return {slots.rbegin(), slots.rend()};
}

}  // namespace detail

}  // namespace arc_trace
