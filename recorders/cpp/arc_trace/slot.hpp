// Members of a value that hold a shared_ptr or a weak_ptr.
#pragma once

#include <cstddef>
#include <memory>
#include <typeinfo>
#include <utility>

#include "handle.hpp"

namespace arc_trace {

/// What makes a WeakSlot hold a weak_ptr to its own value: `WeakSlot<Node> me{arc_trace::me};`
struct Me {};
inline constexpr Me me{};

/// A member of a value that holds a shared_ptr or a weak_ptr, or nothing.
///
/// It is used by a handle of its value: set, take and get. It is destroyed with its value, and no line tells it, since the replay
/// knows. Before its value comes into a Shared, what it holds is a handle. A value with slots can't be copied or moved.
template <class Pointer>
class BasicSlot final : public detail::AnySlot {
  public:
    /// Holds nothing.
    BasicSlot() = default;

    /// Holds what a handle holds.
    BasicSlot(Handle<Pointer> first) : held_(std::move(first)) {}

    /// Holds a weak_ptr to its own value, from when that comes into a Shared.
    explicit BasicSlot(Me) requires(!detail::is_shared<Pointer>) : is_me_(true) {}

  private:
    template <class Other>
    friend class Handle;

    static constexpr std::size_t unnumbered = ~std::size_t{0};

    detail::FirstSlot settle(std::size_t number, const std::shared_ptr<void>& value,
                             const std::type_info& type) override {
        using T = typename Pointer::element_type;
        using Kind = detail::FirstSlot::Kind;
        number_ = number;
        if (!is_me_) {
            const detail::Name name = std::exchange(held_.name_, {});
            return {name ? Kind::handle : Kind::nothing, name};
        }
        if (type != typeid(T)) return {Kind::foreign_me, {}};
        held_.pointer_ = std::static_pointer_cast<T>(value);
        return {Kind::me, {}};
    }

    Handle<Pointer> held_;
    std::size_t number_ = unnumbered;
    bool is_me_ = false;
};

}  // namespace arc_trace
