// Four threads that do any operations to nodes and cells that they share, drawn from a seed: a replay must give each answer that
// they got.
//
// Usage: stress TRACE [TURNS [SEED]]
#include <array>
#include <cstdint>
#include <cstdio>
#include <cstdlib>
#include <exception>
#include <memory>
#include <thread>
#include <tuple>
#include <utility>
#include <vector>

#include "arc_trace.hpp"

using arc_trace::Cell;
using arc_trace::Recording;
using arc_trace::Shared;
using arc_trace::Slot;
using arc_trace::Weak;
using arc_trace::WeakSlot;

struct Node {
    WeakSlot<Node> me{arc_trace::me};
    std::array<Slot<Node>, 2> next;
    WeakSlot<Node> known;
    auto fields() { return std::tie(me, next, known); }
};

auto next(std::size_t i) {
    return [i](Node& node) -> Slot<Node>& { return node.next[i]; };
}

// Numbers drawn from a seed (splitmix).
class Draw {
  public:
    explicit Draw(std::uint64_t seed) : state_(seed) {}
    std::size_t below(std::size_t n) {
        state_ += 0x9E3779B97F4A7C15;
        std::uint64_t z = state_;
        z = (z ^ (z >> 30)) * 0xBF58476D1CE4E5B9;
        z = (z ^ (z >> 27)) * 0x94D049BB133111EB;
        return (z ^ (z >> 31)) % n;
    }

  private:
    std::uint64_t state_;
};

// What one thread holds.
class Worker {
  public:
    Worker(std::uint64_t seed, std::array<Cell<Node>, 2>& cells) : draw_(seed), cells_(cells) {}

    void turn() {
        auto& cell = cells_[draw_.below(2)];
        switch (draw_.below(16)) {
            case 0:
            case 1:
                shared_.push_back(Shared<Node>(std::make_shared<Node>()));
                break;
            case 2:
                shared_.push_back(node());
                break;
            case 3:
                weak_.push_back(node());
                break;
            case 4:
            case 5:
                if (!weak_.empty()) shared_.push_back(weak_[draw_.below(weak_.size())].lock());
                break;
            case 6:
            case 7:
                if (auto to = node()) to.set(next(draw_.below(2)), node());
                break;
            case 8:
                if (auto to = node()) to.set(&Node::known, some(weak_));
                break;
            case 9:
                if (auto from = node()) shared_.push_back(from.take(next(draw_.below(2))));
                break;
            case 10:
                if (auto from = node())
                    weak_.push_back(draw_.below(2) ? from.get(&Node::me) : from.get(&Node::known));
                break;
            case 11:
                shared_.push_back(cell.load());
                break;
            case 12:
                cell.store(some(shared_));
                break;
            case 13:
                shared_.push_back(cell.exchange(node()));
                break;
            case 14: {
                auto expected = draw_.below(3) ? cell.load() : node();
                if (!cell.compare_exchange_strong(expected, node())) shared_.push_back(std::move(expected));
                break;
            }
            default:
                node().ptr_eq(node());
                some(weak_).expired();
                some(shared_);
        }
    }

  private:
    // A node of this thread, or what a cell holds.
    Shared<Node> node() {
        if (shared_.empty() || draw_.below(3) == 0) return cells_[draw_.below(2)].load();
        return shared_[draw_.below(shared_.size())];
    }

    // Takes one of the handles out.
    template <class Pointer>
    Pointer some(std::vector<Pointer>& handles) {
        if (handles.empty()) return {};
        std::swap(handles[draw_.below(handles.size())], handles.back());
        Pointer one = std::move(handles.back());
        handles.pop_back();
        return one;
    }

    Draw draw_;
    std::array<Cell<Node>, 2>& cells_;
    std::vector<Shared<Node>> shared_;
    std::vector<Weak<Node>> weak_;
};

int main(int argc, char** argv) try {
    if (argc < 2) {
        std::fprintf(stderr, "usage: stress TRACE [TURNS [SEED]]\n");
        return 2;
    }
    const int turns = argc > 2 ? std::atoi(argv[2]) : 100;
    const std::uint64_t seed = argc > 3 ? std::strtoull(argv[3], nullptr, 10) : 1;
    Recording recording(argv[1]);
    {
        std::array<Cell<Node>, 2> cells;
        std::vector<std::thread> threads;
        for (std::uint64_t n = 0; n < 4; n++) {
            threads.emplace_back([n, seed, turns, &cells] {
                Worker worker(4 * seed + n, cells);
                for (int turn = 0; turn < turns; turn++) worker.turn();
            });
        }
        for (auto& thread : threads) thread.join();
    }
    if (recording.finish() != arc_trace::Fault::none) return 1;
    std::printf("%u operations\n", recording.operations());
} catch (const std::exception& fault) {
    std::fprintf(stderr, "%s\n", fault.what());
    return 1;
}
