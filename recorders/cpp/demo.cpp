// A small server: four threads publish a page each, in an atomic cell. A page has a layout, which knows its page and should know it
// by a weak_ptr. One thread makes a mistake, so that one page is never gone.
//
// Usage: demo TRACE [TURNS]
#include <cstdio>
#include <cstdlib>
#include <exception>
#include <memory>
#include <string>
#include <thread>
#include <tuple>
#include <vector>

#include "arc_trace.hpp"

using arc_trace::Cell;
using arc_trace::Recording;
using arc_trace::Shared;
using arc_trace::Slot;
using arc_trace::Weak;
using arc_trace::WeakSlot;

struct Page;

struct Layout {
    WeakSlot<Page> page;
    Slot<Page> shown;
    auto fields() { return std::tie(page, shown); }
};

struct Page {
    int number;
    Slot<Layout> layout;
    explicit Page(int number) : number(number) {}
    ~Page() { std::printf("page %d is gone\n", number); }
    auto fields() { return std::tie(layout); }
};

void publish(int number, Cell<Page>& current) {
    Shared<Page> page(std::make_shared<Page>(number));
    Shared<Layout> layout(std::make_shared<Layout>());
    if (number == 2) {
        layout.set(&Layout::shown, page);  // the mistake: it keeps the page
    } else {
        layout.set(&Layout::page, Weak<Page>(page));
    }
    page.set(&Page::layout, std::move(layout));

    auto before = current.load();
    while (!current.compare_exchange_weak(before, page)) {
    }
    Weak<Page> replaced = before;
    before.reset();
    if (auto again = replaced.lock()) std::printf("page %d is still there\n", again->number);
}

int main(int argc, char** argv) try {
    if (argc < 2) {
        std::fprintf(stderr, "usage: demo TRACE [TURNS]\n");
        return 2;
    }
    const int turns = argc > 2 ? std::atoi(argv[2]) : 1;
    Recording recording(argv[1]);
    {
        Cell<Page> current(Shared<Page>(std::make_shared<Page>(0)));
        std::vector<std::thread> threads;
        for (int n = 1; n <= 4; n++) {
            threads.emplace_back([n, turns, &current] {
                for (int turn = 0; turn < turns; turn++) publish(n + 4 * turn, current);
            });
        }
        for (auto& thread : threads) thread.join();
    }
    const auto fault = recording.finish();
    if (fault != arc_trace::Fault::none) return 1;
    std::printf("%u operations\n", recording.operations());
} catch (const std::exception& fault) {
    std::fprintf(stderr, "%s\n", fault.what());
    return 1;
}
