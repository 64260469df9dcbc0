// Tests of arc_trace.hpp: `tests` runs all of them, says what failed, and ends with 'N passed, M failed'.
#include <array>
#include <atomic>
#include <cstdio>
#include <functional>
#include <iostream>
#include <memory>
#include <sstream>
#include <stdexcept>
#include <streambuf>
#include <string>
#include <thread>
#include <tuple>
#include <vector>

#include "arc_trace.hpp"

namespace {

using arc_trace::At;
using arc_trace::Cell;
using arc_trace::Fault;
using arc_trace::Recording;
using arc_trace::Shared;
using arc_trace::Slot;
using arc_trace::Weak;
using arc_trace::WeakSlot;

using Lines = std::vector<std::string>;

struct Failed : std::runtime_error {
    using std::runtime_error::runtime_error;
};

void check(bool holds, const std::string& what = "", At at = At::current()) {
    if (!holds) throw Failed("line " + std::to_string(at.line()) + ": " + what);
}

// The lines as `<id> <op>` and the members of the operation, without label and place.
Lines ops(const std::string& trace) {
    Lines lines;
    std::istringstream input(trace);
    for (std::string line; std::getline(input, line);) {
        const auto id_end = line.find(",\"t\":"), op = line.find("\"op\":\"") + 6,
                   op_end = line.find('"', op);
        auto end = line.find(",\"at\":\"");
        if (end == std::string::npos) end = line.find(",\"made_at\":\"");
        if (end == std::string::npos) end = line.size() - 1;
        lines.push_back(line.substr(6, id_end - 6) + ' ' + line.substr(op, op_end - op) +
                        line.substr(op_end + 1, end - op_end - 1));
    }
    return lines;
}

void check_ops(const std::string& trace, const Lines& wanted, At at = At::current()) {
    const Lines given = ops(trace);
    for (std::size_t i = 0; i < std::max(given.size(), wanted.size()); i++) {
        const std::string a = i < given.size() ? given[i] : "nothing",
                          b = i < wanted.size() ? wanted[i] : "nothing";
        check(a == b, "wanted " + b + "; given " + a, at);
    }
}

// What a program writes that records all that it does.
std::string recorded(const std::function<void()>& program, Fault wanted = Fault::none,
                     At at = At::current()) {
    std::ostringstream sink;
    Recording recording(sink);
    program();
    const Fault fault = recording.finish();
    check(fault == wanted, std::string(arc_trace::text_of(fault)), at);
    check(recording.operations() == ops(sink.str()).size(), "number of operations", at);
    return sink.str();
}

struct Leaf {};
struct Node {
    Slot<Leaf> leaf;
    std::array<WeakSlot<Node>, 2> others;
    Node() = default;
    explicit Node(Shared<Leaf> first) : leaf(std::move(first)) {}
    auto fields() { return std::tie(leaf, others); }
};
auto other(std::size_t i) {
    return [i](Node& node) -> WeakSlot<Node>& { return node.others[i]; };
}
Shared<Leaf> new_leaf() { return Shared<Leaf>(std::make_shared<Leaf>()); }
Shared<Node> new_node() { return Shared<Node>(std::make_shared<Node>()); }

void handles() {
    const auto trace = recorded([] {
        auto leaf = new_leaf();
        Weak<Leaf> weak = leaf;
        auto copy = leaf;
        check(leaf.ptr_eq(copy) && leaf == copy);
        check(leaf.use_count() == 2);
        { auto again = weak.lock(); }
        leaf.reset();
        copy = nullptr;
        check(!weak.lock());
        check(weak.expired());
    });
    check_ops(trace, {
                         R"(1 new,"fields":[],"to":0)",
                         R"(2 downgrade,"from":0,"to":1)",
                         R"(3 clone,"from":0,"to":2)",
                         R"(4 ptr_eq,"a":0,"b":2,"answer":"yes")",
                         R"(5 counts,"h":0)",
                         R"(6 upgrade,"from":1,"answer":"yes","to":3)",
                         R"(7 drop,"h":3)",
                         R"(8 drop,"h":0)",
                         R"(9 drop,"h":2)",
                         R"(10 upgrade,"from":1,"answer":"no","to":2)",
                         R"(11 drop,"h":2)",
                         R"(12 counts,"h":1)",
                         R"(13 drop,"h":1)",
                     });
}

void handles_to_nothing() {
    const auto trace = recorded([] {
        Shared<Leaf> nothing;
        auto copy = nothing;
        auto leaf = new_leaf();
        auto moved = std::move(leaf);
        check(!leaf && moved);
        leaf = moved;             // into what was moved from
        moved = std::move(leaf);  // drops what it held
        check(moved.use_count() == 1);
        Weak<Leaf> none;
        check(!none.lock());
        Weak<Leaf> of_nothing = nothing;
        check(of_nothing.use_count() == 0);
    });
    check_ops(trace, {
                         R"(1 new,"fields":[],"to":0)",
                         R"(2 clone,"from":0,"to":1)",
                         R"(3 drop,"h":0)",
                         R"(4 counts,"h":1)",
                         R"(5 weak_new,"to":0)",
                         R"(6 upgrade,"from":0,"answer":"no","to":2)",
                         R"(7 drop,"h":2)",
                         R"(8 drop,"h":0)",
                         R"(9 drop,"h":1)",
                     });
}

void field_0_is_declared_last() {
    const auto trace = recorded([] {
        Shared<Node> node(std::make_shared<Node>(new_leaf()));
        node.set(other(1), Weak<Node>(node));
        node.set(&Node::leaf, new_leaf());  // drops the first one
        auto weak = node.get(other(1));
        auto taken = node.take(&Node::leaf);
        node.set(&Node::leaf, Shared<Leaf>());
    });
    check_ops(trace, {
                         R"(1 new,"fields":[],"to":0)",
                         R"(2 new,"fields":[null,null,0],"to":1)",
                         R"(3 downgrade,"from":1,"to":0)",
                         R"(4 set,"h":1,"i":0,"from":0)",
                         R"(5 new,"fields":[],"to":0)",
                         R"(6 set,"h":1,"i":2,"from":0)",
                         R"(7 get,"h":1,"i":0,"to":0)",
                         R"(8 take,"h":1,"i":2,"to":2)",
                         R"(9 null,"to":3)",
                         R"(10 set,"h":1,"i":2,"from":3)",
                         R"(11 drop,"h":2)",
                         R"(12 drop,"h":0)",
                         R"(13 drop,"h":1)",
                     });
}

struct Own {
    WeakSlot<Own> me{arc_trace::me};
    auto fields() { return std::tie(me); }
};

void an_empty_weak_slot() {
    const auto trace = recorded([] {
        auto node = new_node();
        auto weak = node.get(other(0));
        check(!weak.lock());
        node.set(other(1), weak);
        check(node.take(other(1)).expired());
    });
    check_ops(trace, {
                         R"(1 new,"fields":[null,null,null],"to":0)",
                         R"(2 get,"h":0,"i":1,"to":1)",
                         R"(3 drop,"h":1)",
                         R"(4 weak_new,"to":1)",
                         R"(5 upgrade,"from":1,"answer":"no","to":2)",
                         R"(6 drop,"h":2)",
                         R"(7 clone,"from":1,"to":2)",
                         R"(8 set,"h":0,"i":0,"from":2)",
                         R"(9 take,"h":0,"i":0,"to":2)",
                         R"(10 drop,"h":2)",
                         R"(11 drop,"h":1)",
                         R"(12 drop,"h":0)",
                     });
}

void a_value_that_knows_itself() {
    const auto trace = recorded([] {
        Shared<Own> own(std::make_shared<Own>());
        const auto weak = own.get(&Own::me);
        check(weak.lock() == own);
        own.reset();
        check(!weak.lock());
    });
    check_ops(trace, {
                         R"(1 new_cyclic,"fields":["me"],"to":0)",
                         R"(2 get,"h":0,"i":0,"to":1)",
                         R"(3 upgrade,"from":1,"answer":"yes","to":2)",
                         R"(4 drop,"h":2)",
                         R"(5 drop,"h":0)",
                         R"(6 upgrade,"from":1,"answer":"no","to":0)",
                         R"(7 drop,"h":0)",
                         R"(8 drop,"h":1)",
                     });
}

void cells() {
    const auto trace = recorded([] {
        Cell<Leaf> cell(new_leaf());
        auto now = cell.load();
        auto expected = now;
        check(cell.compare_exchange_strong(expected, new_leaf()));
        check(!cell.compare_exchange_weak(expected, new_leaf()));
        check(expected == cell.load());
        auto old = cell.exchange(nullptr);
        check(old == expected);
        cell.store(std::move(now));
    });
    check_ops(trace, {
                         R"(1 new,"fields":[],"to":0)",
                         R"(2 cell_new,"from":0,"c":0)",
                         R"(3 cell_load,"c":0,"to":0)",
                         R"(4 clone,"from":0,"to":1)",
                         R"(5 new,"fields":[],"to":2)",
                         R"(6 cell_cas,"c":0,"expected":1,"desired":2,"answer":"yes")",
                         R"(7 new,"fields":[],"to":2)",
                         R"(8 cell_cas,"c":0,"expected":1,"desired":2,"answer":"no")",
                         R"(9 cell_load,"c":0,"to":2)",
                         R"(10 drop,"h":2)",
                         R"(11 null,"to":2)",
                         R"(12 cell_swap,"c":0,"from":2,"to":3)",
                         R"(13 cell_swap,"c":0,"from":0)",
                         R"(14 drop,"h":3)",
                         R"(15 drop,"h":1)",
                         R"(16 cell_drop,"c":0)",
                     });
}

void handles_within_a_value_end_after_it() {
    struct Plain {
        std::array<Shared<Leaf>, 2> leaves;
    };
    const auto trace = recorded([] {
        Shared<Plain> plain(std::make_shared<Plain>(Plain{{new_leaf(), new_leaf()}}));
        plain.reset();
        Node never_shared(new_leaf());
    });
    check_ops(trace, {
                         R"(1 new,"fields":[],"to":0)",
                         R"(2 new,"fields":[],"to":1)",
                         R"(3 new,"fields":[],"to":2)",
                         R"(4 drop,"h":2)",
                         R"(5 drop,"h":1)",
                         R"(6 drop,"h":0)",
                         R"(7 new,"fields":[],"to":0)",
                         R"(8 drop,"h":0)",
                     });
}

void each_line_tells_where() {
    const auto trace = recorded([] {
        Shared<Leaf> leaf(std::make_shared<Leaf>());
        auto copy = leaf;
    });
    const unsigned line = At::current().line() - 2;
    const auto place = [](unsigned n) {
        return "\":\"" + arc_trace::detail::escaped(__FILE__) + ':' + std::to_string(n) + "\"}\n";
    };
    check(trace == R"({"id":1,"t":0,"op":"new","fields":[],"to":0,"at)" + place(line - 1) +
                       R"({"id":2,"t":0,"op":"clone","from":0,"to":1,"at)" + place(line) +
                       R"({"id":3,"t":0,"op":"drop","h":1,"made_at)" + place(line) +
                       R"({"id":4,"t":0,"op":"drop","h":0,"made_at)" + place(line - 1),
          trace);
}

void any_path_gives_json() {
    using arc_trace::detail::escaped;
    check(escaped("C:\\src\\a \"b\"\n\x01.cpp") == R"(C:\\src\\a \"b\"\u000a\u0001.cpp)");
    const std::string well = "\xc3\xa9 \xe2\x82\xac \xf0\x9f\x8c\xb3";
    check(escaped(well) == well);
    // a lone byte, a long form, a half of a pair, past the last character, an end within one
    for (const std::string ill : {"\xff", "\x80", "\xc3", "\xc0", "\xf5"}) check(escaped(ill) == "\\ufffd");
    check(escaped("\xc0\xaf") == R"(\ufffd\ufffd)");
    check(escaped("\xed\xa0\x80") == R"(\ufffd\ufffd\ufffd)");
    check(escaped("\xf4\x90\x80\x80") == R"(\ufffd\ufffd\ufffd\ufffd)");
    check(escaped("a\xe2\x82") == R"(a\ufffd\ufffd)");
}

// Records a program that makes a mistake between two objects: the second isn't in the trace.
void stopped_by(Fault fault, const std::function<void()>& mistake, At at = At::current()) {
    const auto trace = recorded(
        [&] {
            auto before = new_leaf();
            mistake();
            auto after = new_leaf();
            check(after.use_count() == 1);
        },
        fault, at);
    check(trace.find("\"fields\":[],") == trace.rfind("\"fields\":[],"), trace, at);
    check(trace.find("\"me\"") == std::string::npos, trace, at);
}

struct Wide {
    std::array<std::array<Slot<Node>, 5>, 13> slots;
    auto fields() { return std::tie(slots); }
};
struct Forgetful {
    Slot<Node> shown, hidden;
    auto fields() { return std::tie(shown); }
};
struct Foreign {
    WeakSlot<Own> not_me{arc_trace::me};
    auto fields() { return std::tie(not_me); }
};

void what_stops_a_recording() {
    stopped_by(Fault::fields, [] { Shared<Wide> wide(std::make_shared<Wide>()); });
    stopped_by(Fault::hidden_slot, [] {
        Shared<Forgetful> value(std::make_shared<Forgetful>());
        value.set(&Forgetful::hidden, new_node());
        check(value.get(&Forgetful::hidden).use_count() == 2);
    });
    stopped_by(Fault::foreign_me, [] {
        Shared<Foreign> value(std::make_shared<Foreign>());
        check(!value.get(&Foreign::not_me).lock());
    });
    stopped_by(Fault::held_before, [] {
        auto raw = std::make_shared<Node>();
        Shared<Node> node(raw);
        check(node.use_count() == 2);
    });
    recorded(
        [] {
            auto leaf = new_leaf();
            for (int i = 0; i < 500'000; i++) auto copy = leaf;
        },
        Fault::full);
}

void handles_from_before() {
    auto early = new_leaf();
    Cell<Leaf> cell(early);
    const auto trace = recorded(
        [&] {
            { auto weak = Weak<Leaf>(early); }  // of earlier handles alone: not in the trace
            auto late = new_leaf();
            cell.store(late);
            check(late.use_count() == 2);
        },
        Fault::earlier_handle);
    check_ops(trace, {R"(1 new,"fields":[],"to":0)", R"(2 clone,"from":0,"to":1)"});
    check(early.use_count() == 1);
}

void a_sink_that_fails() {
    struct Broken : std::streambuf {
    } broken;
    std::ostream sink(&broken);
    {
        Recording recording(sink);
        auto leaf = new_leaf();
        check(recording.finish() == Fault::write);
    }
    bool is_refused = false;
    try {
        Recording recording("/no/such/folder/trace.jsonl");
    } catch (const std::runtime_error&) {
        is_refused = true;
    }
    check(is_refused);
}

void one_recording_at_a_time() {
    std::ostringstream sink, other_sink;
    Recording first(sink);
    bool is_refused = false;
    try {
        Recording second(other_sink);
    } catch (const std::runtime_error&) {
        is_refused = true;
    }
    check(is_refused && first.finish() == Fault::none);
}

// Threads replace what a cell holds and lock Weaks to what it held. Under the one lock the counts are right at each moment: the
// last holder's drop and a lock() that finds nothing come in the order of their lines.
void locks_are_answered_in_the_order_of_the_lines() {
    const auto trace = recorded([] {
        Cell<Leaf> cell(new_leaf());
        std::vector<std::thread> threads;
        for (int n = 0; n < 4; n++) {
            threads.emplace_back([&] {
                for (int k = 0; k < 500; k++) {
                    Weak<Leaf> weak = cell.load();
                    cell.store(new_leaf());
                    auto again = weak.lock();
                }
            });
        }
        for (auto& thread : threads) thread.join();
    });
    // which object each handle names, how many handles and the cell hold it, by the lines alone
    std::vector<int> named(1'000, -1), strong;
    int in_cell = -1, upgrades = 0;
    const auto number = [](const std::string& line, const char* member) {
        return std::stoi(line.substr(line.find(member) + std::string(member).size()));
    };
    const auto change = [&](int object, int by) {
        if (object >= 0) strong[object] += by;
    };
    std::vector<bool> is_weak(1'000, false);
    for (const auto& line : ops(trace)) {
        const std::string op = line.substr(line.find(' ') + 1, line.find(',') - line.find(' ') - 1);
        if (op == "drop") {
            const int h = number(line, "\"h\":");
            if (!is_weak[h]) change(named[h], -1);
            named[h] = -1;
            continue;
        }
        if (op == "cell_drop") {
            change(in_cell, -1);
            continue;
        }
        if (op == "cell_new" || op == "cell_swap") {
            const int from = number(line, "\"from\":");
            if (op == "cell_swap") change(in_cell, -1);
            in_cell = named[from];
            named[from] = -1;
            continue;
        }
        const int to = number(line, "\"to\":");
        is_weak[to] = op == "downgrade";
        if (op == "new") {
            named[to] = static_cast<int>(strong.size());
            strong.push_back(1);
        } else if (op == "cell_load") {
            change(named[to] = in_cell, 1);
        } else {
            const int object = named[number(line, "\"from\":")];
            if (op == "downgrade") {
                named[to] = object;
                continue;
            }
            const bool is_there = strong[object] > 0;
            check((line.find("\"answer\":\"yes\"") != std::string::npos) == is_there, line);
            named[to] = is_there ? object : -1;
            change(named[to], 1);
            upgrades++;
        }
    }
    check(upgrades == 2'000);
    for (const int count : strong) check(count == 0);
}

struct Test {
    const char* name;
    void (*run)();
};
#define TEST(name) \
    Test { #name, name }

}  // namespace

int main() {
    int passed = 0, failed = 0;
    for (const Test& test : {
             TEST(handles),
             TEST(handles_to_nothing),
             TEST(field_0_is_declared_last),
             TEST(an_empty_weak_slot),
             TEST(a_value_that_knows_itself),
             TEST(cells),
             TEST(handles_within_a_value_end_after_it),
             TEST(each_line_tells_where),
             TEST(any_path_gives_json),
             TEST(what_stops_a_recording),
             TEST(handles_from_before),
             TEST(a_sink_that_fails),
             TEST(one_recording_at_a_time),
             TEST(locks_are_answered_in_the_order_of_the_lines),
         }) {
        try {
            test.run();
            passed++;
        } catch (const std::exception& fault) {
            std::cout << test.name << ": " << fault.what() << '\n';
            failed++;
        }
    }
    std::cout << passed << " passed, " << failed << " failed\n";
    return failed == 0 ? 0 : 1;
}
