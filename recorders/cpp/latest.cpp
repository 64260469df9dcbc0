// Connections that arrive in turn: the latest is kept in an atomic cell, and a thread serves each one. A thread knows its connection
// by a weak_ptr, so a connection is gone as soon as the next one arrives.
//
// Usage: latest TRACE
#include <cstdio>
#include <exception>
#include <memory>
#include <thread>
#include <tuple>
#include <vector>

#include "arc_trace.hpp"

using arc_trace::Cell;
using arc_trace::Recording;
using arc_trace::Shared;
using arc_trace::Slot;
using arc_trace::Weak;
using arc_trace::WeakSlot;

struct Buffer {};

struct Connection {
    int number;
    Slot<Buffer> buffer;
    Connection(int number, Shared<Buffer> buffer) : number(number), buffer(std::move(buffer)) {}
    ~Connection() { std::printf("connection %d is closed\n", number); }
    auto fields() { return std::tie(buffer); }
};

struct Server {
    WeakSlot<Connection> serving;
    auto fields() { return std::tie(serving); }
};

void serve(Shared<Server> server, int number) {
    auto connection = server.get(&Server::serving).lock();
    std::printf("connection %d is %s\n", number, connection ? "served" : "gone");
}

int main(int argc, char** argv) try {
    if (argc != 2) {
        std::fprintf(stderr, "usage: latest TRACE\n");
        return 2;
    }
    Recording recording(argv[1]);
    {
        Cell<Connection> latest;
        std::vector<Shared<Server>> servers;
        for (int number = 0; number < 3; number++) {
            Shared<Buffer> buffer(std::make_shared<Buffer>());
            Shared<Connection> connection(std::make_shared<Connection>(number, std::move(buffer)));
            Shared<Server> server(std::make_shared<Server>());
            server.set(&Server::serving, Weak<Connection>(connection));
            latest.store(std::move(connection));
            servers.push_back(std::move(server));
        }
        std::vector<std::thread> threads;
        for (int number = 0; number < 3; number++)
            threads.emplace_back(serve, std::move(servers[number]), number);
        for (auto& thread : threads) thread.join();
    }
    return recording.finish() == arc_trace::Fault::none ? 0 : 1;
} catch (const std::exception& fault) {
    std::fprintf(stderr, "%s\n", fault.what());
    return 1;
}
