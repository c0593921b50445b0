// Request and reply, as callers/c/loop_request.c: the asker sends a portal for the answer along.
#include "ipcz_loop.hpp"

#include <iostream>
#include <thread>

using Loop = ipcz::Loop;

// Answers each request "A * B" at the portal that came with it, which then closes itself, until no more can come.
static void serve(Loop::Portal requests) {
    Loop::Parcel request;
    while (requests.recv(request) == ipcz::Got::parcel) {
        const std::string::size_type sign = request.bytes.find('*');
        request.portals.at(0).send(std::to_string(std::stoi(request.bytes) * std::stoi(request.bytes.substr(sign + 1))));
        request.portals.clear();
    }
}

// Asks, and sleeps until the answer comes.
static void ask(const Loop::Node &node, const std::string &text) {
    std::pair<Loop::Portal, Loop::Portal> pair = node.open();
    node.first(1).send(text, std::move(pair.second));
    Loop::Parcel answer;
    pair.first.recv(answer);
    const bool is_closed = pair.first.recv(answer) == ipcz::Got::closed;
    std::cout << text << " = " << answer.bytes << ", then " << (is_closed ? "PeerClosed" : "more") << "\n";
}

int main() {
    Loop loop(2);
    std::thread server(serve, loop.node(1).first(0));
    ask(loop.node(0), "6 * 7");
    ask(loop.node(0), "111 * 111");
    loop.node(0).first(1).close();
    server.join();
}
