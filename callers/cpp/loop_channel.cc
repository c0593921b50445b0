// A channel handed over, as callers/c/loop_channel.c: the server gives its portal to another node, which goes on, and the client notices nothing.
#include "ipcz_loop.hpp"

#include <iostream>
#include <thread>

using Loop = ipcz::Loop;

// Serves the channel that comes from the node before: answers so many words, and hands it on to the node behind, if there is one.
static void serve(Loop::Node node, int words, bool is_last) {
    const std::string me = "node " + std::to_string(node.number());
    Loop::Parcel parcel;
    node.first(static_cast<std::uint8_t>(node.number() - 1)).recv(parcel);
    Loop::Portal channel = std::move(parcel.portals.at(0));
    for (int i = 0; i < words && channel.recv(parcel) == ipcz::Got::parcel; i++) channel.send(me + " heard " + parcel.bytes);
    if (!is_last) node.first(static_cast<std::uint8_t>(node.number() + 1)).send("you go on", std::move(channel));
}

int main() {
    Loop loop(3);
    std::thread first(serve, loop.node(1), 1, false), second(serve, loop.node(2), 2, true);
    Loop::Node node = loop.node(0);
    std::pair<Loop::Portal, Loop::Portal> pair = node.open();
    node.first(1).send("serve this", std::move(pair.second));
    for (const char *word : {"one", "two", "three"}) pair.first.send(word);
    Loop::Parcel answer;
    while (pair.first.recv(answer) == ipcz::Got::parcel) std::cout << answer.bytes << "\n";
    std::cout << "PeerClosed\n";
    first.join();
    second.join();
}
