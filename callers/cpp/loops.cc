// What the calls of ipcz_loop.hpp answer, by its comments.
#include "ipcz_loop.hpp"

#include <array>
#include <iostream>
#include <thread>

using Loop = ipcz::Loop;

static std::ostream &operator<<(std::ostream &out, ipcz::Got got) {
    static const char *const names[] = {"parcel", "nothing", "closed", "stopped"};
    return out << names[static_cast<int>(got)];
}

// The name of the refusal that a call ends with.
template <typename Call> static std::string refusal(Call call) {
    try {
        call();
    } catch (const ipcz::Refused &why) {
        return why.what();
    }
    return "Ok";
}

static void bytes(const Loop &loop) {
    Loop::Portal at = loop.node(0).first(1), to = loop.node(1).first(0);
    Loop::Parcel parcel;
    const std::array<std::uint16_t, 3> numbers = {{1, 2, 3}};
    at.send("text");
    at.send(std::string("a\0b", 3));
    at.send(std::vector<char>(65536, 'x'));
    at.send(numbers);
    at.send({});
    at.send({numbers.data(), 1});
    std::cout << "bytes:";
    while (to.try_recv(parcel) == ipcz::Got::parcel) std::cout << " " << parcel.bytes.size();
    std::cout << " number " << parcel.number << ", too many: " << refusal([&] { at.send(std::string(65537, 'x')); }) << "\n";
}

static void portals(const Loop &loop) {
    const Loop::Node node = loop.node(0), other = loop.node(1);
    std::pair<Loop::Portal, Loop::Portal> pair = node.open();
    Loop::Portal at = node.first(1), moved = std::move(pair.first);
    Loop::Parcel parcel;
    std::cout << "moved from: " << refusal([&] { pair.first.send("x"); });
    std::cout << ", to itself: " << refusal([&] { moved.send("x", std::move(moved)); }) << ", still there: " << bool(moved);
    std::cout << ", another node's: " << refusal([&] { other.first(0).send("x", std::move(moved)); }) << "\n";
    at.send("it", std::move(pair.second));
    other.first(0).recv(parcel);
    std::cout << "sent: " << bool(pair.second) << ", came: " << parcel.portals.size() << ", peer: ";
    moved.send("first");
    const ipcz::Status status = parcel.portals[0].look();
    std::cout << status.waiting << " of " << status.size << " (arrived " << parcel.portals[0].has_arrived() << ", gone: "
              << refusal([&] { pair.second.look(); }) << ") ";
    std::size_t which = 9;
    Loop::Portal first = other.first(0);
    Loop::Portal came = std::move(parcel.portals[0]);
    const ipcz::Got got = other.recv_any({&first, &came}, parcel, which);
    std::cout << got << " at " << which << " " << parcel.bytes << ", then ";
    moved = Loop::Portal();
    std::cout << came.recv(parcel) << " " << parcel.bytes << ", send: " << refusal([&] { came.send("x"); });
    came.close();
    std::cout << ", closed twice: " << refusal([&] { came.close(); }) << "\n";
}

static void lists(const Loop &loop) {
    std::vector<Loop::Portal> kept, sent;
    Loop::Parcel parcel;
    for (int i = 0; i < 9; i++) {
        std::pair<Loop::Portal, Loop::Portal> pair = loop.node(0).open();
        kept.push_back(std::move(pair.first));
        sent.push_back(std::move(pair.second));
    }
    std::cout << "nine portals: " << refusal([&] { loop.node(0).first(1).send_all("all", sent); });
    sent.pop_back();
    loop.node(0).first(1).send_all("all", sent);
    loop.node(1).first(0).recv(parcel);
    std::cout << ", eight: " << parcel.portals.size() << ", left: " << sent.size();
    // Who forgets a parcel closes the portals in it.
    parcel.portals.clear();
    std::cout << ", forgotten: " << kept[0].recv(parcel) << " " << kept[8].recv(parcel) << "\n";
}

static void waiting(Loop &loop) {
    Loop::Portal at = loop.node(1).first(0);
    Loop::Parcel parcel;
    parcel.bytes = "as it was";
    std::cout << "waiting: " << at.recv_for(parcel, std::chrono::milliseconds(10)) << " " << parcel.bytes;
    while (loop.node(1).wait(std::chrono::milliseconds(0))) {}
    std::cout << ", nothing came: " << loop.node(1).wait(std::chrono::milliseconds(10)) << ", fd: " << (loop.node(1).fd() >= 0);
    ipcz::Got got = ipcz::Got::nothing;
    std::thread sleeper([&] { got = at.recv(parcel); });
    loop.stop();
    sleeper.join();
    std::cout << ", stopped: " << got << " " << loop.node(1).wait() << "\n";
}

int main() {
    std::cout << "no such loop: " << refusal([] { Loop(65); }) << ", node: ";
    Loop loop(2);
    std::cout << refusal([&] { loop.node(2); }) << "\n";
    bytes(loop);
    portals(loop);
    lists(loop);
    waiting(loop);
    Loop::Portal outlives;
    {
        Loop other(1);
        outlives = other.node(0).open().first;
    }
    Loop::Parcel parcel;
    std::cout << "a portal that outlives its loop: " << outlives.recv(parcel) << "\n";
}
