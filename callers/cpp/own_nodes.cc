// Two threads that each own a node, with no lock, through the header for C++: node 0 sends a portal away and a text after it, and gets an answer.
#include "ipcz_portals.hpp"

#include <atomic>
#include <functional>
#include <iostream>
#include <thread>

namespace {

const ipcz::Portal left = ipcz_first(0, 1, 2), right = ipcz_first(1, 0, 2);

// Takes turns until a parcel has come.
ipcz::Parcel get(ipcz::Cell &cell, ipcz::Portal at) {
    ipcz::Parcel parcel{};
    while (cell.get(at, parcel) != ipcz::Got::parcel)
        if (!cell.serve(64)) std::this_thread::yield();
    return parcel;
}

void answer(ipcz::Cell cell, const std::atomic<bool> &ended) {
    const auto moved = get(cell, right).portals.at(0);
    cell.put(moved, "got " + get(cell, moved).bytes);
    while (!ended)
        if (!cell.serve(64)) std::this_thread::yield();
}

} // namespace

int main() {
    auto cells = ipcz::Cell::make(2, 4);
    ipcz::Cell cell = std::move(cells.at(0));
    std::atomic<bool> ended{false};
    std::thread other(answer, std::move(cells.at(1)), std::cref(ended));
    const auto pair = cell.open();
    cell.put(left, "", {pair.second});
    cell.put(pair.first, "a text");
    std::cout << get(cell, pair.first).bytes << '\n';
    ended = true;
    other.join();
    std::cout << "ready: " << cell.ready().size() << '\n';
    const auto seen = cell.look(pair.first);
    std::cout << "waiting: " << seen.waiting << ", closed: " << seen.peer_closed << '\n';
    std::cout << "arrived: " << cell.has_arrived(left) << '\n';
    std::cout << "held: " << cell.holds(pair.first) << cell.holds(pair.second) << '\n';
    try {
        cells.at(1).open();
    } catch (const ipcz::Refused &why) {
        std::cout << why.what() << '\n';
    }
    try {
        ipcz::Cell::make(65, 4096);
    } catch (const ipcz::Refused &why) {
        std::cout << why.what() << '\n';
    }
    std::cout << "lasting: " << ipcz::Cell::make_lasting(2, 1).size() << " cells\n";
    try {
        ipcz::Cell::make_lasting(2, 0);
    } catch (const ipcz::Refused &why) {
        std::cout << why.what() << '\n';
    }
    return 0;
}
