// A portal travels from node 0 to node 1, through the header for C++.
#include "ipcz_portals.hpp"

#include <iostream>

namespace {

const ipcz::Portal left = ipcz_first(0, 1, 2), right = ipcz_first(1, 0, 2);

// A world in which one portal of a fresh pair has been sent from node 0 to node 1; the one that was kept is written.
ipcz::World with_sent(ipcz::Portal &kept) {
    ipcz::World world(2, 8);
    const auto pair = world.open(0);
    kept = pair.first;
    world.put(0, left, "a portal", {pair.second});
    return world;
}

} // namespace

int main() {
    ipcz::Portal kept{};
    ipcz::World world = with_sent(kept);
    ipcz::Parcel got{};
    std::cout << "before: " << (world.get(1, right, got) == ipcz::Got::nothing ? "nothing" : "a parcel") << '\n';
    const auto settled = world.settle(1000);
    std::cout << "quiet " << settled.quiet << " after " << settled.acts << " acts\n";
    if (world.get(1, right, got) != ipcz::Got::parcel) return 1;
    std::cout << got.bytes << ", " << got.portals.size() << " with it\n";
    const auto sent = got.portals.at(0);
    if (sent == kept || !(sent != kept)) return 1;
    const std::string wide(1000, '\0');
    world.put(0, left, wide);
    world.put(0, kept, "over it");
    world.settle(1000);
    if (world.get(1, right, got) != ipcz::Got::parcel || got.bytes != wide) return 1;
    if (world.get(1, sent, got) != ipcz::Got::parcel) return 1;
    std::cout << got.number << ": " << got.bytes << '\n';
    world.close(0, kept);
    world.settle(1000);
    const bool is_closed = world.get(1, sent, got) == ipcz::Got::closed;
    std::cout << "closed " << is_closed << ", and the parcel is still \"" << got.bytes << "\"\n";
    try {
        world.put(1, sent, "");
    } catch (const ipcz::Refused &why) {
        std::cout << "refused " << why.status() << ", " << why.what() << '\n';
    }
    ipcz::World other(1, 0);
    other = std::move(world);
    const ipcz::World &seen = other;
    std::uint8_t node = 9;
    std::uint64_t word = 9;
    std::cout << "moved: " << world.claimed() << " and " << seen.claimed() << " words, held by node ";
    std::cout << (seen.holder(sent, node) ? int(node) : -1) << ", first word " << (seen.word(0, word) ? word : 0) << '\n';
    other.add_words(1000);
    std::cout << "left: " << seen.words_left() << " words\n";
    if (other.retry() != 0) return 1;
    try {
        other.add_words(UINT64_MAX);
    } catch (const ipcz::Refused &why) {
        std::cout << why.what() << ", and " << seen.words_left() << " are left\n";
    }
    try {
        ipcz::World none(65, 4096);
    } catch (const ipcz::Refused &why) {
        std::cout << why.what() << '\n';
    }
    return 0;
}
