// Compiled without exceptions: what may be refused is called on the handle, by the C header.
#include "ipcz_loop.hpp"
#include "ipcz_portals.hpp"

#include <iostream>

int main() {
    ipcz::World world(2, 1);
    const ipcz::Portal left = ipcz_first(0, 1, 2), right = ipcz_first(1, 0, 2);
    ipcz::Parcel got{};
    ipcz::Portal first{}, second{};
    std::cout << "open: " << ipcz_status_name(ipcz_open(world.handle(), 0, &first, &second)) << '\n';
    world.put(0, left, "hello");
    if (world.get(1, right, got) != ipcz::Got::nothing) return 1;
    world.settle(100);
    if (world.get(1, right, got) != ipcz::Got::parcel) return 1;
    std::cout << got.bytes << '\n';
    ipcz::Loop loop(2);
    loop.node(0).first(1).send("hello by a loop");
    ipcz::Loop::Parcel came;
    if (loop.node(1).first(0).recv(came) != ipcz::Got::parcel) return 1;
    std::cout << came.bytes << '\n';
    return 0;
}
