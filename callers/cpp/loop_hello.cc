// A thread sleeps until a parcel comes, and says what it was.
#include <iostream>
#include <ipcz_loop.hpp>
#include <thread>

int main() {
    ipcz::Loop loop(2);
    std::thread listens([&] {
        ipcz::Loop::Portal portal = loop.node(1).first(0);
        ipcz::Loop::Parcel parcel;
        while (portal.recv(parcel) == ipcz::Got::parcel) std::cout << parcel.bytes << "\n";
    });
    ipcz::Loop::Portal portal = loop.node(0).first(1);
    portal.send("hello");
    portal.close();
    listens.join();
}
