// Back-pressure by credits, as callers/c/loop_credits.c: the receiver grants four, and one more for each parcel that it has dealt with.
#include "ipcz_loop.hpp"

#include <algorithm>
#include <atomic>
#include <iostream>
#include <thread>

using Loop = ipcz::Loop;

// Sends no more parcels than the receiver has given credits for, and sleeps until it has one.
class Sender {
  public:
    explicit Sender(Loop::Portal at) : at_(std::move(at)) {}

    bool send(ipcz::Bytes bytes) {
        while (take_credit(credits_ ? Loop::Time(0) : Loop::Time::max())) credits_++;
        if (!credits_) return false;
        at_.send(bytes);
        credits_--;
        return true;
    }

    void close() { at_.close(); }

  private:
    bool take_credit(Loop::Time timeout) {
        Loop::Parcel credit;
        return at_.recv_for(credit, timeout) == ipcz::Got::parcel;
    }

    Loop::Portal at_;
    int credits_ = 0;
};

int main() {
    Loop loop(2);
    std::atomic<int> dealt_with{0};
    std::thread receiver([&] {
        Loop::Portal at = loop.node(1).first(0);
        Loop::Parcel parcel;
        for (int i = 0; i < 4; i++) at.send({});
        while (at.recv(parcel) == ipcz::Got::parcel) {
            dealt_with += std::stoi(parcel.bytes) == dealt_with;
            try {
                at.send({});
            } catch (const ipcz::Refused &) {
                // A credit that comes too late, for a sender that has closed.
            }
        }
    });
    Sender sender(loop.node(0).first(1));
    int most = 0;
    for (int i = 0; i < 1000 && sender.send(std::to_string(i)); i++) most = std::max(most, i + 1 - dealt_with);
    sender.close();
    receiver.join();
    std::cout << dealt_with << " parcels, never more than 4 ahead: " << (most <= 4) << "\n";
}
