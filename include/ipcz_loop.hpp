// SPDX-License-Identifier: BSD-3-Clause
// ipcz_loop.hpp: ipcz_loop.h for C++11 and later, with portals that close themselves. What that header says holds here too: no thread has
// to serve a node, any thread may call any, and only the archive below is proved.
//
//     ipcz::Loop loop(2);                                      // two nodes
//     std::thread other([&] {
//         ipcz::Loop::Portal portal = loop.node(1).first(0);
//         ipcz::Loop::Parcel parcel;
//         while (portal.recv(parcel) == ipcz::Got::parcel) std::cout << parcel.bytes << "\n";
//     });
//     ipcz::Loop::Portal portal = loop.node(0).first(1);
//     portal.send("hello");
//     portal.close();
//     other.join();
//
// A call that is refused throws Refused, or ends the program if it is compiled without exceptions, as ipcz_portals.hpp says.
#ifndef IPCZ_LOOP_HPP
#define IPCZ_LOOP_HPP

#include "ipcz_loop.h"
#include "ipcz_portals.hpp"

#include <array>
#include <chrono>
#include <cstring>
#include <limits>
#include <memory>
#include <type_traits>

namespace ipcz {

// The bytes of a parcel to send, which aren't copied before the call: a text, or anything with data() and size() whose elements are plain bytes or
// numbers: a std::string, std::vector, std::array, std::span.
class Bytes {
  public:
    Bytes() = default;
    Bytes(const void *data, std::size_t size) : data_(data), size_(size) {}
    Bytes(const char *text) : data_(text), size_(std::strlen(text)) {}

    template <typename List, typename Element = typename std::remove_reference<decltype(*std::declval<const List &>().data())>::type>
    Bytes(const List &list) : data_(list.data()), size_(list.size() * sizeof(Element)) {
        static_assert(std::is_trivially_copyable<Element>::value, "a parcel has plain bytes");
    }

    const void *data() const noexcept { return data_; }
    std::size_t size() const noexcept { return size_; }

  private:
    const void *data_ = nullptr;
    std::size_t size_ = 0;
};

// A loop of nodes. It stops when it is destroyed, and is freed once the last node and portal of it is gone too.
class Loop {
  public:
    // How long a call waits at most; forever is the longest.
    using Time = std::chrono::milliseconds;

    class Portal;

    struct Parcel {
        std::uint64_t number = 0;
        std::string bytes;
        std::vector<Portal> portals;
    };

    // A portal that a node has. It is closed when it is destroyed, unless it was sent, or is one of those from the start (Node::first). It can be moved; one
    // that was moved from, sent or closed refuses each call. Several threads may send and receive at one portal at once, while none moves, sends away, closes
    // or destroys it.
    class Portal {
      public:
        Portal() = default;

        Portal(Portal &&other) noexcept { swap(other); }

        Portal &operator=(Portal &&other) noexcept {
            Portal moved(std::move(other));
            swap(moved);
            return *this;
        }

        Portal(const Portal &) = delete;
        Portal &operator=(const Portal &) = delete;

        ~Portal() {
            if (node_ && is_closed_at_end_) ::ipcz_node_close(node_, name_);
        }

        // Sends a parcel, with the portals that are moved into it, all of this node. If it is refused they stay as they were.
        template <typename... Portals> void send(Bytes bytes, Portals &&...portals) {
            static_assert(sizeof...(Portals) <= IPCZ_MAX_PORTALS, "too many portals for a parcel");
            std::array<Portal *, sizeof...(Portals) + 1> list = {{&moved(std::forward<Portals>(portals))..., nullptr}};
            send_list(bytes, list.data(), sizeof...(Portals));
        }

        // The same with the portals of a list, which is empty then.
        void send_all(Bytes bytes, std::vector<Portal> &portals) {
            std::vector<Portal *> list;
            for (Portal &portal : portals) list.push_back(&portal);
            send_list(bytes, list.data(), list.size());
            portals.clear();
        }

        // Receives the next parcel. Got::closed: none will come; Got::stopped: none has come, and the loop was stopped. Then the parcel is as it was.
        Got recv(Parcel &parcel) { return recv_for(parcel, Time::max()); }

        // The same, but it waits no longer than is said: then Got::nothing.
        Got recv_for(Parcel &parcel, Time timeout);

        // The same without waiting.
        Got try_recv(Parcel &parcel) { return recv_for(parcel, Time(0)); }

        // What try_recv would give, one call after the other. Nothing is taken, and another thread may take it before this one does.
        Status look() const {
            Status status{};
            check(node_ ? ::ipcz_node_look(node_, name_, &status) : ipcz_status{IPCZ_NOT_CREATED});
            return status;
        }

        // Whether the portal has arrived, so that it leaves at most one router in its route if it travels on now.
        bool has_arrived() const {
            bool arrived = false;
            check(node_ ? ::ipcz_node_has_arrived(node_, name_, &arrived) : ipcz_status{IPCZ_NOT_CREATED});
            return arrived;
        }

        // Closes the portal.
        void close() {
            check(node_ ? ::ipcz_node_close(node_, name_) : ipcz_status{IPCZ_NOT_CREATED});
            release();
        }

        // Whether it can be called: it wasn't moved from, sent or closed.
        explicit operator bool() const noexcept { return node_ != nullptr; }

        // Its name, for calls of the C header, and its node.
        ::ipcz_portal name() const noexcept { return name_; }
        ::ipcz_node *node() const noexcept { return node_; }

        // Makes it one that can't be called, and is closed by nobody.
        ::ipcz_portal release() noexcept {
            node_ = nullptr;
            loop_.reset();
            return name_;
        }

      private:
        friend class Loop;

        Portal(const std::shared_ptr<::ipcz_loop> &loop, ::ipcz_node *node, ::ipcz_portal name, bool is_closed_at_end)
            : loop_(loop), node_(node), name_(name), is_closed_at_end_(is_closed_at_end) {}

        static Portal &moved(Portal &&portal) { return portal; }

        void send_list(Bytes bytes, Portal **portals, std::size_t count);

        void swap(Portal &other) noexcept {
            std::swap(loop_, other.loop_);
            std::swap(node_, other.node_);
            std::swap(name_, other.name_);
            std::swap(is_closed_at_end_, other.is_closed_at_end_);
        }

        std::shared_ptr<::ipcz_loop> loop_;
        ::ipcz_node *node_ = nullptr;
        ::ipcz_portal name_ = {0, false};
        bool is_closed_at_end_ = true;
    };

    // A node of a loop.
    class Node {
      public:
        std::uint8_t number() const noexcept { return ::ipcz_node_number(node_); }

        // The portal that the node has from the start of the pair that it shares with another. It isn't closed when it is destroyed, so it can be had again.
        Portal first(std::uint8_t other) const { return Portal(loop_, node_, ::ipcz_node_first(node_, other), false); }

        // Opens a pair, both portals of which are this node's.
        std::pair<Portal, Portal> open() const {
            ::ipcz_portal first, second;
            check(::ipcz_node_open(node_, &first, &second));
            return std::pair<Portal, Portal>(Portal(loop_, node_, first, true), Portal(loop_, node_, second, true));
        }

        // Receives at the first of some portals of this node at which there is something; which is its place in the list.
        Got recv_any(const std::vector<Portal *> &portals, Parcel &parcel, std::size_t &which, Time timeout = Time::max()) const {
            std::vector<::ipcz_portal> names;
            for (const Portal *portal : portals) {
                if (portal->node_ != node_) check(IPCZ_STRANGER);
                names.push_back(portal->name_);
            }
            return received(loop_, node_, names.data(), names.size(), parcel, &which, timeout);
        }

        // A file descriptor for an event loop, readable once something may have come since the last wait: ipcz_node_fd of ipcz_loop.h.
        int fd() const { return ::ipcz_node_fd(node_); }

        // Waits until something may have come to the node since the last wait; false if nothing did in time, or the loop was stopped.
        bool wait(Time timeout = Time::max()) const {
            const ipcz_status status = ::ipcz_node_wait(node_, milliseconds(timeout));
            if (status != IPCZ_EMPTY && status != IPCZ_STOPPED) check(status);
            return status == IPCZ_OK;
        }

        // The handle, for calls of the C header.
        ::ipcz_node *handle() const noexcept { return node_; }

      private:
        friend class Loop;

        Node(const std::shared_ptr<::ipcz_loop> &loop, ::ipcz_node *node) : loop_(loop), node_(node) {}

        std::shared_ptr<::ipcz_loop> loop_;
        ::ipcz_node *node_;
    };

    // A loop of 1 to IPCZ_MAX_NODES nodes, with room for so many links at once; 0 for IPCZ_LOOP_SLOTS.
    explicit Loop(std::uint8_t nodes, std::uint32_t slots = 0) {
        ::ipcz_loop *made = nullptr;
        check(::ipcz_loop_create(nodes, slots, &made));
        loop_.reset(made, ::ipcz_loop_destroy);
    }

    Loop(Loop &&) = default;
    Loop &operator=(Loop &&) = delete;
    Loop(const Loop &) = delete;
    Loop &operator=(const Loop &) = delete;

    ~Loop() { stop(); }

    // A node by its number, which is below the number of nodes, or else it is refused IPCZ_STRANGER.
    Node node(std::uint8_t number) const {
        ::ipcz_node *found = loop_ ? ::ipcz_loop_node(loop_.get(), number) : nullptr;
        if (!found) check(IPCZ_STRANGER);
        return Node(loop_, found);
    }

    // Ends all waiting, now and later.
    void stop() noexcept {
        if (loop_) ::ipcz_loop_stop(loop_.get());
    }

  private:
    // As the C header wants it.
    static int milliseconds(Time timeout) {
        if (timeout == Time::max()) return -1;
        if (timeout.count() <= 0) return 0;
        return timeout.count() < std::numeric_limits<int>::max() ? static_cast<int>(timeout.count()) : std::numeric_limits<int>::max();
    }

    static Got received(const std::shared_ptr<::ipcz_loop> &loop, ::ipcz_node *node, const ::ipcz_portal *at, std::size_t count, Parcel &parcel,
                        std::size_t *which, Time timeout) {
        char few[IPCZ_MAX_PRINTED_BYTES];
        std::string many;
        ::ipcz_parcel came = IPCZ_PARCEL(few, sizeof few);
        ipcz_status status;
        const std::chrono::steady_clock::time_point begun = std::chrono::steady_clock::now();
        // (another thread may take the wide parcel before this one has room for it)
        while ((status = ::ipcz_node_recv_any(node, at, count, &came, which, milliseconds(timeout))) == IPCZ_TOO_SMALL) {
            many.resize(came.size);
            came.bytes = &many[0];
            came.room = many.size();
            const Time passed = std::chrono::duration_cast<Time>(std::chrono::steady_clock::now() - begun);
            if (timeout != Time::max()) timeout = timeout > passed ? timeout - passed : Time(0);
        }
        if (status == IPCZ_EMPTY) return Got::nothing;
        if (status == IPCZ_PEER_CLOSED) return Got::closed;
        if (status == IPCZ_STOPPED) return Got::stopped;
        check(status);
        // (what follows may throw: then the portals that came are closed)
        std::array<Portal, IPCZ_MAX_PORTALS> portals;
        for (std::size_t i = 0; i < came.count; i++) portals[i] = Portal(loop, node, came.portals[i], true);
        std::vector<Portal> list;
        list.reserve(came.count);
        for (std::size_t i = 0; i < came.count; i++) list.push_back(std::move(portals[i]));
        if (came.bytes == few) {
            parcel.bytes.assign(few, came.size);
        } else {
            many.resize(came.size);
            parcel.bytes = std::move(many);
        }
        parcel.portals = std::move(list);
        parcel.number = came.number;
        return Got::parcel;
    }

    std::shared_ptr<::ipcz_loop> loop_;
};

inline Got Loop::Portal::recv_for(Parcel &parcel, Time timeout) {
    if (!node_) check(IPCZ_NOT_CREATED);
    return Loop::received(loop_, node_, &name_, 1, parcel, nullptr, timeout);
}

inline void Loop::Portal::send_list(Bytes bytes, Portal **portals, std::size_t count) {
    std::array<::ipcz_portal, IPCZ_MAX_PORTALS> names{};
    if (!node_) check(IPCZ_NOT_CREATED);
    if (count > names.size()) check(IPCZ_TOO_MANY);
    for (std::size_t i = 0; i < count; i++) {
        if (portals[i]->node_ != node_) check(IPCZ_STRANGER);
        names[i] = portals[i]->name_;
    }
    check(::ipcz_node_send(node_, name_, bytes.data(), bytes.size(), names.data(), count));
    for (std::size_t i = 0; i < count; i++) portals[i]->release();
}

} // namespace ipcz

#endif
