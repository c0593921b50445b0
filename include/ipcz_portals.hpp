// SPDX-License-Identifier: BSD-3-Clause
// ipcz_portals.hpp: ipcz_portals.h for C++11 and later, with worlds and cells that free themselves. What that header says holds here too.
//
// A call that is refused throws Refused. A program that is compiled without exceptions ends there (std::abort), after the refusal's name on
// standard error; if it wants statuses instead, it makes the calls of the C header on handle().
//
// Calls that only read are const. Still calls on one world, and on one cell, come one at a time, const ones too.
#ifndef IPCZ_PORTALS_HPP
#define IPCZ_PORTALS_HPP

#include "ipcz_portals.h"

#include <cstddef>
#include <cstdint>
#include <cstdio>
#include <cstdlib>
#include <stdexcept>
#include <string>
#include <utility>
#include <vector>

inline bool operator==(const ::ipcz_portal &a, const ::ipcz_portal &b) noexcept { return a.pair == b.pair && a.side_b == b.side_b; }
inline bool operator!=(const ::ipcz_portal &a, const ::ipcz_portal &b) noexcept { return !(a == b); }

namespace ipcz {

using Portal = ::ipcz_portal;

// What a look at a portal tells.
using Status = ::ipcz_portal_status;

// A call that was refused: its status, and the status's name as the text.
class Refused : public std::runtime_error {
  public:
    explicit Refused(ipcz_status status) : std::runtime_error(::ipcz_status_name(status)), status_(status) {}

    ipcz_status status() const noexcept { return status_; }

  private:
    ipcz_status status_;
};

struct Parcel {
    std::uint64_t number;
    std::string bytes;
    std::vector<Portal> portals;
};

// What a get came to: a parcel; none yet; or none any more, since the other portal of the pair is closed and what was put at it is got. (That a loop was
// stopped is answered only by ipcz_loop.hpp.)
enum class Got { parcel, nothing, closed, stopped };

struct Settled {
    std::uint64_t acts;
    bool quiet;
};

inline void check(ipcz_status status) {
    if (status == IPCZ_OK) return;
#if defined(__cpp_exceptions) || defined(__EXCEPTIONS) || defined(_CPPUNWIND)
    throw Refused(status);
#else
    std::fprintf(stderr, "ipcz: a call was refused: %s\n", ::ipcz_status_name(status));
    std::abort();
#endif
}

// Whether something was found: any other refusal than that there is nothing is told as check does.
inline bool found(ipcz_status status) {
    if (status == IPCZ_EMPTY) return false;
    check(status);
    return true;
}

// What a call gets, which is given the room that it wants. If it is no parcel, or if this throws, the parcel is as it was.
template <typename Get> Got got_by(Parcel &parcel, Get get) {
    Portal portals[IPCZ_MAX_PORTALS];
    std::uint8_t few[IPCZ_MAX_PRINTED_BYTES];
    std::string many;
    std::uint64_t number = 0;
    std::size_t size = 0, count = 0;
    ipcz_status status = get(few, sizeof few, &size, portals, &count, &number);
    const bool is_many = status == IPCZ_TOO_SMALL;
    if (is_many) {
        many.resize(size);
        status = get(reinterpret_cast<std::uint8_t *>(&many[0]), size, &size, portals, &count, &number);
    }
    if (status == IPCZ_EMPTY) return Got::nothing;
    if (status == IPCZ_PEER_CLOSED) return Got::closed;
    check(status);
    if (is_many) parcel.bytes = std::move(many);
    else parcel.bytes.assign(reinterpret_cast<const char *>(few), size);
    parcel.portals.assign(portals, portals + count);
    parcel.number = number;
    return Got::parcel;
}

// A world, which is freed with it. It can be moved, and a world that was moved from refuses each call.
class World {
  public:
    World(std::uint8_t nodes, std::uint32_t words) { check(::ipcz_create(nodes, words, &world_)); }

    World(World &&other) noexcept { std::swap(world_, other.world_); }

    World &operator=(World &&other) noexcept {
        World moved(std::move(other));
        std::swap(world_, moved.world_);
        return *this;
    }

    World(const World &) = delete;
    World &operator=(const World &) = delete;

    ~World() { ::ipcz_destroy(&world_); }

    std::pair<Portal, Portal> open(std::uint8_t node) {
        std::pair<Portal, Portal> made{};
        check(::ipcz_open(&world_, node, &made.first, &made.second));
        return made;
    }

    std::uint64_t put(std::uint8_t node, Portal at, const std::string &bytes, const std::vector<Portal> &portals = {}) {
        std::uint64_t number = 0;
        check(::ipcz_put(&world_, node, at, bytes.data(), bytes.size(), portals.data(), portals.size(), &number));
        return number;
    }

    // Of at most IPCZ_MAX_PRINTED_BYTES bytes, each from 0x20 to 0x7E.
    std::uint64_t put_printed(std::uint8_t node, Portal at, const std::string &bytes, const std::vector<Portal> &portals = {}) {
        std::uint64_t number = 0;
        check(::ipcz_put_printed(&world_, node, at, bytes.data(), bytes.size(), portals.data(), portals.size(), &number));
        return number;
    }

    // Gets the next parcel, if one has come.
    Got get(std::uint8_t node, Portal at, Parcel &parcel) {
        return got_by(parcel, [&](std::uint8_t *bytes, std::size_t room, std::size_t *size, Portal *portals, std::size_t *count, std::uint64_t *number) {
            return ::ipcz_get(&world_, node, at, bytes, room, size, portals, IPCZ_MAX_PORTALS, count, number);
        });
    }

    // What gets at the portal would answer, one after the other. Nothing is taken.
    Status look(std::uint8_t node, Portal at) const {
        Status status{};
        check(::ipcz_look(&world_, node, at, &status));
        return status;
    }

    // Whether the portal has arrived, so that it leaves at most one router in its route if it travels on now.
    bool has_arrived(std::uint8_t node, Portal at) const {
        bool arrived = false;
        check(::ipcz_has_arrived(&world_, node, at, &arrived));
        return arrived;
    }

    // The portals of a node at which a get would give a parcel, or tell that the peer has closed. Nothing is taken.
    std::vector<Portal> ready(std::uint8_t node) const {
        std::vector<Portal> all;
        Portal at{};
        std::uint64_t from = 0;
        while (found(::ipcz_next_ready(&world_, node, &from, &at))) all.push_back(at);
        return all;
    }

    void close(std::uint8_t node, Portal at) { check(::ipcz_close(&world_, node, at)); }

    // Takes the node's first act that is possible, and tells whether it had one.
    bool turn(std::uint8_t node) {
        bool acted = false;
        check(::ipcz_act(&world_, node, &acted));
        return acted;
    }

    Settled settle(std::uint64_t limit) {
        Settled settled{};
        check(::ipcz_settle(&world_, limit, &settled.acts, &settled.quiet));
        return settled;
    }

    // How many link words were used.
    std::uint64_t claimed() const { return ::ipcz_claimed(&world_); }

    // How many link words are left.
    std::uint64_t words_left() const { return ::ipcz_words_left(&world_); }

    // Makes so many link words more: what a world that lasts is given before they are used up.
    void add_words(std::uint64_t count) { check(::ipcz_add_words(&world_, count)); }

    // Lets each node that found no link word when a portal had moved on ask for one again, behind add_words: how many there were.
    std::uint64_t retry() { return ::ipcz_retry(&world_); }

    // Whether a link word was used; then its number is written.
    bool word(std::uint64_t i, std::uint64_t &word) const { return ::ipcz_word(&world_, i, &word); }

    // Whether some node may use the portal; then it is written.
    bool holder(Portal portal, std::uint8_t &node) const { return ::ipcz_holder(&world_, portal, &node); }

    // The handle, for calls of the C header that have no name here; it stays this world's.
    ::ipcz_world *handle() noexcept { return &world_; }

  private:
    mutable ::ipcz_world world_ = IPCZ_WORLD_INIT;
};

// What Cell::retry found.
enum class Retry : std::uint32_t { none_waits = IPCZ_NONE_WAITS, no_slot = IPCZ_NO_SLOT, again = IPCZ_AGAIN };

// A node's cell, which is freed with it. A thread that has it calls it without a lock. It can be moved, also to another thread, and a cell
// that was moved from refuses each call.
class Cell {
  public:
    // The cells of a new table, by node.
    static std::vector<Cell> make(std::uint8_t nodes, std::uint32_t words) {
        return make_by(::ipcz_cells_create, nodes, words);
    }

    // The cells of a new table whose link words come back, by node: with room for so many links at once.
    static std::vector<Cell> make_lasting(std::uint8_t nodes, std::uint32_t slots) {
        return make_by(::ipcz_cells_create_lasting, nodes, slots);
    }

    Cell() = default;

    Cell(Cell &&other) noexcept { std::swap(cell_, other.cell_); }

    Cell &operator=(Cell &&other) noexcept {
        Cell moved(std::move(other));
        std::swap(cell_, moved.cell_);
        return *this;
    }

    Cell(const Cell &) = delete;
    Cell &operator=(const Cell &) = delete;

    ~Cell() { ::ipcz_cell_destroy(&cell_); }

    // Opens a pair. It is tried again if another thread came between.
    std::pair<Portal, Portal> open() {
        std::pair<Portal, Portal> made{};
        ipcz_status status;
        do {
            status = ::ipcz_cell_open(&cell_, &made.first, &made.second);
        } while (status == IPCZ_RACED);
        check(status);
        return made;
    }

    std::uint64_t put(Portal at, const std::string &bytes, const std::vector<Portal> &portals = {}) {
        std::uint64_t number = 0;
        check(::ipcz_cell_put(&cell_, at, bytes.data(), bytes.size(), portals.data(), portals.size(), &number));
        return number;
    }

    // Of at most IPCZ_MAX_PRINTED_BYTES bytes, each from 0x20 to 0x7E.
    std::uint64_t put_printed(Portal at, const std::string &bytes, const std::vector<Portal> &portals = {}) {
        std::uint64_t number = 0;
        check(::ipcz_cell_put_printed(&cell_, at, bytes.data(), bytes.size(), portals.data(), portals.size(), &number));
        return number;
    }

    // Gets the next parcel, if one has come.
    Got get(Portal at, Parcel &parcel) {
        return got_by(parcel, [&](std::uint8_t *bytes, std::size_t room, std::size_t *size, Portal *portals, std::size_t *count, std::uint64_t *number) {
            return ::ipcz_cell_get(&cell_, at, bytes, room, size, portals, IPCZ_MAX_PORTALS, count, number);
        });
    }

    // What gets at the portal would answer, one after the other. Nothing is taken.
    Status look(Portal at) const {
        Status status{};
        check(::ipcz_cell_look(&cell_, at, &status));
        return status;
    }

    // Whether the portal has arrived, so that it leaves at most one router in its route if it travels on now.
    bool has_arrived(Portal at) const {
        bool arrived = false;
        check(::ipcz_cell_has_arrived(&cell_, at, &arrived));
        return arrived;
    }

    // The portals of the node at which a get would give a parcel, or tell that the peer has closed. Nothing is taken.
    std::vector<Portal> ready() const {
        std::vector<Portal> all;
        Portal at{};
        std::uint64_t from = 0;
        while (found(::ipcz_cell_next_ready(&cell_, &from, &at))) all.push_back(at);
        return all;
    }

    void close(Portal at) { check(::ipcz_cell_close(&cell_, at)); }

    // Takes turns of the node until it has no act, another thread was first, or limit acts were taken; whether it was another thread, or any.
    bool serve(std::uint64_t limit) {
        std::uint64_t touched = 0;
        return serve(limit, touched);
    }

    // The same, and adds to touched which nodes the acts have touched: see ipcz_cell_acts_touching.
    bool serve(std::uint64_t limit, std::uint64_t &touched) {
        std::uint64_t acts = 0, nodes = 0;
        const ipcz_status status = ::ipcz_cell_acts_touching(&cell_, limit, &acts, &nodes);
        touched |= nodes;
        if (status == IPCZ_RACED) return true;
        check(status);
        return acts > 0;
    }

    // Whether the node has nothing to do, nothing of it waits to be taken by another node, and no message to it was found.
    bool quiet() const { return ::ipcz_cell_quiet(&cell_); }

    // Lets a router that was told that there is no slot for its shorter way ask again, if one is to be had now: see ipcz_cell_retry.
    Retry retry() { return static_cast<Retry>(::ipcz_cell_retry(&cell_)); }

    std::uint64_t claimed() const { return ::ipcz_cell_claimed(&cell_); }

    // Whether a link word was used; then its number is written.
    bool word(std::uint64_t i, std::uint64_t &word) const { return ::ipcz_cell_word(&cell_, i, &word); }

    bool holds(Portal portal) const { return ::ipcz_cell_holds(&cell_, portal); }

    // Whether there is a cell; then the number of its node is written.
    bool node(std::uint8_t &node) const { return ::ipcz_cell_node(&cell_, &node); }

    // The handle, for calls of the C header that have no name here; it stays this cell's.
    ::ipcz_cell *handle() noexcept { return &cell_; }

  private:
    static std::vector<Cell> make_by(ipcz_status create(std::uint32_t, ::ipcz_cell *, std::size_t), std::uint8_t nodes, std::uint32_t links) {
        std::vector<::ipcz_cell> made(nodes + 1u, ::ipcz_cell IPCZ_CELL_INIT);
        std::vector<Cell> cells(nodes);
        check(create(links, made.data(), nodes));
        for (std::size_t i = 0; i < nodes; i++) cells[i].cell_ = made[i];
        return cells;
    }

    mutable ::ipcz_cell cell_ = IPCZ_CELL_INIT;
};

} // namespace ipcz

#endif
