/* SPDX-License-Identifier: BSD-3-Clause */
/* ipcz_loop.h: nodes that threads share, and calls that sleep until a parcel comes. One header over the archive of ipcz_portals.h, for C99 and
 * C++11 and later, on Linux.
 *
 *     ipcz_loop *loop;
 *     ipcz_loop_create(2, 0, &loop);                                 two nodes
 *     ipcz_node *left = ipcz_loop_node(loop, 0), *right = ipcz_loop_node(loop, 1);
 *     ipcz_node_send(left, ipcz_node_first(left, 1), "hello", 5, NULL, 0);
 *     ..
 *     char text[100];                                                 on another thread
 *     ipcz_parcel parcel = IPCZ_PARCEL(text, sizeof text);
 *     if (!ipcz_node_recv(right, ipcz_node_first(right, 0), &parcel, -1)) printf("%.*s\n", (int)parcel.size, text);
 *
 * A loop is a table of nodes whose link words come back (ipcz_cells_create_lasting), with a lock for each node. Any thread may make any call on
 * any node at any time. No thread has to serve a node: who sends takes the turns that bring the parcel to its portal, those of the other nodes
 * too, and hands it to the thread that waits there. So a parcel wakes one thread, and nothing runs between calls.
 *
 * Who has an event loop (poll, epoll, libuv, libevent, asyncio) has it watch ipcz_node_fd, and asks by ipcz_node_recv with a timeout of 0.
 *
 * WHAT IS PROVED is the archive: what its nodes do with parcels and portals, on any number of threads. This header isn't proved. It is tested, and
 * short enough to be read: "How it works", below, says why no parcel stays behind and no thread sleeps on.
 *
 * TO BUILD: link the archive, and -pthread. With -std=c99 or -std=c11 define _POSIX_C_SOURCE as 200809L before the first header; gnu99 and later
 * need nothing. All functions are static inline. A program that wants them once, or a library that other languages call, defines IPCZ_LOOP_API in
 * one file before it includes this: as nothing, or as what makes a symbol visible.
 *
 * WHAT THE CALLER UPHOLDS, beside what ipcz_portals.h says: pointers are of loops that aren't destroyed; no call is made in a signal handler, or in
 * the child of a fork; no thread is cancelled in a call; a portal is one of this loop (of another loop it is silently a portal of this one).
 */
#ifndef IPCZ_LOOP_H
#define IPCZ_LOOP_H

#include "ipcz_portals.h"

#include <errno.h>
#include <pthread.h>
#include <stdlib.h>
#include <string.h>
#include <sys/eventfd.h>
#include <time.h>
#include <unistd.h>

#ifndef IPCZ_LOOP_API
#define IPCZ_LOOP_API static inline
#endif

#ifdef __cplusplus
#define IPCZ_CAST_(type, value) static_cast<type>(value)
extern "C" {
#else
#define IPCZ_CAST_(type, value) ((type)(value))
#endif

typedef struct ipcz_loop ipcz_loop;
typedef struct ipcz_node ipcz_node;

/* A parcel, and the room for its bytes. What the caller writes is bytes and room; all else is written by a call that answers IPCZ_OK, and size and
 * count also by one that answers IPCZ_TOO_SMALL. */
typedef struct ipcz_parcel {
    void *bytes;     /* where the bytes go; may be null if room is 0 */
    size_t room;     /* how many bytes may be written: IPCZ_MAX_BYTES are always enough */
    size_t size;     /* how many bytes the parcel has */
    size_t count;    /* how many portals it has. They are the node's now */
    uint64_t number; /* how many parcels were received at this portal before it */
    ipcz_portal portals[IPCZ_MAX_PORTALS];
} ipcz_parcel;

/* A parcel with room for its bytes, to begin with. */
#define IPCZ_PARCEL(bytes, room) { (bytes), (room), 0, 0, 0, { { 0, false } } }

/* Makes a loop, and its nodes.
 *   nodes  how many: 1 to IPCZ_MAX_NODES. (Threads may be more than nodes, and share them)
 *   slots  for how many links there is room at once, as for ipcz_cells_create_lasting; 0 for IPCZ_LOOP_SLOTS
 *   loop   has the new loop if the status is IPCZ_OK, and else null
 * IPCZ_TOO_MANY, IPCZ_OUT_OF_MEMORY. */
IPCZ_LOOP_API ipcz_status ipcz_loop_create(uint8_t nodes, uint32_t slots, ipcz_loop **loop);
#define IPCZ_LOOP_SLOTS 4096

/* Ends all waiting: each call that sleeps, now and later, answers IPCZ_STOPPED, and each node's file descriptor is readable from now on. What has
 * come can still be received, and what is sent is sent. May be called twice. */
IPCZ_LOOP_API void ipcz_loop_stop(ipcz_loop *loop);

/* Frees the loop with all that is in it, and closes the file descriptors. No other call is under way, and none is made later: so a program calls
 * ipcz_loop_stop, joins its threads, and then this. Null is no loop, and nothing is done. */
IPCZ_LOOP_API void ipcz_loop_destroy(ipcz_loop *loop);

/* A node of the loop, which lives as long as the loop does; null if there is no such node. */
IPCZ_LOOP_API ipcz_node *ipcz_loop_node(ipcz_loop *loop, uint8_t number);

/* The number of a node. */
IPCZ_LOOP_API uint8_t ipcz_node_number(const ipcz_node *node);

/* The portal that a node has from the start of the pair that it shares with another, which is below the number of nodes, and not its own. */
IPCZ_LOOP_API ipcz_portal ipcz_node_first(const ipcz_node *node, uint8_t other);

/* Opens a pair. Both portals are the node's at first.
 * IPCZ_NO_WORD if no slot is free at the moment, IPCZ_NUMBERS_END, IPCZ_OUT_OF_MEMORY. */
IPCZ_LOOP_API ipcz_status ipcz_node_open(ipcz_node *node, ipcz_portal *first, ipcz_portal *second);

/* Sends a parcel, and takes the turns that bring it to where it can be received. It doesn't wait for a receiver, and nothing limits how many parcels
 * wait for one.
 *   at             the portal of the node at which it is put
 *   bytes, size    its bytes, at most IPCZ_MAX_BYTES, which are copied; bytes may be null if size is 0
 *   portals, count its portals, at most IPCZ_MAX_PORTALS, all of the node, none twice; with IPCZ_OK they are the node's no more. May be null if
 *                  count is 0
 * IPCZ_STRANGER, IPCZ_PEER_CLOSED, IPCZ_TOO_MANY, IPCZ_SELF_ATTACH, IPCZ_PEER_ATTACH, IPCZ_NUMBERS_END, IPCZ_OUT_OF_MEMORY: nothing is sent.
 * See CIRCLES at ipcz_put. */
IPCZ_LOOP_API ipcz_status ipcz_node_send(ipcz_node *node, ipcz_portal at, const void *bytes, size_t size, const ipcz_portal *portals, size_t count);

/* Receives the next parcel at a portal, and sleeps until there is one.
 *   timeout  how many milliseconds it waits at most; 0: not at all; less than 0: for ever
 * IPCZ_EMPTY: nothing came in time. IPCZ_PEER_CLOSED: nothing will come any more. IPCZ_TOO_SMALL: parcel->size says how much room the next parcel
 * wants, which is still there. IPCZ_STRANGER: the portal isn't this node's, or was closed or sent away meanwhile. IPCZ_STOPPED: nothing has come, and
 * the loop was stopped. IPCZ_NUMBERS_END, IPCZ_OUT_OF_MEMORY: a turn was refused; call again.
 * If several threads wait at a portal, the one that came first gets the next parcel. */
IPCZ_LOOP_API ipcz_status ipcz_node_recv(ipcz_node *node, ipcz_portal at, ipcz_parcel *parcel, int timeout);

/* The same at the first of some portals at which there is something.
 *   portals, count  portals of the node, which the call reads until it returns. With none it is IPCZ_STRANGER
 *   which           the place in the list of the portal that the status is of; may be null. Written with IPCZ_OK, IPCZ_PEER_CLOSED and IPCZ_TOO_SMALL,
 *                   and with IPCZ_STRANGER if there is a portal in the list */
IPCZ_LOOP_API ipcz_status ipcz_node_recv_any(ipcz_node *node, const ipcz_portal *portals, size_t count, ipcz_parcel *parcel, size_t *which, int timeout);

/* Tells what ipcz_node_recv with a timeout of 0 would answer at a portal of the node, one call after the other. Nothing is taken, and another thread
 * may take it before this one does.
 *   status  where it is written
 * IPCZ_STRANGER. */
IPCZ_LOOP_API ipcz_status ipcz_node_look(ipcz_node *node, ipcz_portal at, ipcz_portal_status *status);

/* Whether a portal of the node has arrived, as ipcz_cell_has_arrived tells. A portal that goes on travelling does so only once it has arrived.
 *   arrived  where it is written
 * IPCZ_STRANGER. */
IPCZ_LOOP_API ipcz_status ipcz_node_has_arrived(ipcz_node *node, ipcz_portal at, bool *arrived);

/* Closes a portal of the node. What was sent there still comes to the other one; what comes to it is discarded, with the portals in it.
 * IPCZ_STRANGER, IPCZ_OUT_OF_MEMORY. */
IPCZ_LOOP_API ipcz_status ipcz_node_close(ipcz_node *node, ipcz_portal at);

/* A file descriptor that is readable once something may have come to the node since the last ipcz_node_wait; it is so at first. It is the loop's:
 * nobody else reads, writes or closes it. What an event loop does when it is readable: ipcz_node_wait(node, 0), and then ipcz_node_recv with a
 * timeout of 0, at each portal that it wants to hear of, until this is IPCZ_EMPTY. -1 if the system has none to give. */
IPCZ_LOOP_API int ipcz_node_fd(ipcz_node *node);

/* Sleeps until something may have come to the node since the last ipcz_node_wait, at most as long as ipcz_node_recv would; and makes the file
 * descriptor unreadable until something comes again. It says that the node has moved, not that there is something to receive.
 * IPCZ_EMPTY: nothing came in time. IPCZ_STOPPED: the loop was stopped. IPCZ_NUMBERS_END, IPCZ_OUT_OF_MEMORY: as of ipcz_node_recv. */
IPCZ_LOOP_API ipcz_status ipcz_node_wait(ipcz_node *node, int timeout);

/* Keeps a pointer of the program's own with a portal of the node, in place of the one before. It is forgotten, and not freed, once the portal is
 * closed or sent away. Null forgets it.
 * IPCZ_STRANGER: the node doesn't hold the portal. IPCZ_OUT_OF_MEMORY. */
IPCZ_LOOP_API ipcz_status ipcz_node_set_data(ipcz_node *node, ipcz_portal portal, void *data);

/* The pointer that is kept with a portal, or null. */
IPCZ_LOOP_API void *ipcz_node_data(ipcz_node *node, ipcz_portal portal);

/* HOW IT WORKS.
 *
 * A node's cell is called only under the node's lock, and no thread holds two of these. So a call waits at most for calls and turns of others at one
 * node after the other.
 *
 * No parcel stays behind. A turn that has become possible at a node B was made so by a call on B, or by a turn of some node that has touched B: it sent B
 * a message, or took one of B's (ipcz_cell_acts_touching). After a call on B, and before the lock is given back, B takes turns until it has none. After
 * turns of a node A the thread that took them, having given A's lock back, takes the lock of each node that they touched, one after the other, and
 * that node's turns until it has none; and so on with those that these have touched (ipcz_loop_move_). So whoever is touched looks once more, and the
 * turn that became possible is taken, by this thread or by one that came between. A node whose turn was refused is asked again in the next call that
 * moves anything. So a parcel costs the same with two nodes and with sixty-four.
 *
 * No thread sleeps on. A parcel can be received at B only after a call on B or a turn of B, and both are made under B's lock. A thread that wants to
 * wait looks under this lock, finds nothing, writes itself into B's list, and gives the lock back only by falling asleep (pthread_cond_wait). So a
 * call or a turn comes before it looked, and then it would have found the parcel; or it comes after the thread stands in the list, and whoever makes that
 * call or takes that turn, before he gives the lock back, gets the parcel for the sleeper, writes it where the sleeper wants it, takes him off the
 * list and wakes him (ipcz_node_hand_out_). For the file descriptor: a turn sets is_rung, and who is told of it sets it back before he looks at his
 * portals; so what comes after that look sets it once more.
 *
 * How long it takes. A call of ipcz_node_send goes on while nodes have turns, also for what others send meanwhile, but takes no more than
 * IPCZ_LOOP_ROUNDS_ looks: portals that chase each other in a circle don't hold it for ever. What is left then goes on in the next call that moves
 * anything. Once in IPCZ_LOOP_RETRY_ calls on a node all nodes are asked, and the routers that were told that there is no slot ask again. */
enum { IPCZ_LOOP_TURNS_ = 1 << 10, IPCZ_LOOP_ROUNDS_ = 1 << 14, IPCZ_LOOP_RETRY_ = 256 };

/* A thread that sleeps: at portals, or, if it has no parcel, until the node is rung. */
typedef struct ipcz_waiter_ {
    struct ipcz_waiter_ *next;
    const ipcz_portal *portals;
    size_t count, which;
    ipcz_parcel *parcel;
    ipcz_status status;
    bool is_done;
    pthread_cond_t wake;
} ipcz_waiter_;

/* What is kept with a portal: by the number that its pair and side make. */
typedef struct ipcz_data_ {
    uint64_t key;
    void *data;
} ipcz_data_;

struct ipcz_node {
    ipcz_loop *loop;
    ipcz_cell cell;
    pthread_mutex_t lock;
    ipcz_waiter_ *waiters; /* in the order in which they came */
    ipcz_data_ *data;      /* by key */
    size_t data_count, data_room;
    int fd; /* -1 until it is asked for */
    bool is_rung, is_stopped;
    unsigned calls; /* how many calls it had, as far as an unsigned counts */
    ipcz_status refused; /* why a turn of some node was refused, if one was since this node took turns */
    uint8_t number;
    char apart[64]; /* so that locks of different nodes don't share a line of the processor's cache */
};

struct ipcz_loop {
    uint8_t nodes;
    uint64_t left; /* nodes that may still have turns, by their bits; read and written by atomics */
    ipcz_node node[IPCZ_MAX_NODES];
};

/* The place in a node's list of the data of a portal, or where it would stand. */
static inline size_t ipcz_data_place_(const ipcz_node *node, uint64_t key) {
    size_t low = 0, high = node->data_count;
    while (low < high) {
        size_t middle = low + (high - low) / 2;
        if (node->data[middle].key < key) low = middle + 1;
        else high = middle;
    }
    return low;
}

static inline uint64_t ipcz_data_key_(ipcz_portal portal) { return 2u * IPCZ_CAST_(uint64_t, portal.pair) + (portal.side_b ? 1u : 0u); }

static inline void ipcz_data_forget_(ipcz_node *node, ipcz_portal portal) {
    const uint64_t key = ipcz_data_key_(portal);
    const size_t at = ipcz_data_place_(node, key);
    if (at == node->data_count || node->data[at].key != key) return;
    memmove(&node->data[at], &node->data[at + 1], (node->data_count - at - 1) * sizeof *node->data);
    node->data_count--;
}

/* Says that something may have come. */
static inline void ipcz_node_ring_(ipcz_node *node) {
    const uint64_t one = 1;
    if (node->is_rung) return;
    node->is_rung = true;
    if (node->fd < 0) return;
    /* (it never fails: the counter is 0) */
    ssize_t written = write(node->fd, &one, sizeof one);
    (void)written;
}

/* Gets the next parcel at the first of some portals that has something. */
static inline ipcz_status ipcz_node_try_(ipcz_node *node, const ipcz_portal *portals, size_t count, ipcz_parcel *parcel, size_t *which) {
    uint8_t none;
    uint8_t *bytes = parcel->room ? IPCZ_CAST_(uint8_t *, parcel->bytes) : &none;
    for (size_t i = 0; i < count; i++) {
        ipcz_status status = ipcz_cell_get(&node->cell, portals[i], bytes, parcel->room, &parcel->size, parcel->portals, IPCZ_MAX_PORTALS,
                                           &parcel->count, &parcel->number);
        if (status == IPCZ_EMPTY) continue;
        *which = i;
        return status;
    }
    return count ? IPCZ_EMPTY : IPCZ_STRANGER;
}

/* What a sleeper waits for, if it has come, or why it shall wait no longer; IPCZ_EMPTY: neither. */
static inline ipcz_status ipcz_node_look_(ipcz_node *node, ipcz_waiter_ *waiter) {
    ipcz_status status = IPCZ_EMPTY;
    if (waiter->parcel) status = ipcz_node_try_(node, waiter->portals, waiter->count, waiter->parcel, &waiter->which);
    else if (node->is_rung) status = IPCZ_OK;
    if (status != IPCZ_EMPTY) return status;
    if (node->is_stopped) return IPCZ_STOPPED;
    if (node->refused) return node->refused;
    return IPCZ_EMPTY;
}

/* Gives each sleeper of a node what has come for it, and wakes it; whether there was one. */
static inline bool ipcz_node_hand_out_(ipcz_node *node) {
    bool has_given = false;
    ipcz_waiter_ **place = &node->waiters;
    while (*place) {
        ipcz_waiter_ *waiter = *place;
        ipcz_status status = ipcz_node_look_(node, waiter);
        if (status == IPCZ_EMPTY) {
            place = &waiter->next;
            continue;
        }
        *place = waiter->next;
        waiter->status = status;
        waiter->is_done = has_given = true;
        pthread_cond_signal(&waiter->wake);
    }
    return has_given;
}

/* Takes turns of a node until it has none, or one is refused, and hands out what has come; whether it had one. Adds the nodes that they touch. It may be
 * asked to let routers that were told that there is no slot for their shorter way ask again. */
static inline bool ipcz_node_turns_(ipcz_node *node, bool was_called, bool retries, uint64_t *touched) {
    bool had_turn = false, has_given;
    do {
        uint64_t acts, now;
        do {
            acts = now = 0;
            node->refused = ipcz_cell_acts_touching(&node->cell, IPCZ_LOOP_TURNS_, &acts, &now);
            *touched |= now;
            /* (of a call that is refused the turns before stand) */
            had_turn = had_turn || node->refused || acts;
        } while (node->refused == IPCZ_RACED || acts == IPCZ_LOOP_TURNS_ ||
                 (!node->refused && retries && ipcz_cell_retry(&node->cell) == IPCZ_AGAIN));
        if (had_turn) ipcz_node_ring_(node);
        has_given = (had_turn || was_called) && ipcz_node_hand_out_(node);
    } while (has_given && !node->refused);
    return had_turn;
}

/* Tells all nodes that a turn was refused, so that whoever sleeps calls again, at whatever node. No lock is held. */
static inline void ipcz_loop_tell_(ipcz_loop *loop, ipcz_status refused) {
    for (uint8_t i = 0; i < loop->nodes; i++) {
        ipcz_node *node = &loop->node[i];
        pthread_mutex_lock(&node->lock);
        node->refused = refused;
        ipcz_node_ring_(node);
        ipcz_node_hand_out_(node);
        pthread_mutex_unlock(&node->lock);
    }
}

/* The bit of a node, and all bits. */
static inline uint64_t ipcz_node_bit_(const ipcz_node *node) { return UINT64_C(1) << node->number; }
static inline uint64_t ipcz_loop_all_(const ipcz_loop *loop) { return UINT64_MAX >> (IPCZ_MAX_NODES - loop->nodes); }

/* The first node of a set behind another, going round. The set has one. */
static inline uint8_t ipcz_node_behind_(uint64_t set, uint8_t node) {
    const uint64_t later = set & ~(UINT64_MAX >> (IPCZ_MAX_NODES - 1 - node));
    return IPCZ_CAST_(uint8_t, __builtin_ctzll(later ? later : set));
}

/* Nodes that may still have turns, from earlier calls: they are asked now. */
static inline uint64_t ipcz_loop_take_left_(ipcz_loop *loop) {
    if (!__atomic_load_n(&loop->left, __ATOMIC_RELAXED)) return 0;
    return __atomic_exchange_n(&loop->left, 0, __ATOMIC_RELAXED);
}

/* After turns of a node, the last of which may have been refused: has the nodes that are asked take theirs, and those that these touch, until there is
 * none left to ask. No lock is held. */
static inline void ipcz_loop_move_(ipcz_node *from, uint64_t asked, bool retries, ipcz_status refused) {
    ipcz_loop *loop = from->loop;
    uint64_t left = refused ? ipcz_node_bit_(from) : 0;
    uint8_t i = from->number;
    asked = (asked & ~ipcz_node_bit_(from)) | ipcz_loop_take_left_(loop);
    for (int round = 0; asked && round < IPCZ_LOOP_ROUNDS_; round++) {
        i = ipcz_node_behind_(asked, i);
        ipcz_node *node = &loop->node[i];
        uint64_t touched = 0;
        pthread_mutex_lock(&node->lock);
        ipcz_node_turns_(node, false, retries, &touched);
        if (node->refused) {
            refused = node->refused;
            left |= ipcz_node_bit_(node);
        }
        pthread_mutex_unlock(&node->lock);
        asked = (asked | touched) & ~ipcz_node_bit_(node);
    }
    left |= asked;
    if (left) __atomic_fetch_or(&loop->left, left, __ATOMIC_RELAXED);
    if (refused) ipcz_loop_tell_(loop, refused);
}

/* What follows a call that may have changed its node: turns of it, and of those that it touches. The lock is given back. */
static inline void ipcz_node_end_call_(ipcz_node *node) {
    const bool retries = node->calls++ % IPCZ_LOOP_RETRY_ == 0;
    uint64_t touched = 0;
    bool had_turn = ipcz_node_turns_(node, true, retries, &touched);
    ipcz_status refused = node->refused;
    pthread_mutex_unlock(&node->lock);
    if (retries) touched = ipcz_loop_all_(node->loop);
    if (had_turn || retries) ipcz_loop_move_(node, touched, retries, refused);
}

/* Takes the lock before a look. If a turn of any node was refused, all take turns first. */
static inline void ipcz_node_begin_look_(ipcz_node *node) {
    uint64_t touched = 0;
    pthread_mutex_lock(&node->lock);
    if (!node->refused) return;
    ipcz_node_turns_(node, false, false, &touched);
    ipcz_status refused = node->refused;
    pthread_mutex_unlock(&node->lock);
    ipcz_loop_move_(node, ipcz_loop_all_(node->loop), false, refused);
    pthread_mutex_lock(&node->lock);
}

/* Sleeps until what is waited for has come, and at most as long as is said. The lock is held, and given back only in sleep. */
static inline ipcz_status ipcz_node_sleep_(ipcz_node *node, ipcz_waiter_ *me, int timeout) {
    ipcz_waiter_ **place = &node->waiters;
    pthread_condattr_t kind;
    struct timespec until;
    if (clock_gettime(CLOCK_MONOTONIC, &until) || pthread_condattr_init(&kind)) return IPCZ_OUT_OF_MEMORY;
    pthread_condattr_setclock(&kind, CLOCK_MONOTONIC);
    int failed = pthread_cond_init(&me->wake, &kind);
    pthread_condattr_destroy(&kind);
    if (failed) return IPCZ_OUT_OF_MEMORY;
    until.tv_sec += timeout / 1000;
    until.tv_nsec += timeout % 1000 * 1000000L;
    if (until.tv_nsec >= 1000000000L) {
        until.tv_sec++;
        until.tv_nsec -= 1000000000L;
    }
    while (*place) place = &(*place)->next;
    *place = me;
    while (!me->is_done) {
        if (timeout < 0) pthread_cond_wait(&me->wake, &node->lock);
        else if (pthread_cond_timedwait(&me->wake, &node->lock, &until) == ETIMEDOUT && !me->is_done) break;
    }
    if (!me->is_done) {
        for (place = &node->waiters; *place != me;) place = &(*place)->next;
        *place = me->next;
    }
    pthread_cond_destroy(&me->wake);
    if (!me->is_done) return IPCZ_EMPTY;
    return me->status;
}

IPCZ_LOOP_API void ipcz_loop_destroy(ipcz_loop *loop) {
    if (!loop) return;
    for (uint8_t i = 0; i < loop->nodes; i++) {
        ipcz_node *node = &loop->node[i];
        ipcz_cell_destroy(&node->cell);
        pthread_mutex_destroy(&node->lock);
        if (node->fd >= 0) close(node->fd);
        free(node->data);
    }
    free(loop);
}

IPCZ_LOOP_API ipcz_status ipcz_loop_create(uint8_t nodes, uint32_t slots, ipcz_loop **loop) {
    ipcz_cell cells[IPCZ_MAX_NODES];
    memset(cells, 0, sizeof cells);
    *loop = IPCZ_NULL_;
    if (nodes > IPCZ_MAX_NODES) return IPCZ_TOO_MANY;
    ipcz_loop *made = IPCZ_CAST_(ipcz_loop *, calloc(1, sizeof *made));
    if (!made) return IPCZ_OUT_OF_MEMORY;
    ipcz_status status = ipcz_cells_create_lasting(slots ? slots : IPCZ_LOOP_SLOTS, cells, nodes);
    for (uint8_t i = 0; i < nodes && !status; i++) {
        ipcz_node *node = &made->node[i];
        if (pthread_mutex_init(&node->lock, IPCZ_NULL_)) {
            status = IPCZ_OUT_OF_MEMORY;
            break;
        }
        node->loop = made;
        node->number = i;
        node->fd = -1;
        /* (until a node is told for the first time, something may have come) */
        node->is_rung = true;
        node->cell = cells[i];
        memset(&cells[i], 0, sizeof cells[i]);
        made->nodes++;
    }
    if (!status) {
        *loop = made;
        return IPCZ_OK;
    }
    for (uint8_t i = 0; i < nodes; i++) ipcz_cell_destroy(&cells[i]);
    ipcz_loop_destroy(made);
    return status;
}

IPCZ_LOOP_API void ipcz_loop_stop(ipcz_loop *loop) {
    for (uint8_t i = 0; i < loop->nodes; i++) {
        ipcz_node *node = &loop->node[i];
        pthread_mutex_lock(&node->lock);
        node->is_stopped = true;
        ipcz_node_ring_(node);
        ipcz_node_hand_out_(node);
        pthread_mutex_unlock(&node->lock);
    }
}

IPCZ_LOOP_API ipcz_node *ipcz_loop_node(ipcz_loop *loop, uint8_t number) { return number < loop->nodes ? &loop->node[number] : IPCZ_NULL_; }

IPCZ_LOOP_API uint8_t ipcz_node_number(const ipcz_node *node) { return node->number; }

IPCZ_LOOP_API ipcz_portal ipcz_node_first(const ipcz_node *node, uint8_t other) { return ipcz_first(node->number, other, node->loop->nodes); }

IPCZ_LOOP_API ipcz_status ipcz_node_open(ipcz_node *node, ipcz_portal *first, ipcz_portal *second) {
    ipcz_status status;
    pthread_mutex_lock(&node->lock);
    do status = ipcz_cell_open(&node->cell, first, second);
    while (status == IPCZ_RACED);
    ipcz_node_end_call_(node);
    return status;
}

IPCZ_LOOP_API ipcz_status ipcz_node_send(ipcz_node *node, ipcz_portal at, const void *bytes, size_t size, const ipcz_portal *portals, size_t count) {
    uint64_t number;
    pthread_mutex_lock(&node->lock);
    ipcz_status status = ipcz_cell_put(&node->cell, at, bytes, size, portals, count, &number);
    for (size_t i = 0; i < count && !status && node->data_count; i++) ipcz_data_forget_(node, portals[i]);
    ipcz_node_end_call_(node);
    return status;
}

IPCZ_LOOP_API ipcz_status ipcz_node_recv_any(ipcz_node *node, const ipcz_portal *portals, size_t count, ipcz_parcel *parcel, size_t *which, int timeout) {
    ipcz_waiter_ me;
    memset(&me, 0, sizeof me);
    me.portals = portals;
    me.count = me.which = count;
    me.parcel = parcel;
    ipcz_node_begin_look_(node);
    ipcz_status status = ipcz_node_look_(node, &me);
    if (status == IPCZ_EMPTY && timeout) status = ipcz_node_sleep_(node, &me, timeout);
    if (which && me.which < count) *which = me.which;
    /* (what a sleeper was given was followed by turns already) */
    if (status || me.is_done) pthread_mutex_unlock(&node->lock);
    else ipcz_node_end_call_(node);
    return status;
}

IPCZ_LOOP_API ipcz_status ipcz_node_recv(ipcz_node *node, ipcz_portal at, ipcz_parcel *parcel, int timeout) {
    return ipcz_node_recv_any(node, &at, 1, parcel, IPCZ_NULL_, timeout);
}

IPCZ_LOOP_API ipcz_status ipcz_node_look(ipcz_node *node, ipcz_portal at, ipcz_portal_status *status) {
    ipcz_node_begin_look_(node);
    const ipcz_status told = ipcz_cell_look(&node->cell, at, status);
    pthread_mutex_unlock(&node->lock);
    return told;
}

IPCZ_LOOP_API ipcz_status ipcz_node_has_arrived(ipcz_node *node, ipcz_portal at, bool *arrived) {
    ipcz_node_begin_look_(node);
    const ipcz_status told = ipcz_cell_has_arrived(&node->cell, at, arrived);
    pthread_mutex_unlock(&node->lock);
    return told;
}

IPCZ_LOOP_API ipcz_status ipcz_node_close(ipcz_node *node, ipcz_portal at) {
    pthread_mutex_lock(&node->lock);
    ipcz_status status = ipcz_cell_close(&node->cell, at);
    if (!status) ipcz_data_forget_(node, at);
    ipcz_node_end_call_(node);
    return status;
}

IPCZ_LOOP_API int ipcz_node_fd(ipcz_node *node) {
    pthread_mutex_lock(&node->lock);
    if (node->fd < 0) node->fd = eventfd(node->is_rung ? 1 : 0, EFD_NONBLOCK | EFD_CLOEXEC);
    const int fd = node->fd;
    pthread_mutex_unlock(&node->lock);
    return fd;
}

IPCZ_LOOP_API ipcz_status ipcz_node_wait(ipcz_node *node, int timeout) {
    ipcz_waiter_ me;
    uint64_t rung;
    memset(&me, 0, sizeof me);
    ipcz_node_begin_look_(node);
    ipcz_status status = ipcz_node_look_(node, &me);
    if (status == IPCZ_EMPTY && timeout) status = ipcz_node_sleep_(node, &me, timeout);
    if (node->is_stopped) {
        status = IPCZ_STOPPED;
    } else if (node->is_rung) {
        node->is_rung = false;
        if (node->fd >= 0) {
            /* (it never waits: the counter is 1) */
            ssize_t got = read(node->fd, &rung, sizeof rung);
            (void)got;
        }
    }
    pthread_mutex_unlock(&node->lock);
    return status;
}

IPCZ_LOOP_API ipcz_status ipcz_node_set_data(ipcz_node *node, ipcz_portal portal, void *data) {
    const uint64_t key = ipcz_data_key_(portal);
    ipcz_status status = IPCZ_OK;
    pthread_mutex_lock(&node->lock);
    size_t at = ipcz_data_place_(node, key);
    if (!ipcz_cell_holds(&node->cell, portal)) {
        status = IPCZ_STRANGER;
    } else if (!data) {
        ipcz_data_forget_(node, portal);
    } else if (at < node->data_count && node->data[at].key == key) {
        node->data[at].data = data;
    } else {
        if (node->data_count == node->data_room) {
            const size_t room = node->data_room ? 2 * node->data_room : 8;
            ipcz_data_ *grown = IPCZ_CAST_(ipcz_data_ *, realloc(node->data, room * sizeof *grown));
            if (grown) {
                node->data = grown;
                node->data_room = room;
            } else {
                status = IPCZ_OUT_OF_MEMORY;
            }
        }
        if (!status) {
            memmove(&node->data[at + 1], &node->data[at], (node->data_count - at) * sizeof *node->data);
            node->data[at].key = key;
            node->data[at].data = data;
            node->data_count++;
        }
    }
    pthread_mutex_unlock(&node->lock);
    return status;
}

IPCZ_LOOP_API void *ipcz_node_data(ipcz_node *node, ipcz_portal portal) {
    const uint64_t key = ipcz_data_key_(portal);
    pthread_mutex_lock(&node->lock);
    const size_t at = ipcz_data_place_(node, key);
    void *data = at < node->data_count && node->data[at].key == key ? node->data[at].data : IPCZ_NULL_;
    pthread_mutex_unlock(&node->lock);
    return data;
}

#ifdef __cplusplus
}
#endif

#endif
