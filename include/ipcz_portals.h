/* SPDX-License-Identifier: BSD-3-Clause */
/* ipcz_portals.h: nodes in one process, which exchange parcels through portals; all of them in one world, or each on a thread of its own.
 *
 * A pair of portals is a way for parcels. What is put at one portal of a pair is got at the other, each parcel once and in order, also
 * while portals travel: a parcel has bytes, and portals of its sender, which are the receiver's once the parcel is got.
 *
 * Nodes are numbered from 0. Each two of them share a pair from the start (ipcz_first), and a node opens more (ipcz_open). A node acts
 * only on its own portals. Nodes come in one of two ways:
 *  - as a WORLD: one handle has all of them, and every call names the node that it is made on. One thread at a time.
 *  - as CELLS: each node has a handle of its own, its cell, and a thread that has a node's cell calls it without a lock, while other
 *    threads call other cells. The calls are those whose names begin with ipcz_cell.
 * A world isn't made of cells, nor a cell of a world.
 *
 * Nothing runs between calls: there is no thread, no lock, no callback, and no state but that of the worlds and cells. What was put moves
 * on only in ipcz_turn and ipcz_settle, of cells in ipcz_cell_acts, so a get finds nothing before these.
 *
 * MEMORY. A world, or the cells of a table together, own what was put into them until it is got, and all else that their nodes keep, by
 * malloc, realloc and free of the program; ipcz_destroy frees all of a world, and ipcz_cell_destroy what only that cell has, and with the
 * last cell of a table all of it. Everything that a pointer of a call points to is the caller's: it is read or written during the call, and
 * not kept.
 *
 * THREADS. Calls on one world, and on one cell, come one at a time. They may come from several threads, if the program puts them in order:
 * by a mutex round each call, by a thread's start or join, or by a sequentially consistent atomic. Calls on different worlds may run at
 * once, and so may calls on different cells, also of one table.
 *
 * WHAT THE CALLER UPHOLDS. The library is proved for callers that keep these, and tests none of them; what follows otherwise is undefined.
 *  - An ipcz_world is IPCZ_WORLD_INIT and an ipcz_cell IPCZ_CELL_INIT before its first call. Later only the library writes
 *    its fields, and no copy of it is used: whoever moves one sets the old one to the same again.
 *  - No pointer is null, but for those of a put beside a count of 0, and the place for its number. What a call writes (by a pointer that isn't const) lies apart from
 *    all else that the call is given, and arrays are as long as is said beside them. A bool is true or false.
 *  - malloc, realloc and free belong together, and align a block of so many bytes to each power of two up to 16 that divides this number.
 *  - No call is made in a signal handler, nor in the child of a fork in a process with threads.
 */
#ifndef IPCZ_PORTALS_H
#define IPCZ_PORTALS_H

#include <stdbool.h>
#include <stddef.h>
#include <stdint.h>

/* The version of the library, as a text, and as a number: 10000 * major + 100 * minor + patch. CHANGELOG.md of the repository says what each
 * has changed. Library and header are of one version: an archive of another one may link and do something else. A program that wants to be sure
 * compares IPCZ_VERSION with ipcz_version(). */
#define IPCZ_VERSION "0.2.0"
#define IPCZ_VERSION_NUMBER 200

#ifdef __cplusplus
#define IPCZ_NULL_ nullptr
#define IPCZ_BYTES_(at) static_cast<const uint8_t *>(at)
extern "C" {
#else
#define IPCZ_NULL_ NULL
#define IPCZ_BYTES_(at) ((const uint8_t *)(at))
#endif

/* A handle: of a world, or of none. Its fields are not for the caller. */
typedef struct ipcz_world {
    void *at;
    bool has_world;
} ipcz_world;

/* A handle of no world. Every call on such a handle is answered (IPCZ_NOT_CREATED, 0 or false), and does nothing. */
#define IPCZ_WORLD_INIT { IPCZ_NULL_, false }

/* A handle: of a node's cell, or of none. Its fields are not for the caller. */
typedef struct ipcz_cell {
    void *at;
    bool has_cell;
} ipcz_cell;

/* A handle of no cell. Every call on such a handle is answered (IPCZ_NOT_CREATED, 0 or false), and does nothing. */
#define IPCZ_CELL_INIT { IPCZ_NULL_, false }

/* A portal: an end of a pair, of side A (side_b is false) or of side B. It is a name, and may be copied and compared. Which node may use
 * it is kept by the nodes. Pairs are numbered from 0 in each world, and in each table of cells; a number never comes again, and where link words
 * don't come back it is below how many there are. So a portal of one world names a portal of another one, too: a call can't tell that it was given the wrong
 * world's, and uses the portal of that name, if the node has it. */
typedef struct ipcz_portal {
    uint64_t pair;
    bool side_b;
} ipcz_portal;

/* What a look at a portal tells: what gets there would answer, one after the other. */
typedef struct ipcz_portal_status {
    uint64_t next;    /* the number that the next parcel has, whether it has come or not */
    uint64_t waiting; /* how many gets would give a parcel each. A parcel before which another one lacks isn't counted */
    size_t size;      /* how many bytes the next parcel has; 0 if none waits */
    size_t count;     /* how many portals it has; 0 if none waits */
    bool peer_closed; /* whether the get after these would be IPCZ_PEER_CLOSED; if not, it would be IPCZ_EMPTY */
} ipcz_portal_status;

/* What a call came to. A call that isn't IPCZ_OK changes nothing, and writes nothing, unless the call says otherwise. (A settle that is
 * refused has taken the turns before the one that is.) */
typedef uint32_t ipcz_status;
enum {
    IPCZ_OK = 0,
    IPCZ_OUT_OF_MEMORY = 1, /* malloc or realloc gave no memory */
    IPCZ_EMPTY = 2,         /* no parcel has come yet */
    IPCZ_PEER_CLOSED = 3,   /* the other portal of the pair is closed, and what was put at it before is got */
    IPCZ_NO_WORD = 4,       /* each link word is used, so no pair can be opened */
    IPCZ_SELF_ATTACH = 5,   /* a portal can't travel through itself */
    IPCZ_PEER_ATTACH = 6,   /* nor to the other portal of its pair */
    IPCZ_STRANGER = 7,      /* there is no such node, or the portal isn't this node's, or is named twice */
    IPCZ_NUMBERS_END = 8,   /* no number of 64 bits is left for a parcel or a router */
    IPCZ_BAD_DATA = 9,      /* a byte isn't from 0x20 to 0x7E. Only ipcz_put_printed and ipcz_cell_put_printed answer it */
    IPCZ_TOO_MANY = 10,     /* too many bytes, portals, nodes or words, or too few */
    IPCZ_RACED = 11,        /* another node's thread was there first: call again. Only calls on cells answer it */
    IPCZ_OCCUPIED = 12,     /* 12 to 14 are between nodes: no call here answers them */
    IPCZ_PASSED = 13,
    IPCZ_FORGED = 14,
    IPCZ_TOO_SMALL = 100,   /* there is too little room for the parcel */
    IPCZ_NOT_CREATED = 101, /* the handle has no world, or no cell */
    IPCZ_ALREADY_CREATED = 102, /* the handle has one already */
    IPCZ_STOPPED = 103      /* the loop was stopped. Only calls of ipcz_loop.h answer it */
};

/* The version of the archive, as a text that isn't to be freed. That of the header is IPCZ_VERSION. */
const char *ipcz_version(void);

#define IPCZ_MAX_NODES 64
#define IPCZ_MAX_WORDS 4096
#define IPCZ_MAX_SLOTS 1048576
#define IPCZ_MAX_BYTES 65536  /* of a parcel */
#define IPCZ_MAX_PRINTED_BYTES 256  /* of a parcel that ipcz_put_printed puts, each from 0x20 to 0x7E */
#define IPCZ_MAX_PORTALS 8  /* of a parcel */

/* Makes a world.
 *   nodes  how many nodes: 1 to IPCZ_MAX_NODES
 *   words  how many link words: at least nodes * (nodes - 1) / 2, at most IPCZ_MAX_WORDS. Each first pair has one from the start; each open
 *          takes one, and so does each bypass, which takes a node that a portal came through out of its way. A word isn't used again: with
 *          4,096 words a request that carries a portal for its answer, which takes one word for the open and one for the bypass, works some
 *          2,048 times. So a program that goes on adds words in time (ipcz_add_words), or opens pairs once and names each request in its
 *          bytes. Once all words are used opens are refused, and portals that travel work as before, but parcels go round by the nodes they
 *          came through, and each further move makes that way longer
 *   world  a handle of no world; it has the new one if the status is IPCZ_OK, and else still none
 * IPCZ_ALREADY_CREATED, IPCZ_TOO_MANY, IPCZ_OUT_OF_MEMORY. */
ipcz_status ipcz_create(uint8_t nodes, uint32_t words, ipcz_world *world);

/* Frees the world with all that is in it, if the handle has one. The handle has none then, and may be given to ipcz_create again. */
void ipcz_destroy(ipcz_world *world);

/* Opens a pair. Both portals are the node's at first.
 *   first, second  where the portals of side A and side B are written
 * IPCZ_STRANGER, IPCZ_NO_WORD, IPCZ_NUMBERS_END, IPCZ_OUT_OF_MEMORY. */
ipcz_status ipcz_open(ipcz_world *world, uint8_t node, ipcz_portal *first, ipcz_portal *second);

/* Puts a parcel, with pointers that are not null: what ipcz_put_printed calls, and what other languages may call. */
ipcz_status ipcz_put_parcel(ipcz_world *world, uint8_t node, ipcz_portal at, const uint8_t *bytes, size_t size,
                            const ipcz_portal *portals, size_t count, uint64_t *number);

/* The same of bytes of any value, and up to IPCZ_MAX_BYTES of them: what ipcz_put calls. */
ipcz_status ipcz_put_wide_parcel(ipcz_world *world, uint8_t node, ipcz_portal at, const uint8_t *bytes, size_t size,
                                 const ipcz_portal *portals, size_t count, uint64_t *number);

/* Whether a get at a portal of a node would give a parcel; then how many bytes and portals it has is written. Nothing is taken. */
bool ipcz_next_sizes(ipcz_world *world, uint8_t node, ipcz_portal at, size_t *size, size_t *count);

/* Tells what gets at a portal of a node would answer. Nothing is taken. It looks at each parcel that waits.
 *   status  where it is written
 * IPCZ_STRANGER. */
ipcz_status ipcz_look(ipcz_world *world, uint8_t node, ipcz_portal at, ipcz_portal_status *status);

/* Whether a portal of a node has arrived: of the routers that it has left behind none is left in its route. It changes nothing, and what is
 * put and got is the same either way. A portal that goes on travelling does so only once it has arrived: then it never has more than one such
 * router in its route, and else they may come to be ever more. One of a pair that was opened here has arrived at once. It says nothing of the
 * peer.
 *   arrived  where it is written
 * IPCZ_STRANGER. */
ipcz_status ipcz_has_arrived(ipcz_world *world, uint8_t node, ipcz_portal at, bool *arrived);

/* Tells the next portal of a node at which a get isn't IPCZ_EMPTY: a parcel has come there, or the peer has closed and all was got. Nothing is taken.
 * So each is told once, as long as there is no other call on the world:
 *     uint64_t from = 0;
 *     while (ipcz_next_ready(&world, node, &from, &at) == IPCZ_OK) ...
 *   from  0 to begin with, and then what finds the next one
 *   at    where the portal is written
 * IPCZ_EMPTY if there is no further one, or no such node; then from and at are as they were. It walks over no router where nothing has come. */
ipcz_status ipcz_next_ready(ipcz_world *world, uint8_t node, uint64_t *from, ipcz_portal *at);

/* Gets a parcel, with pointers that are not null: what ipcz_get calls, and what other languages may call. */
ipcz_status ipcz_get_parcel(ipcz_world *world, uint8_t node, ipcz_portal at, uint8_t *bytes, size_t room, size_t *size,
                            ipcz_portal *portals, size_t portal_room, size_t *count, uint64_t *number);

/* Closes a portal of the node. What was put at it still comes to the other one; what comes to it is discarded.
 * IPCZ_STRANGER, IPCZ_OUT_OF_MEMORY. */
ipcz_status ipcz_close(ipcz_world *world, uint8_t node, ipcz_portal at);

/* Takes the node's first act that is possible, if there is one: a message is sent, taken or passed on, say.
 * IPCZ_STRANGER, IPCZ_NUMBERS_END, IPCZ_OUT_OF_MEMORY. */
ipcz_status ipcz_turn(ipcz_world *world, uint8_t node);

/* The same, and tells
 *   acted  whether the node had an act that was possible
 * IPCZ_STRANGER, IPCZ_NUMBERS_END, IPCZ_OUT_OF_MEMORY: acted is not written. */
ipcz_status ipcz_act(ipcz_world *world, uint8_t node, bool *acted);

/* Has the nodes settle, with pointers that are not null: what ipcz_settle calls, and what other languages may call. */
ipcz_status ipcz_settle_counting(ipcz_world *world, uint64_t limit, uint64_t *acts, bool *quiet);

/* How many link words were used. */
uint64_t ipcz_claimed(ipcz_world *world);

/* How many link words are left: if it is 0, an open is IPCZ_NO_WORD, and a portal that travels leaves the node it came through in its way
 * until ipcz_retry. */
uint64_t ipcz_words_left(ipcz_world *world);

/* Makes so many link words more, none of them used yet: what a world that lasts is given from time to time. Nothing else of the world changes. A
 * word takes 8 bytes, which are kept until ipcz_destroy, used or not; to add many at a time is cheaper than few. Add them before they are used
 * up: a node that found none when a portal had moved on stays in its way until ipcz_retry. So a program that lasts says before each open
 * `if (ipcz_words_left(&world) < 64 && ipcz_add_words(&world, 1000)) return false;`.
 *   count  how many, 0 too. There is no limit but that of memory: IPCZ_MAX_WORDS says how many a world may begin with
 * IPCZ_OUT_OF_MEMORY, also if there would be more than 2^64 - 1 in all: there are as many as before. To add none is never refused. */
ipcz_status ipcz_add_words(ipcz_world *world, uint64_t count);

/* Lets each node that found no link word when a portal had moved on ask for one again, and tells in how many places one stood in a portal's way; if
 * they were more than 2^64 - 1, it tells 2^64 - 1. A node asks once by itself, and then stays in the way, also when there are words again. So say
 * this behind ipcz_add_words, and have the nodes settle: who finds a word gets out of the way. If it tells 0, nothing has changed. Where no word is
 * left, those that ask are told so again, and stay. It takes no memory and no word by itself, and is 0 for a handle of no world. */
uint64_t ipcz_retry(ipcz_world *world);

/* Whether link word i was used; then its number is written. For tools: the repository's docs/PROTOCOL.md, "Link words", reads it. */
bool ipcz_word(ipcz_world *world, uint64_t i, uint64_t *word);

/* Whether some node may use a portal now; then that node is written. While a portal travels, and once it is closed, none may. */
bool ipcz_holder(ipcz_world *world, ipcz_portal portal, uint8_t *node);

/* CELLS. A thread that has a node's cell puts, gets, opens and closes as the node, and takes the node's turns, without a lock. The nodes of one
 * table share its link words and mailboxes, which each call reads and writes by atomic steps.
 *
 * A node moves parcels only while its own thread takes its turns: what another node sent comes to a portal here by ipcz_cell_acts, and
 * what was put here leaves by it. So a thread's loop is: call what it has to do, then ipcz_cell_acts; if both came to nothing, let other
 * threads run. There is no call that sleeps until something comes: a thread that wants to sleep does so by means of its own (a condition
 * variable, an event's file descriptor), which whoever puts to its node signals, after the acts of the putting node.
 *
 * A node that isn't served holds up the parcels that go through it, and no others. */

/* Makes a table, and the cells of its nodes: cells[i] has the one of node i.
 *   words  how many link words, as for ipcz_create
 *   cells, nodes  handles of no cell, and how many: 1 to IPCZ_MAX_NODES. All have cells if the status is IPCZ_OK, and else all still none
 * IPCZ_ALREADY_CREATED, IPCZ_TOO_MANY, IPCZ_OUT_OF_MEMORY. */
ipcz_status ipcz_cells_create(uint32_t words, ipcz_cell *cells, size_t nodes);

/* Makes a table whose link words come back, and the cells of its nodes: what a program that stays up takes. A link's slot is used again once both
 * nodes have let the link go: they do so as they take turns, after a portal has moved and after both portals of a pair are closed.
 *   slots  for how many links there is room at once, 16 bytes each: at least 1 and nodes * (nodes - 1) / 2, at most IPCZ_MAX_SLOTS. Each pair
 *          takes one while it is open, and so does each bypass until it is done. If none is to be had, an open is refused IPCZ_NO_WORD and may be
 *          tried again; a node that a portal came through, and finds none, stays in its way until the pair is closed
 *   cells, nodes  as for ipcz_cells_create
 * Numbers of links have 64 bits, so the table doesn't end: each open and each bypass takes a number, and some are passed over.
 * IPCZ_ALREADY_CREATED, IPCZ_TOO_MANY, IPCZ_OUT_OF_MEMORY. */
ipcz_status ipcz_cells_create_lasting(uint32_t slots, ipcz_cell *cells, size_t nodes);

/* Frees what only this cell has, if the handle has one; with the last cell of the table, the table. The handle has none then. The other nodes
 * go on, but nothing goes through this one any more, and no other cell can be made for it. */
void ipcz_cell_destroy(ipcz_cell *cell);

/* Opens a pair. Both portals are the node's at first.
 *   first, second  where the portals of side A and side B are written
 * IPCZ_NO_WORD, IPCZ_NUMBERS_END, IPCZ_OUT_OF_MEMORY, IPCZ_RACED. */
ipcz_status ipcz_cell_open(ipcz_cell *cell, ipcz_portal *first, ipcz_portal *second);

/* Puts a parcel, with pointers that are not null: what ipcz_cell_put_printed calls, and what other languages may call. */
ipcz_status ipcz_cell_put_parcel(ipcz_cell *cell, ipcz_portal at, const uint8_t *bytes, size_t size,
                                 const ipcz_portal *portals, size_t count, uint64_t *number);

/* The same of bytes of any value, and up to IPCZ_MAX_BYTES of them: what ipcz_cell_put calls. */
ipcz_status ipcz_cell_put_wide_parcel(ipcz_cell *cell, ipcz_portal at, const uint8_t *bytes, size_t size,
                                      const ipcz_portal *portals, size_t count, uint64_t *number);

/* Whether a get at a portal of the node would give a parcel; then how many bytes and portals it has is written. Nothing is taken. */
bool ipcz_cell_next_sizes(ipcz_cell *cell, ipcz_portal at, size_t *size, size_t *count);

/* Tells what gets at a portal of the node would answer. Nothing is taken. It looks at each parcel that waits. What another node has sent is
 * told once it has come, which it does in ipcz_cell_acts.
 *   status  where it is written
 * IPCZ_STRANGER. */
ipcz_status ipcz_cell_look(ipcz_cell *cell, ipcz_portal at, ipcz_portal_status *status);

/* Whether a portal of the node has arrived: of the routers that it has left behind none is left in its route. It changes nothing, and what is
 * put and got is the same either way. A portal that goes on travelling does so only once it has arrived: then it never has more than one such
 * router in its route, and else they may come to be ever more. It can become true in each ipcz_cell_acts. It says nothing of the peer.
 *   arrived  where it is written
 * IPCZ_STRANGER. */
ipcz_status ipcz_cell_has_arrived(ipcz_cell *cell, ipcz_portal at, bool *arrived);

/* Tells the next portal of the node at which a get isn't IPCZ_EMPTY, as ipcz_next_ready does of a world's node. What another node has sent is told once it
 * has come, which it does in ipcz_cell_acts.
 *   from  0 to begin with, and then what finds the next one
 *   at    where the portal is written
 * IPCZ_EMPTY if there is no further one; then from and at are as they were. */
ipcz_status ipcz_cell_next_ready(ipcz_cell *cell, uint64_t *from, ipcz_portal *at);

/* Gets a parcel, with pointers that are not null: what ipcz_cell_get calls, and what other languages may call. */
ipcz_status ipcz_cell_get_parcel(ipcz_cell *cell, ipcz_portal at, uint8_t *bytes, size_t room, size_t *size,
                                 ipcz_portal *portals, size_t portal_room, size_t *count, uint64_t *number);

/* Closes a portal of the node. What was put at it still comes to the other one; what comes to it is discarded.
 * IPCZ_STRANGER, IPCZ_OUT_OF_MEMORY. */
ipcz_status ipcz_cell_close(ipcz_cell *cell, ipcz_portal at);

/* Takes turns of the node, as ipcz_cell_acts, which calls this; no pointer is null. Beside how many acts were taken it tells
 *   touched  which nodes they have touched: bit n is set if a message was sent to node n, or one of node n was taken, so that it can send its next.
 *            It is written with each status but IPCZ_NOT_CREATED: of acts that end at a refusal it tells what those before have touched
 * An act of another node can have become possible only at the nodes that are told. So who has put threads to sleep wakes those of these nodes, and
 * no others. The node may have touched itself. */
ipcz_status ipcz_cell_acts_touching(ipcz_cell *cell, uint64_t limit, uint64_t *acts, uint64_t *touched);

/* Whether the node has nothing to do, nothing of it waits to be taken by another node, and no message to it was found. It is false while another
 * node hasn't taken what this one has sent, also when ipcz_cell_acts finds nothing to do: whoever waits for it takes turns of the others,
 * too. Another node may send something meanwhile. */
bool ipcz_cell_quiet(ipcz_cell *cell);

/* What ipcz_cell_retry found. */
#define IPCZ_NONE_WAITS 0u
#define IPCZ_NO_SLOT 1u
#define IPCZ_AGAIN 2u

/* Lets a portal's former router ask again for the shorter way that it makes, if it was told that there is no link word for that and one is to
 * be had now. It doesn't ask again by itself, and until then the pair's parcels go the longer way. In a table of ipcz_cells_create_lasting
 * whose slots are all in use at times, call it now and then, and take turns of the nodes behind it.
 *   IPCZ_NONE_WAITS  no router of the node was told so, or the handle has no cell
 *   IPCZ_NO_SLOT     one was, and no slot, or no number, is left for it
 *   IPCZ_AGAIN       one was, and asks again at the next turns of the node; others may wait behind it
 * Where no router of the node waits it looks at nothing; else at the routers, until it finds one, and at each slot, until it finds one. */
uint32_t ipcz_cell_retry(ipcz_cell *cell);

/* How many link words of the table were used, when their count was read; later they may be more. */
uint64_t ipcz_cell_claimed(ipcz_cell *cell);

/* Whether link word i was used by then; then its number is written. For tools, as ipcz_word. */
bool ipcz_cell_word(ipcz_cell *cell, uint64_t i, uint64_t *word);

/* Whether the node may use a portal now. */
bool ipcz_cell_holds(ipcz_cell *cell, ipcz_portal portal);

/* Whether the handle has a cell; then the number of its node is written. */
bool ipcz_cell_node(ipcz_cell *cell, uint8_t *node);

/* Puts a parcel.
 *   at             the portal of the node at which it is put
 *   bytes, size    its bytes, at most IPCZ_MAX_BYTES; they are copied. bytes may be null if size is 0
 *   portals, count its portals, at most IPCZ_MAX_PORTALS, all of the node, none twice; with IPCZ_OK they are the node's no more. portals
 *                  may be null if count is 0
 *   number         how many parcels were put at this portal before it; may be null
 * IPCZ_OUT_OF_MEMORY, IPCZ_STRANGER, IPCZ_TOO_MANY, IPCZ_SELF_ATTACH, IPCZ_PEER_ATTACH, IPCZ_PEER_CLOSED (once the news has come),
 * IPCZ_NUMBERS_END.
 *
 * CIRCLES. If parcels that nobody has got yet carry each other's portals in a circle (one on its way through pair 1 carries a portal of pair
 * 2, one through pair 2 a portal of pair 3, and one through pair 3 a portal of pair 1), then these portals may follow each other from node
 * to node for ever. Three puts are enough, on three nodes each of which sends its portal to one neighbour to the other one:
 *     put 0>1 [0>2], put 1>2 [1>0], put 2>0 [2>1]      (i>j is what ipcz_first(i, j, 3) names)
 * Then the nodes never come to rest, nothing of these pairs can be got, and link words are taken until none is left, so that each later
 * open is IPCZ_NO_WORD (in a table of ipcz_cells_create_lasting they come back as they are let go). To close all portals doesn't end it; to
 * destroy the world does, or all cells. It is seen by ipcz_settle, which isn't quiet however high its limit, and by ipcz_cell_acts, which takes
 * as many acts as it may time and again while nothing comes. A program avoids it if each portal travels only through pairs of a lower number than its own (pair of
 * ipcz_portal): then there is no circle. */
static inline ipcz_status ipcz_put(ipcz_world *world, uint8_t node, ipcz_portal at, const void *bytes, size_t size,
                                   const ipcz_portal *portals, size_t count, uint64_t *number) {
    static const ipcz_portal nothing = { 0, false };
    const void *given = size ? bytes : &nothing;
    uint64_t unwanted;
    return ipcz_put_wide_parcel(world, node, at, IPCZ_BYTES_(given), size, count ? portals : &nothing, count, number ? number : &unwanted);
}

/* Puts a parcel of at most IPCZ_MAX_PRINTED_BYTES bytes, each from 0x20 to 0x7E, as scripts of the repository do; of others it is
 * IPCZ_TOO_MANY or IPCZ_BAD_DATA. All else is as for ipcz_put. */
static inline ipcz_status ipcz_put_printed(ipcz_world *world, uint8_t node, ipcz_portal at, const void *bytes, size_t size,
                                           const ipcz_portal *portals, size_t count, uint64_t *number) {
    static const ipcz_portal nothing = { 0, false };
    const void *given = size ? bytes : &nothing;
    uint64_t unwanted;
    return ipcz_put_parcel(world, node, at, IPCZ_BYTES_(given), size, count ? portals : &nothing, count, number ? number : &unwanted);
}

/* Puts a parcel at a portal of the cell's node. The arguments and answers are as for ipcz_put. */
static inline ipcz_status ipcz_cell_put(ipcz_cell *cell, ipcz_portal at, const void *bytes, size_t size,
                                        const ipcz_portal *portals, size_t count, uint64_t *number) {
    static const ipcz_portal nothing = { 0, false };
    const void *given = size ? bytes : &nothing;
    uint64_t unwanted;
    return ipcz_cell_put_wide_parcel(cell, at, IPCZ_BYTES_(given), size, count ? portals : &nothing, count, number ? number : &unwanted);
}

/* Puts a parcel at a portal of the cell's node, as ipcz_put_printed. */
static inline ipcz_status ipcz_cell_put_printed(ipcz_cell *cell, ipcz_portal at, const void *bytes, size_t size,
                                                const ipcz_portal *portals, size_t count, uint64_t *number) {
    static const ipcz_portal nothing = { 0, false };
    const void *given = size ? bytes : &nothing;
    uint64_t unwanted;
    return ipcz_cell_put_parcel(cell, at, IPCZ_BYTES_(given), size, count ? portals : &nothing, count, number ? number : &unwanted);
}

/* Gets the next parcel that has come to a portal.
 *   at           a portal of the node
 *   bytes, room  where the bytes are written, and how many may be: IPCZ_MAX_BYTES are always enough. Null is room for none
 *   size         how many bytes the parcel has; may be null
 *   portals, portal_room  where its portals are written, and how many may be: IPCZ_MAX_PORTALS are always enough. They are the node's now.
 *                Null is room for none
 *   count        how many portals it has; may be null
 *   number       how many parcels were got at this portal before it; may be null
 * IPCZ_TOO_SMALL: nothing is taken, and size and count are those of the parcel. If bytes and portals are both null that is the answer to
 * any parcel, also to one without bytes and portals: so one asks for its sizes.
 * IPCZ_STRANGER, IPCZ_EMPTY, IPCZ_PEER_CLOSED. */
static inline ipcz_status ipcz_get(ipcz_world *world, uint8_t node, ipcz_portal at, uint8_t *bytes, size_t room, size_t *size,
                                   ipcz_portal *portals, size_t portal_room, size_t *count, uint64_t *number) {
    uint8_t no_byte = 0;
    ipcz_portal no_portal = { 0, false };
    size_t unwanted_size, unwanted_count;
    uint64_t unwanted;
    if (!size) size = &unwanted_size;
    if (!count) count = &unwanted_count;
    if (!bytes && !portals && ipcz_next_sizes(world, node, at, size, count)) return IPCZ_TOO_SMALL;
    return ipcz_get_parcel(world, node, at, bytes ? bytes : &no_byte, bytes ? room : 0, size, portals ? portals : &no_portal,
                           portals ? portal_room : 0, count, number ? number : &unwanted);
}

/* Gets the next parcel that has come to a portal of the cell's node. The arguments and answers are as for ipcz_get. */
static inline ipcz_status ipcz_cell_get(ipcz_cell *cell, ipcz_portal at, uint8_t *bytes, size_t room, size_t *size,
                                        ipcz_portal *portals, size_t portal_room, size_t *count, uint64_t *number) {
    uint8_t no_byte = 0;
    ipcz_portal no_portal = { 0, false };
    size_t unwanted_size, unwanted_count;
    uint64_t unwanted;
    if (!size) size = &unwanted_size;
    if (!count) count = &unwanted_count;
    if (!bytes && !portals && ipcz_cell_next_sizes(cell, at, size, count)) return IPCZ_TOO_SMALL;
    return ipcz_cell_get_parcel(cell, at, bytes ? bytes : &no_byte, bytes ? room : 0, size, portals ? portals : &no_portal,
                                portals ? portal_room : 0, count, number ? number : &unwanted);
}

/* Has the nodes take turns until none has an act, or limit acts were taken. With a limit of 0 it only looks. Nodes come to rest unless
 * unread parcels carry each other's portals in a circle: see ipcz_put.
 *   acts   how many acts were taken; may be null
 *   quiet  whether no node has an act any more: then all that was put has come to where it can be got. May be null
 * IPCZ_NUMBERS_END, IPCZ_OUT_OF_MEMORY: the turns before it stand; acts and quiet are not written. */
static inline ipcz_status ipcz_settle(ipcz_world *world, uint64_t limit, uint64_t *acts, bool *quiet) {
    uint64_t unwanted;
    bool unwanted_quiet;
    return ipcz_settle_counting(world, limit, acts ? acts : &unwanted, quiet ? quiet : &unwanted_quiet);
}

/* Takes turns of the node until it has no act, or limit acts were taken.
 *   acts  how many acts were taken; fewer than limit: the node has nothing to do until another node acts, or it is called. With a limit of
 *         1 it takes the first act that is possible, if there is one. May be null
 * Portals that travel in a circle have acts for ever: see CIRCLES at ipcz_put.
 * IPCZ_NUMBERS_END, IPCZ_OUT_OF_MEMORY, IPCZ_RACED: the acts before it stand; acts is not written. */
static inline ipcz_status ipcz_cell_acts(ipcz_cell *cell, uint64_t limit, uint64_t *acts) {
    uint64_t unwanted, touched;
    return ipcz_cell_acts_touching(cell, limit, acts ? acts : &unwanted, &touched);
}

/* The portal that a node has from the start of the pair that it shares with another; both are below nodes, and not the same. */
static inline ipcz_portal ipcz_first(uint8_t node, uint8_t other, uint8_t nodes) {
    uint32_t low = node < other ? node : other, high = node < other ? other : node;
    ipcz_portal portal;
    portal.pair = low * (2u * nodes - low - 1u) / 2u + (high - low - 1u);
    portal.side_b = node > other;
    return portal;
}

/* The name of a status, which is not to be freed; "Unknown" if it is none. */
static inline const char *ipcz_status_name(ipcz_status status) {
    switch (status) {
    case IPCZ_OK: return "Ok";
    case IPCZ_OUT_OF_MEMORY: return "OutOfMemory";
    case IPCZ_EMPTY: return "Empty";
    case IPCZ_PEER_CLOSED: return "PeerClosed";
    case IPCZ_NO_WORD: return "NoWord";
    case IPCZ_SELF_ATTACH: return "SelfAttach";
    case IPCZ_PEER_ATTACH: return "PeerAttach";
    case IPCZ_STRANGER: return "Stranger";
    case IPCZ_NUMBERS_END: return "NumbersEnd";
    case IPCZ_BAD_DATA: return "BadData";
    case IPCZ_TOO_MANY: return "TooMany";
    case IPCZ_RACED: return "Raced";
    case IPCZ_OCCUPIED: return "Occupied";
    case IPCZ_PASSED: return "Passed";
    case IPCZ_FORGED: return "Forged";
    case IPCZ_TOO_SMALL: return "TooSmall";
    case IPCZ_NOT_CREATED: return "NotCreated";
    case IPCZ_ALREADY_CREATED: return "AlreadyCreated";
    case IPCZ_STOPPED: return "Stopped";
    default: return "Unknown";
    }
}

#ifdef __cplusplus
}
#endif

#endif
