/* One thread, two nodes: a portal travels from node 0 to node 1 in a parcel, and parcels go over it. Then statuses that callers meet, and a world that
 * is given more words than one may be made with. */
#include "ipcz_portals.h"

#include <inttypes.h>
#include <stdio.h>
#include <string.h>

/* If a call didn't come to what was expected, prints what it came to, and ends the program. */
#define EXPECT(call, expected)                                                                                       \
    do {                                                                                                             \
        ipcz_status came = (call);                                                                                   \
        if (came != (expected)) {                                                                                    \
            printf("line %d: %s, and not %s\n", __LINE__, ipcz_status_name(came), ipcz_status_name(expected));       \
            return false;                                                                                            \
        }                                                                                                            \
    } while (0)

#define HOLDS(test)                                                                                                  \
    do {                                                                                                             \
        if (!(test)) {                                                                                               \
            printf("line %d: not so: %s\n", __LINE__, #test);                                                        \
            return false;                                                                                            \
        }                                                                                                            \
    } while (0)

/* What a get writes. */
typedef struct parcel {
    uint8_t bytes[IPCZ_MAX_BYTES];
    size_t size;
    ipcz_portal portals[IPCZ_MAX_PORTALS];
    size_t count;
    uint64_t number;
} parcel;

static ipcz_status get(ipcz_world *world, uint8_t node, ipcz_portal at, parcel *got) {
    return ipcz_get(world, node, at, got->bytes, IPCZ_MAX_BYTES, &got->size, got->portals, IPCZ_MAX_PORTALS, &got->count, &got->number);
}

static ipcz_status put(ipcz_world *world, uint8_t node, ipcz_portal at, const char *text) {
    uint64_t number;
    return ipcz_put(world, node, at, text, strlen(text), NULL, 0, &number);
}

static void print_portal(const char *name, ipcz_portal portal) {
    printf("%s %" PRIu64 "%c\n", name, portal.pair, portal.side_b ? 'B' : 'A');
}

static void print_parcel(const parcel *got) {
    printf("got %" PRIu64 ": \"%.*s\"\n", got->number, (int)got->size, (const char *)got->bytes);
    for (size_t i = 0; i < got->count; i++) print_portal("  with", got->portals[i]);
}

static bool travels(ipcz_world *world) {
    ipcz_portal left = ipcz_first(0, 1, 2), right = ipcz_first(1, 0, 2), kept, sent;
    uint64_t number, acts;
    uint8_t node;
    bool quiet;
    parcel got;
    EXPECT(ipcz_open(world, 0, &kept, &sent), IPCZ_OK);
    print_portal("kept", kept);
    print_portal("sent", sent);
    EXPECT(ipcz_put(world, 0, left, "a portal", 8, &sent, 1, &number), IPCZ_OK);
    HOLDS(number == 0 && !ipcz_holder(world, sent, &node));
    EXPECT(put(world, 0, kept, "before it has come"), IPCZ_OK);
    EXPECT(get(world, 1, right, &got), IPCZ_EMPTY);
    EXPECT(ipcz_settle(world, 1000, &acts, &quiet), IPCZ_OK);
    printf("%s after %" PRIu64 " acts\n", quiet ? "quiet" : "not quiet", acts);
    EXPECT(get(world, 1, right, &got), IPCZ_OK);
    print_parcel(&got);
    HOLDS(got.count == 1 && got.portals[0].pair == sent.pair && got.portals[0].side_b == sent.side_b);
    HOLDS(ipcz_holder(world, sent, &node) && node == 1 && ipcz_holder(world, kept, &node) && node == 0);
    EXPECT(ipcz_settle(world, 1000, &acts, &quiet), IPCZ_OK);
    EXPECT(put(world, 0, kept, "and after"), IPCZ_OK);
    for (int turn = 0; turn < 20; turn++) EXPECT(ipcz_turn(world, (uint8_t)(turn % 2)), IPCZ_OK);
    EXPECT(get(world, 1, sent, &got), IPCZ_OK);
    print_parcel(&got);
    EXPECT(get(world, 1, sent, &got), IPCZ_OK);
    print_parcel(&got);
    EXPECT(ipcz_close(world, 0, kept), IPCZ_OK);
    EXPECT(ipcz_settle(world, 0, &acts, &quiet), IPCZ_OK);
    HOLDS(acts == 0 && !quiet);
    EXPECT(ipcz_settle(world, 1000, &acts, &quiet), IPCZ_OK);
    EXPECT(get(world, 1, sent, &got), IPCZ_PEER_CLOSED);
    EXPECT(ipcz_close(world, 1, sent), IPCZ_OK);
    return true;
}

/* What has too little room stays where it is, and what is refused writes nothing. */
static bool small_rooms(ipcz_world *world) {
    static const uint8_t text[3] = { 'y', 'e', 's' };
    ipcz_portal left = ipcz_first(0, 1, 2), right = ipcz_first(1, 0, 2), one, other, portals[1];
    uint64_t number, acts;
    uint8_t bytes[4] = { 0 };
    size_t size = 0, count = 0;
    bool quiet;
    EXPECT(ipcz_open(world, 0, &one, &other), IPCZ_OK);
    EXPECT(ipcz_put(world, 0, left, text, 3, &one, 1, &number), IPCZ_OK);
    EXPECT(ipcz_settle(world, 1000, &acts, &quiet), IPCZ_OK);
    number = 77;
    EXPECT(ipcz_get(world, 1, right, bytes, 2, &size, portals, 1, &count, &number), IPCZ_TOO_SMALL);
    HOLDS(size == 3 && count == 1 && number == 77 && bytes[0] == 0);
    EXPECT(ipcz_get(world, 1, right, bytes, 3, &size, portals, 0, &count, &number), IPCZ_TOO_SMALL);
    HOLDS(size == 3 && count == 1 && number == 77 && bytes[0] == 0);
    EXPECT(ipcz_get(world, 1, right, bytes, 3, &size, portals, 1, &count, &number), IPCZ_OK);
    HOLDS(size == 3 && memcmp(bytes, text, 3) == 0 && bytes[3] == 0 && count == 1 && portals[0].pair == one.pair && portals[0].side_b == one.side_b);
    number = 77;
    EXPECT(ipcz_get(world, 1, right, bytes, 0, &size, portals, 0, &count, &number), IPCZ_EMPTY);
    HOLDS(size == 3 && count == 1 && number == 77);
    return true;
}

/* A parcel has any bytes; what ipcz_put_printed would refuse of them is put. */
static bool parcels_of_any_bytes(ipcz_world *world) {
    static uint8_t sent[IPCZ_MAX_BYTES + 1], bytes[IPCZ_MAX_BYTES];
    ipcz_portal left = ipcz_first(0, 1, 2), right = ipcz_first(1, 0, 2), portals[1];
    uint64_t number, acts;
    size_t size, count;
    bool quiet;
    for (size_t i = 0; i < sizeof sent; i++) sent[i] = (uint8_t)(i % 251);
    EXPECT(ipcz_put_printed(world, 0, left, sent, 1, NULL, 0, &number), IPCZ_BAD_DATA);
    EXPECT(ipcz_put(world, 0, left, sent, sizeof sent, NULL, 0, &number), IPCZ_TOO_MANY);
    EXPECT(ipcz_put(world, 0, left, sent, sizeof bytes, NULL, 0, &number), IPCZ_OK);
    EXPECT(ipcz_settle(world, 1000, &acts, &quiet), IPCZ_OK);
    EXPECT(ipcz_get(world, 1, right, bytes, IPCZ_MAX_BYTES - 1, &size, portals, 1, &count, &number), IPCZ_TOO_SMALL);
    HOLDS(size == IPCZ_MAX_BYTES && count == 0);
    EXPECT(ipcz_get(world, 1, right, bytes, size, &size, portals, 0, &count, &number), IPCZ_OK);
    HOLDS(size == IPCZ_MAX_BYTES && memcmp(bytes, sent, size) == 0);
    return true;
}

/* Outputs that nobody wants may be null, and a get without room for anything asks for sizes; a turn tells whether it was an act. */
static bool unwanted_outputs(ipcz_world *world) {
    ipcz_portal left = ipcz_first(0, 1, 2), right = ipcz_first(1, 0, 2), kept, sent;
    size_t size = 9, count = 9;
    int acts = 0;
    bool acted = true;
    EXPECT(ipcz_get(world, 1, right, NULL, 0, &size, NULL, 0, &count, NULL), IPCZ_EMPTY);
    HOLDS(size == 9 && count == 9 && !ipcz_next_sizes(world, 1, right, &size, &count));
    EXPECT(ipcz_open(world, 0, &kept, &sent), IPCZ_OK);
    EXPECT(ipcz_put(world, 0, left, "four", 4, &sent, 1, NULL), IPCZ_OK);
    EXPECT(ipcz_put(world, 0, left, NULL, 0, NULL, 0, NULL), IPCZ_OK);
    while (acted) {
        EXPECT(ipcz_act(world, (uint8_t)(acts % 2), &acted), IPCZ_OK);
        if (acted) acts++;
    }
    HOLDS(acts > 0);
    EXPECT(ipcz_settle(world, 1000, NULL, NULL), IPCZ_OK);
    EXPECT(ipcz_act(world, 0, &acted), IPCZ_OK);
    HOLDS(!acted);
    EXPECT(ipcz_get(world, 1, right, NULL, 0, &size, NULL, 0, &count, NULL), IPCZ_TOO_SMALL);
    HOLDS(size == 4 && count == 1);
    EXPECT(ipcz_get(world, 1, right, NULL, 4, NULL, &sent, 1, NULL, NULL), IPCZ_TOO_SMALL);
    EXPECT(ipcz_get(world, 1, right, (uint8_t[4]){ 0 }, 4, NULL, &sent, 1, NULL, NULL), IPCZ_OK);
    EXPECT(ipcz_get(world, 1, right, NULL, 0, &size, NULL, 0, &count, NULL), IPCZ_TOO_SMALL);
    HOLDS(size == 0 && count == 0);
    EXPECT(ipcz_get(world, 1, right, NULL, 0, NULL, &sent, 0, NULL, NULL), IPCZ_OK);
    EXPECT(ipcz_act(world, 2, &acted), IPCZ_STRANGER);
    return true;
}

static bool refusals(ipcz_world *world) {
    static const uint8_t zeros[IPCZ_MAX_PRINTED_BYTES + 1];
    ipcz_portal left = ipcz_first(0, 1, 2), right = ipcz_first(1, 0, 2), twice[2] = { left, left }, first, second;
    uint64_t number, word;
    uint8_t node;
    EXPECT(ipcz_put_printed(world, 0, left, zeros, sizeof zeros, NULL, 0, &number), IPCZ_TOO_MANY);
    EXPECT(ipcz_put_printed(world, 0, left, zeros, 1, NULL, 0, &number), IPCZ_BAD_DATA);
    EXPECT(ipcz_put(world, 1, left, NULL, 0, NULL, 0, &number), IPCZ_STRANGER);
    EXPECT(ipcz_put(world, 0, left, NULL, 0, &left, 1, &number), IPCZ_SELF_ATTACH);
    EXPECT(ipcz_put(world, 0, left, NULL, 0, &right, 1, &number), IPCZ_PEER_ATTACH);
    EXPECT(ipcz_open(world, 0, &first, &second), IPCZ_OK);
    EXPECT(ipcz_put(world, 0, first, NULL, 0, twice, 2, &number), IPCZ_STRANGER);
    EXPECT(ipcz_close(world, 1, first), IPCZ_STRANGER);
    EXPECT(ipcz_turn(world, 2), IPCZ_STRANGER);
    while (ipcz_open(world, 1, &first, &second) == IPCZ_OK) continue;
    EXPECT(ipcz_open(world, 1, &first, &second), IPCZ_NO_WORD);
    HOLDS(ipcz_word(world, 7, &word) && !ipcz_word(world, 8, &word) && ipcz_claimed(world) == 8);
    HOLDS(!ipcz_holder(world, (ipcz_portal){ 999, false }, &node));
    return true;
}

/* A world that lasts: many more requests, each with a fresh portal for its answer, than a world may be made with words for. Each takes two, one for
 * the open and one for the bypass; where fewer are left, words are added. */
static bool lasts(void) {
    enum { REQUESTS = 3000, ADDED = 1000 };
    ipcz_world world = IPCZ_WORLD_INIT;
    ipcz_portal left = ipcz_first(0, 1, 2), right = ipcz_first(1, 0, 2), kept, sent;
    parcel got;
    int answered = 0, added = 0;
    EXPECT(ipcz_create(2, 1, &world), IPCZ_OK);
    for (; answered < REQUESTS; answered++) {
        if (ipcz_words_left(&world) < 2) {
            EXPECT(ipcz_add_words(&world, ADDED), IPCZ_OK);
            added++;
        }
        EXPECT(ipcz_open(&world, 0, &kept, &sent), IPCZ_OK);
        EXPECT(ipcz_put(&world, 0, left, "well?", 5, &sent, 1, NULL), IPCZ_OK);
        EXPECT(ipcz_settle(&world, 1000, NULL, NULL), IPCZ_OK);
        EXPECT(get(&world, 1, right, &got), IPCZ_OK);
        EXPECT(put(&world, 1, got.portals[0], "yes"), IPCZ_OK);
        EXPECT(ipcz_close(&world, 1, got.portals[0]), IPCZ_OK);
        EXPECT(ipcz_settle(&world, 1000, NULL, NULL), IPCZ_OK);
        EXPECT(get(&world, 0, kept, &got), IPCZ_OK);
        HOLDS(got.size == 3);
        EXPECT(get(&world, 0, kept, &got), IPCZ_PEER_CLOSED);
        EXPECT(ipcz_close(&world, 0, kept), IPCZ_OK);
    }
    EXPECT(ipcz_add_words(&world, UINT64_MAX), IPCZ_OUT_OF_MEMORY);
    EXPECT(ipcz_add_words(&world, 0), IPCZ_OK);
    EXPECT(ipcz_open(&world, 0, &kept, &sent), IPCZ_NO_WORD);
    printf("requests answered: %d, %" PRIu64 " words used, %d times added, %" PRIu64 " left\n", answered, ipcz_claimed(&world), added, ipcz_words_left(&world));
    ipcz_destroy(&world);
    return true;
}

/* A look tells what gets would answer, and takes nothing. */
static bool looks(void) {
    ipcz_world world = IPCZ_WORLD_INIT;
    ipcz_portal left = ipcz_first(0, 1, 2), right = ipcz_first(1, 0, 2);
    ipcz_portal_status status = { 7, 7, 7, 7, true };
    parcel got;
    EXPECT(ipcz_look(&world, 1, right, &status), IPCZ_NOT_CREATED);
    EXPECT(ipcz_create(2, 1, &world), IPCZ_OK);
    EXPECT(ipcz_look(&world, 0, right, &status), IPCZ_STRANGER);
    EXPECT(ipcz_look(&world, 2, right, &status), IPCZ_STRANGER);
    HOLDS(status.next == 7 && status.waiting == 7 && status.size == 7 && status.count == 7 && status.peer_closed);
    EXPECT(put(&world, 0, left, "first"), IPCZ_OK);
    EXPECT(put(&world, 0, left, "the second"), IPCZ_OK);
    EXPECT(ipcz_look(&world, 1, right, &status), IPCZ_OK);
    HOLDS(status.next == 0 && status.waiting == 0 && status.size == 0 && status.count == 0 && !status.peer_closed);
    EXPECT(ipcz_settle(&world, 1000, NULL, NULL), IPCZ_OK);
    EXPECT(ipcz_look(&world, 1, right, &status), IPCZ_OK);
    HOLDS(status.next == 0 && status.waiting == 2 && status.size == 5 && status.count == 0 && !status.peer_closed);
    EXPECT(ipcz_close(&world, 0, left), IPCZ_OK);
    EXPECT(ipcz_settle(&world, 1000, NULL, NULL), IPCZ_OK);
    EXPECT(get(&world, 1, right, &got), IPCZ_OK);
    EXPECT(ipcz_look(&world, 1, right, &status), IPCZ_OK);
    HOLDS(status.next == 1 && status.waiting == 1 && status.size == 10 && status.peer_closed);
    EXPECT(get(&world, 1, right, &got), IPCZ_OK);
    EXPECT(ipcz_look(&world, 1, right, &status), IPCZ_OK);
    HOLDS(status.next == 2 && status.waiting == 0 && status.size == 0 && status.peer_closed);
    EXPECT(get(&world, 1, right, &got), IPCZ_PEER_CLOSED);
    ipcz_destroy(&world);
    return true;
}

static bool same(ipcz_portal a, ipcz_portal b) { return a.pair == b.pair && a.side_b == b.side_b; }

/* The portals at which something has come are told one after the other: of two pairs of one node, and of the first pair of two. */
static bool are_ready(void) {
    ipcz_world world = IPCZ_WORLD_INIT;
    ipcz_portal left = ipcz_first(0, 1, 2), right = ipcz_first(1, 0, 2), a, b, at = left;
    parcel got;
    uint64_t from = 0;
    EXPECT(ipcz_next_ready(&world, 1, &from, &at), IPCZ_NOT_CREATED);
    EXPECT(ipcz_create(2, 2, &world), IPCZ_OK);
    EXPECT(ipcz_open(&world, 1, &a, &b), IPCZ_OK);
    EXPECT(ipcz_next_ready(&world, 1, &from, &at), IPCZ_EMPTY);
    EXPECT(ipcz_next_ready(&world, 2, &from, &at), IPCZ_EMPTY);
    HOLDS(from == 0 && same(at, left));
    EXPECT(put(&world, 0, left, "for right"), IPCZ_OK);
    EXPECT(put(&world, 1, a, "for b"), IPCZ_OK);
    EXPECT(ipcz_settle(&world, 1000, NULL, NULL), IPCZ_OK);
    EXPECT(ipcz_next_ready(&world, 1, &from, &at), IPCZ_OK);
    HOLDS(same(at, right));
    EXPECT(ipcz_next_ready(&world, 1, &from, &at), IPCZ_OK);
    HOLDS(same(at, b));
    EXPECT(ipcz_next_ready(&world, 1, &from, &at), IPCZ_EMPTY);
    HOLDS(same(at, b));
    EXPECT(get(&world, 1, right, &got), IPCZ_OK);
    EXPECT(ipcz_close(&world, 1, a), IPCZ_OK);
    EXPECT(ipcz_settle(&world, 1000, NULL, NULL), IPCZ_OK);
    EXPECT(get(&world, 1, b, &got), IPCZ_OK);
    EXPECT(get(&world, 1, b, &got), IPCZ_PEER_CLOSED);
    from = 0;
    EXPECT(ipcz_next_ready(&world, 1, &from, &at), IPCZ_OK);
    HOLDS(same(at, b));
    EXPECT(ipcz_next_ready(&world, 1, &from, &at), IPCZ_EMPTY);
    ipcz_destroy(&world);
    return true;
}

/* A portal has arrived where it was opened, and where it came to once its proxy is bypassed. */
static bool arrives(void) {
    ipcz_world world = IPCZ_WORLD_INIT;
    ipcz_portal left = ipcz_first(0, 1, 2), right = ipcz_first(1, 0, 2), kept, sent;
    bool arrived = true;
    parcel got;
    EXPECT(ipcz_has_arrived(&world, 1, right, &arrived), IPCZ_NOT_CREATED);
    EXPECT(ipcz_create(2, 3, &world), IPCZ_OK);
    EXPECT(ipcz_has_arrived(&world, 0, right, &arrived), IPCZ_STRANGER);
    EXPECT(ipcz_has_arrived(&world, 2, right, &arrived), IPCZ_STRANGER);
    HOLDS(arrived);
    EXPECT(ipcz_open(&world, 0, &kept, &sent), IPCZ_OK);
    arrived = false;
    EXPECT(ipcz_has_arrived(&world, 0, sent, &arrived), IPCZ_OK);
    HOLDS(arrived);
    EXPECT(ipcz_put(&world, 0, left, "a portal", 8, &sent, 1, NULL), IPCZ_OK);
    EXPECT(ipcz_has_arrived(&world, 0, sent, &arrived), IPCZ_STRANGER);
    while (get(&world, 1, right, &got) == IPCZ_EMPTY)
        for (uint8_t node = 0; node < 2; node++) EXPECT(ipcz_turn(&world, node), IPCZ_OK);
    EXPECT(ipcz_has_arrived(&world, 1, sent, &arrived), IPCZ_OK);
    HOLDS(!arrived);
    EXPECT(ipcz_settle(&world, 1000, NULL, NULL), IPCZ_OK);
    EXPECT(ipcz_has_arrived(&world, 1, sent, &arrived), IPCZ_OK);
    HOLDS(arrived);
    ipcz_destroy(&world);
    return true;
}

/* A node that found no word stays in the way of a portal that moved on, until words were added and it may ask again. */
static bool asks_again(void) {
    ipcz_world world = IPCZ_WORLD_INIT;
    ipcz_portal left = ipcz_first(0, 1, 2), right = ipcz_first(1, 0, 2), kept, sent;
    parcel got;
    EXPECT(ipcz_create(2, 2, &world), IPCZ_OK);
    HOLDS(ipcz_retry(&world) == 0);
    EXPECT(ipcz_open(&world, 0, &kept, &sent), IPCZ_OK);
    EXPECT(ipcz_put(&world, 0, left, "m", 1, &sent, 1, NULL), IPCZ_OK);
    EXPECT(ipcz_settle(&world, 1000, NULL, NULL), IPCZ_OK);
    EXPECT(get(&world, 1, right, &got), IPCZ_OK);
    EXPECT(ipcz_add_words(&world, 1), IPCZ_OK);
    EXPECT(ipcz_settle(&world, 1000, NULL, NULL), IPCZ_OK);
    HOLDS(ipcz_claimed(&world) == 2);
    HOLDS(ipcz_retry(&world) == 1);
    HOLDS(ipcz_retry(&world) == 0);
    EXPECT(ipcz_settle(&world, 1000, NULL, NULL), IPCZ_OK);
    HOLDS(ipcz_claimed(&world) == 3);
    EXPECT(put(&world, 0, kept, "p"), IPCZ_OK);
    EXPECT(ipcz_settle(&world, 1000, NULL, NULL), IPCZ_OK);
    EXPECT(get(&world, 1, sent, &got), IPCZ_OK);
    ipcz_destroy(&world);
    return true;
}

/* A handle of no world, and limits. */
static bool handles(void) {
    ipcz_world world = IPCZ_WORLD_INIT;
    ipcz_portal left = ipcz_first(0, 1, 2);
    uint64_t number;
    uint8_t node;
    EXPECT(put(&world, 0, left, "x"), IPCZ_NOT_CREATED);
    EXPECT(ipcz_add_words(&world, 1), IPCZ_NOT_CREATED);
    HOLDS(ipcz_claimed(&world) == 0 && ipcz_words_left(&world) == 0 && ipcz_retry(&world) == 0 && !ipcz_word(&world, 0, &number) && !ipcz_holder(&world, left, &node));
    ipcz_destroy(&world);
    EXPECT(ipcz_create(0, 8, &world), IPCZ_TOO_MANY);
    EXPECT(ipcz_create(65, 4096, &world), IPCZ_TOO_MANY);
    EXPECT(ipcz_create(3, 2, &world), IPCZ_TOO_MANY);
    EXPECT(ipcz_create(2, 4097, &world), IPCZ_TOO_MANY);
    EXPECT(ipcz_create(8, 28, &world), IPCZ_OK);
    EXPECT(ipcz_create(2, 8, &world), IPCZ_ALREADY_CREATED);
    for (uint8_t i = 0; i < 8; i++)
        for (uint8_t j = 0; j < 8; j++)
            if (i != j) HOLDS(ipcz_holder(&world, ipcz_first(i, j, 8), &node) && node == i);
    ipcz_destroy(&world);
    ipcz_destroy(&world);
    EXPECT(ipcz_turn(&world, 0), IPCZ_NOT_CREATED);
    return true;
}

int main(void) {
    ipcz_world world = IPCZ_WORLD_INIT;
    if (ipcz_create(2, 8, &world)) return 1;
    bool well = travels(&world) && small_rooms(&world) && parcels_of_any_bytes(&world) && unwanted_outputs(&world) && refusals(&world) && looks() && are_ready() && arrives() && lasts() && asks_again() && handles();
    printf("%" PRIu64 " words used\n", ipcz_claimed(&world));
    ipcz_destroy(&world);
    for (ipcz_status status = 0; status <= 14; status++) printf("%" PRIu32 " %s\n", status, ipcz_status_name(status));
    printf("%s\n", well ? "all as expected" : "failed");
    return well ? 0 : 1;
}
