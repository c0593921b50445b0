/* Each call on cells, on one thread, with the statuses that it may be refused with. */
#include "ipcz_portals.h"

#include <inttypes.h>
#include <stdio.h>

static void print(const char *what, ipcz_status status) { printf("%s: %s\n", what, ipcz_status_name(status)); }

/* Takes turns of both nodes until neither has one. */
static ipcz_status settle(ipcz_cell *cells) {
    for (uint64_t left, right;;) {
        ipcz_status status = ipcz_cell_acts(&cells[0], 1000, &left);
        if (!status) status = ipcz_cell_acts(&cells[1], 1000, &right);
        if (status || left + right == 0) return status;
    }
}

int main(void) {
    ipcz_cell cells[] = { IPCZ_CELL_INIT, IPCZ_CELL_INIT }, fresh = IPCZ_CELL_INIT, others[] = { IPCZ_CELL_INIT, IPCZ_CELL_INIT };
    ipcz_portal left = ipcz_first(0, 1, 2), right = ipcz_first(1, 0, 2), a, b, portals[IPCZ_MAX_PORTALS];
    uint8_t bytes[IPCZ_MAX_BYTES], node = 9;
    uint64_t number, acts, word;
    size_t size, count;
    ipcz_portal_status seen;
    ipcz_portal ready;
    uint64_t from = 0;
    bool arrived = false;
    print("look on a fresh handle", ipcz_cell_look(&fresh, left, &seen));
    print("open on a fresh handle", ipcz_cell_open(&fresh, &a, &b));
    printf("a fresh handle: quiet %d, claimed %" PRIu64 ", word %d, holds %d, node %d\n", ipcz_cell_quiet(&fresh), ipcz_cell_claimed(&fresh),
           ipcz_cell_word(&fresh, 0, &word), ipcz_cell_holds(&fresh, left), ipcz_cell_node(&fresh, &node));
    print("create of no node", ipcz_cells_create(1, cells, 0));
    print("create with too few words", ipcz_cells_create(0, cells, 2));
    print("create", ipcz_cells_create(2, cells, 2));
    print("create over cells", ipcz_cells_create(2, cells, 2));
    if (!ipcz_cell_node(&cells[1], &node)) return 1;
    printf("node of the second: %d\n", node);
    print("open", ipcz_cell_open(&cells[0], &a, &b));
    print("open with no word left", ipcz_cell_open(&cells[1], &a, &b));
    printf("claimed %" PRIu64 ", word 1 %d, word 2 %d\n", ipcz_cell_claimed(&cells[0]), ipcz_cell_word(&cells[0], 1, &word), ipcz_cell_word(&cells[0], 2, &word));
    print("put by a stranger", ipcz_cell_put(&cells[1], left, "x", 1, NULL, 0, &number));
    print("put of a line feed as printed", ipcz_cell_put_printed(&cells[0], left, "\n", 1, NULL, 0, &number));
    print("put of it", ipcz_cell_put(&cells[0], left, "\n", 1, NULL, 0, &number));
    print("put with a portal", ipcz_cell_put(&cells[0], left, "take it", 7, &b, 1, &number));
    printf("number %u, holds it yet %d, quiet %d\n", (unsigned)number, ipcz_cell_holds(&cells[0], b), ipcz_cell_quiet(&cells[0]));
    print("get before a turn", ipcz_cell_get(&cells[1], right, bytes, sizeof bytes, &size, portals, IPCZ_MAX_PORTALS, &count, &number));
    print("one act", ipcz_cell_acts(&cells[0], 1, &acts));
    printf("taken %u\n", (unsigned)acts);
    print("acts", settle(cells));
    print("next ready", ipcz_cell_next_ready(&cells[1], &from, &ready));
    printf("pair %" PRIu64 ", side B %d\n", ready.pair, ready.side_b);
    print("and the next", ipcz_cell_next_ready(&cells[1], &from, &ready));
    print("look by a stranger", ipcz_cell_look(&cells[0], right, &seen));
    print("look", ipcz_cell_look(&cells[1], right, &seen));
    printf("next is %" PRIu64 ", %" PRIu64 " wait, %zu bytes and %zu portals, closed %d\n", seen.next, seen.waiting, seen.size, seen.count, seen.peer_closed);
    print("get", ipcz_cell_get(&cells[1], right, bytes, sizeof bytes, &size, portals, IPCZ_MAX_PORTALS, &count, &number));
    print("get with no room", ipcz_cell_get(&cells[1], right, bytes, 6, &size, portals, IPCZ_MAX_PORTALS, &count, &number));
    printf("it has %zu bytes and %zu portals\n", size, count);
    print("get", ipcz_cell_get(&cells[1], right, bytes, sizeof bytes, &size, portals, IPCZ_MAX_PORTALS, &count, &number));
    printf("\"%.*s\", number %u, holds its portal %d\n", (int)size, (const char *)bytes, (unsigned)number, ipcz_cell_holds(&cells[1], portals[0]));
    print("has it arrived", ipcz_cell_has_arrived(&cells[1], portals[0], &arrived));
    printf("%d, since no word was left for its proxy\n", arrived);
    print("has its peer", ipcz_cell_has_arrived(&cells[0], a, &arrived));
    printf("%d, where it was opened\n", arrived);
    print("has one that isn't held", ipcz_cell_has_arrived(&cells[0], b, &arrived));
    print("has one of a fresh handle", ipcz_cell_has_arrived(&fresh, a, &arrived));
    print("close", ipcz_cell_close(&cells[1], portals[0]));
    print("close again", ipcz_cell_close(&cells[1], portals[0]));
    print("acts", settle(cells));
    print("put to a closed portal", ipcz_cell_put(&cells[0], a, "late", 4, NULL, 0, &number));
    print("look at it", ipcz_cell_look(&cells[0], a, &seen));
    printf("%" PRIu64 " wait, closed %d\n", seen.waiting, seen.peer_closed);
    print("get from it", ipcz_cell_get(&cells[0], a, bytes, sizeof bytes, &size, portals, IPCZ_MAX_PORTALS, &count, &number));
    printf("quiet %d, %d\n", ipcz_cell_quiet(&cells[0]), ipcz_cell_quiet(&cells[1]));
    print("create of another table", ipcz_cells_create(1, others, 2));
    print("put there", ipcz_cell_put(&others[0], left, "apart", 5, NULL, 0, &number));
    ipcz_cell_destroy(&others[1]);
    print("acts beside a destroyed cell", ipcz_cell_acts(&others[0], 1000, &acts));
    ipcz_cell_destroy(&others[0]);
    ipcz_cell_destroy(&cells[0]);
    ipcz_cell_destroy(&cells[0]);
    print("put on a destroyed cell", ipcz_cell_put(&cells[0], left, "x", 1, NULL, 0, &number));
    ipcz_cell_destroy(&cells[1]);
    print("create once more", ipcz_cells_create(1, cells, 2));
    ipcz_cell_destroy(&cells[0]);
    ipcz_cell_destroy(&cells[1]);
    return 0;
}
