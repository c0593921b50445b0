/* A table whose slots are all in use while a portal moves: its former router finds none for the shorter way, and asks again once one came back. */
#include "ipcz_portals.h"

#include <stdio.h>

enum { SLOTS = 3 };

static ipcz_cell cells[] = { IPCZ_CELL_INIT, IPCZ_CELL_INIT };

/* Has both nodes take turns until neither has any. */
static int rest(void) {
    uint64_t left = 1, right = 0;
    while (left + right > 0)
        if (ipcz_cell_acts(&cells[0], 1000, &left) || ipcz_cell_acts(&cells[1], 1000, &right)) return 0;
    return 1;
}

static const char *retry(void) {
    switch (ipcz_cell_retry(&cells[0])) {
    case IPCZ_NONE_WAITS: return "none waits";
    case IPCZ_NO_SLOT: return "no slot";
    case IPCZ_AGAIN: return "again";
    default: return "?";
    }
}

int main(void) {
    ipcz_cell none = IPCZ_CELL_INIT;
    ipcz_portal kept, sent, first, second, came;
    uint64_t number;
    size_t size, count;
    uint8_t text[8];
    printf("a handle without a cell: %d\n", ipcz_cell_retry(&none) == IPCZ_NONE_WAITS);
    /* one slot for the pair of the two nodes, and two for the pairs that are opened: none is left for the shorter way of what is sent */
    if (ipcz_cells_create_lasting(SLOTS, cells, 2) || ipcz_cell_open(&cells[0], &kept, &sent) || ipcz_cell_open(&cells[0], &first, &second)) return 1;
    printf("before: %s\n", retry());
    if (ipcz_cell_put(&cells[0], ipcz_first(0, 1, 2), "take", 4, &sent, 1, NULL) || !rest()) return 1;
    printf("sent: %s\n", retry());
    if (ipcz_cell_close(&cells[0], first) || ipcz_cell_close(&cells[0], second) || !rest()) return 1;
    printf("a slot has come back: %s\n", retry());
    printf("and then: %s\n", rest() ? retry() : "?");
    if (ipcz_cell_get(&cells[1], ipcz_first(1, 0, 2), text, sizeof text, &size, &came, 1, &count, &number)) return 1;
    if (ipcz_cell_put(&cells[0], kept, "here", 4, NULL, 0, NULL) || !rest()) return 1;
    printf("got: %s\n", ipcz_status_name(ipcz_cell_get(&cells[1], came, text, sizeof text, &size, NULL, 0, &count, &number)));
    ipcz_cell_destroy(&cells[0]);
    ipcz_cell_destroy(&cells[1]);
    return 0;
}
