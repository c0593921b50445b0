/* A table whose link words come back: many more requests, each with a fresh portal for its answer, than there is room for links at once. */
#include "ipcz_portals.h"

#include <stdio.h>
#include <string.h>

enum { REQUESTS = 5000, SLOTS = 3 };

static ipcz_cell cells[] = { IPCZ_CELL_INIT, IPCZ_CELL_INIT };

/* Has both nodes take turns until neither has any. */
static int rest(void) {
    uint64_t left = 1, right = 0;
    while (left + right > 0)
        if (ipcz_cell_acts(&cells[0], 1000, &left) || ipcz_cell_acts(&cells[1], 1000, &right)) return 0;
    return 1;
}

/* The next parcel of a node at a portal, with at most one portal in it. */
static ipcz_status get(int node, ipcz_portal at, char *text, ipcz_portal *portal) {
    uint64_t number;
    size_t size, count;
    ipcz_status status = ipcz_cell_get(&cells[node], at, (uint8_t *)text, 15, &size, portal, 1, &count, &number);
    if (!status) text[size] = 0;
    return status;
}

/* Node 0 asks node 1, which answers at the portal that came with the question. */
static int request(void) {
    ipcz_portal kept, sent, reply, none;
    uint64_t number;
    char text[16];
    return !ipcz_cell_open(&cells[0], &kept, &sent) && !ipcz_cell_put(&cells[0], ipcz_first(0, 1, 2), "well?", 5, &sent, 1, &number) && rest()
        && !get(1, ipcz_first(1, 0, 2), text, &reply) && !ipcz_cell_put(&cells[1], reply, "yes", 3, NULL, 0, &number)
        && !ipcz_cell_close(&cells[1], reply) && rest() && !get(0, kept, text, &none) && !strcmp(text, "yes")
        && get(0, kept, text, &none) == IPCZ_PEER_CLOSED && !ipcz_cell_close(&cells[0], kept) && rest();
}

int main(void) {
    int answered = 0;
    ipcz_status few = ipcz_cells_create_lasting(0, cells, 2);
    ipcz_status many = ipcz_cells_create_lasting(IPCZ_MAX_SLOTS + 1, cells, 2);
    printf("no slot: %s, too many: %s\n", ipcz_status_name(few), ipcz_status_name(many));
    if (ipcz_cells_create_lasting(SLOTS, cells, 2)) return 1;
    while (answered < REQUESTS && request()) answered++;
    printf("requests answered: %d, links made: %s\n", answered, ipcz_cell_claimed(&cells[0]) > 2 * REQUESTS ? "more than two each" : "too few");
    ipcz_cell_destroy(&cells[0]);
    ipcz_cell_destroy(&cells[1]);
    return 0;
}
