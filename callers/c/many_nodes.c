/* Sixty-four nodes, the most that there may be: each two of them share a pair, and a portal travels through them all. In a world, and in a table whose
 * link words come back. */
#include "ipcz_portals.h"

#include <inttypes.h>
#include <stdio.h>

enum { NODES = IPCZ_MAX_NODES, PAIRS = NODES * (NODES - 1) / 2 };

static ipcz_world world = IPCZ_WORLD_INIT;
static ipcz_cell cells[NODES];

/* Has all cells take turns until none has any; false if one is refused. */
static bool rest(void) {
    uint64_t sum = 1, acts;
    while (sum) {
        sum = 0;
        for (int node = 0; node < NODES; node++) {
            if (ipcz_cell_acts(&cells[node], 1000, &acts)) return false;
            sum += acts;
        }
    }
    return true;
}

/* A byte goes each way between each two nodes of the world: how many came, each at its own portal. */
static int in_world(void) {
    int came = 0;
    for (uint8_t i = 0; i < NODES; i++)
        for (uint8_t j = 0; j < NODES; j++)
            if (i != j && ipcz_put(&world, i, ipcz_first(i, j, NODES), &i, 1, NULL, 0, NULL)) return -1;
    if (ipcz_settle(&world, UINT64_MAX, NULL, NULL)) return -1;
    for (uint8_t i = 0; i < NODES; i++)
        for (uint8_t j = 0; j < NODES; j++) {
            uint8_t byte = NODES;
            if (i != j && !ipcz_get(&world, j, ipcz_first(j, i, NODES), &byte, 1, NULL, NULL, 0, NULL, NULL)) came += byte == i;
        }
    return came;
}

/* The same between each two cells. */
static int in_table(void) {
    int came = 0;
    for (uint8_t i = 0; i < NODES; i++)
        for (uint8_t j = 0; j < NODES; j++)
            if (i != j && ipcz_cell_put(&cells[i], ipcz_first(i, j, NODES), &i, 1, NULL, 0, NULL)) return -1;
    if (!rest()) return -1;
    for (uint8_t i = 0; i < NODES; i++)
        for (uint8_t j = 0; j < NODES; j++) {
            uint8_t byte = NODES;
            if (i != j && !ipcz_cell_get(&cells[j], ipcz_first(j, i, NODES), &byte, 1, NULL, NULL, 0, NULL, NULL)) came += byte == i;
        }
    return came;
}

/* A portal goes from node to node, so many times round all of them: whether what is put at its peer comes to it then. */
static bool goes_round(int rounds) {
    ipcz_portal kept, sent;
    uint8_t byte = 7;
    if (ipcz_cell_open(&cells[0], &kept, &sent)) return false;
    for (int hop = 0; hop < rounds * NODES; hop++) {
        const uint8_t from = (uint8_t)(hop % NODES), to = (uint8_t)((hop + 1) % NODES);
        size_t count = 0;
        if (ipcz_cell_put(&cells[from], ipcz_first(from, to, NODES), NULL, 0, &sent, 1, NULL) || !rest()) return false;
        if (ipcz_cell_get(&cells[to], ipcz_first(to, from, NODES), NULL, 0, NULL, &sent, 1, &count, NULL) || count != 1 || !rest()) return false;
    }
    return !ipcz_cell_put(&cells[0], kept, &byte, 1, NULL, 0, NULL) && rest() && !ipcz_cell_get(&cells[0], sent, &byte, 1, NULL, NULL, 0, NULL, NULL) && byte == 7;
}

int main(void) {
    for (int node = 0; node < NODES; node++) cells[node] = (ipcz_cell)IPCZ_CELL_INIT;
    if (ipcz_create(NODES, PAIRS, &world) || ipcz_cells_create_lasting(PAIRS + 2, cells, NODES)) return 1;
    printf("of %d bytes came in the world %d, in the table %d\n", 2 * PAIRS, in_world(), in_table());
    const bool went = goes_round(10);
    printf("a portal went ten times round: %s, links made: %s\n", went ? "yes" : "no", ipcz_cell_claimed(&cells[0]) > PAIRS + 9 * NODES ? "one a hop or more" : "too few");
    ipcz_destroy(&world);
    for (int node = 0; node < NODES; node++) ipcz_cell_destroy(&cells[node]);
    return 0;
}
