/* Two threads own a node each and sleep in poll() while they have nothing to do: a node's thread wakes the threads of the nodes that its acts have touched.
 * Each node has an event's file descriptor, so that a loop that waits for sockets, too, can have it in the same list. */
#include "ipcz_portals.h"

#include <poll.h>
#include <pthread.h>
#include <stdatomic.h>
#include <stdint.h>
#include <stdio.h>
#include <sys/eventfd.h>
#include <unistd.h>

enum { NODES = 2, ROUNDS = 2000 };

typedef struct {
    ipcz_cell *cell;
    ipcz_portal at;
    int me;
    long got;
} owner;

static int bell[NODES];
static atomic_bool is_over;

/* Wakes the threads of these nodes. */
static void ring(uint64_t nodes) {
    const uint64_t one = 1;
    for (int i = 0; i < NODES; i++)
        if (nodes >> i & 1 && write(bell[i], &one, sizeof one) != sizeof one) perror("write");
}

/* Takes turns until there are none; whether there was one. A bell that rang before it looked may have been for what it has done: then it looks once more. */
static bool serve(owner *me) {
    uint64_t acts = 0, touched = 0;
    ipcz_status status = ipcz_cell_acts_touching(me->cell, 1000, &acts, &touched);
    ring(touched & ~(UINT64_C(1) << me->me));
    return status == IPCZ_RACED || acts;
}

static void *own(void *given) {
    owner *me = given;
    uint8_t bytes[IPCZ_MAX_BYTES];
    ipcz_portal portals[IPCZ_MAX_PORTALS];
    uint64_t number, rung;
    size_t size, count;
    if (me->me == 0) ipcz_cell_put(me->cell, me->at, "ball", 4, NULL, 0, &number);
    while (!atomic_load(&is_over)) {
        bool did = serve(me);
        if (!ipcz_cell_get(me->cell, me->at, bytes, sizeof bytes, &size, portals, IPCZ_MAX_PORTALS, &count, &number)) {
            did = true;
            if (++me->got == ROUNDS && me->me == 0) {
                atomic_store(&is_over, true);
                ring(UINT64_C(1) << 1);
            } else {
                ipcz_cell_put(me->cell, me->at, bytes, size, NULL, 0, &number);
            }
        }
        if (did) continue;
        struct pollfd wait = { .fd = bell[me->me], .events = POLLIN };
        poll(&wait, 1, -1);
        if (read(bell[me->me], &rung, sizeof rung) != sizeof rung) perror("read");
    }
    return NULL;
}

int main(void) {
    ipcz_cell cells[NODES] = { IPCZ_CELL_INIT, IPCZ_CELL_INIT };
    if (ipcz_cells_create(1, cells, NODES)) return 1;
    owner owners[NODES];
    pthread_t threads[NODES];
    for (int i = 0; i < NODES; i++) {
        bell[i] = eventfd(0, 0);
        owners[i] = (owner){ &cells[i], ipcz_first((uint8_t)i, (uint8_t)(1 - i), NODES), i, 0 };
    }
    for (int i = 0; i < NODES; i++) pthread_create(&threads[i], NULL, own, &owners[i]);
    for (int i = 0; i < NODES; i++) pthread_join(threads[i], NULL);
    printf("%ld rounds\n", owners[0].got);
    for (int i = 0; i < NODES; i++) {
        close(bell[i]);
        ipcz_cell_destroy(&cells[i]);
    }
}
