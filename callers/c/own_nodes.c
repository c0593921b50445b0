/* Two threads that each own a node, with no lock: node 0 sends a portal away and numbered parcels after it, and node 1 gets them and answers. */
#include "ipcz_portals.h"

#include <pthread.h>
#include <sched.h>
#include <stdatomic.h>
#include <stdio.h>
#include <string.h>

enum { PARCELS = 1000, THREADS = 2 };

/* How many threads have done what they came for. The others still take turns for them until all have. */
static atomic_int done;

/* A thread's node, and what its calls came to. */
typedef struct owner {
    ipcz_cell *cell;
    ipcz_status status;
    int in_order;
    char answer[IPCZ_MAX_BYTES + 1];
} owner;

/* Takes turns of the node, and lets other threads run if it had none to take. */
static ipcz_status serve(owner *me) {
    uint64_t acts;
    ipcz_status status = ipcz_cell_acts(me->cell, 64, &acts);
    if (status == IPCZ_RACED) return IPCZ_OK;
    if (!status && acts == 0) sched_yield();
    return status;
}

/* Takes turns until a parcel has come. */
static ipcz_status get(owner *me, ipcz_portal at, char *text, ipcz_portal *portals, size_t *count) {
    uint64_t number;
    size_t size;
    ipcz_status status;
    while ((status = ipcz_cell_get(me->cell, at, (uint8_t *)text, IPCZ_MAX_BYTES, &size, portals, IPCZ_MAX_PORTALS, count, &number)) == IPCZ_EMPTY)
        if ((status = serve(me))) return status;
    if (!status) text[size] = 0;
    return status;
}

static ipcz_status put(owner *me, ipcz_portal at, const char *text, const ipcz_portal *portals, size_t count) {
    uint64_t number;
    ipcz_status status = ipcz_cell_put(me->cell, at, text, strlen(text), portals, count, &number);
    return status ? status : serve(me);
}

static ipcz_status asks(owner *me) {
    ipcz_portal kept, sent, portals[IPCZ_MAX_PORTALS];
    char text[16];
    size_t count;
    ipcz_status status;
    while ((status = ipcz_cell_open(me->cell, &kept, &sent)) == IPCZ_RACED) {}
    if (!status) status = put(me, ipcz_first(0, 1, 2), "a portal", &sent, 1);
    for (int i = 0; i < PARCELS && !status; i++) {
        snprintf(text, sizeof text, "%d", i);
        status = put(me, kept, text, NULL, 0);
    }
    return status ? status : get(me, kept, me->answer, portals, &count);
}

static ipcz_status answers(owner *me) {
    ipcz_portal portals[IPCZ_MAX_PORTALS], moved;
    char text[IPCZ_MAX_BYTES + 1];
    size_t count;
    ipcz_status status = get(me, ipcz_first(1, 0, 2), text, portals, &count);
    if (status) return status;
    moved = portals[0];
    for (int i = 0; i < PARCELS; i++) {
        char wanted[16];
        if ((status = get(me, moved, text, portals, &count))) return status;
        snprintf(wanted, sizeof wanted, "%d", i);
        me->in_order += strcmp(text, wanted) == 0;
    }
    return put(me, moved, "all came", NULL, 0);
}

/* After its own part a thread takes turns until each has done its part. */
static void *run(owner *me, ipcz_status part(owner *)) {
    me->status = part(me);
    atomic_fetch_add(&done, 1);
    while (!me->status && atomic_load(&done) < THREADS) me->status = serve(me);
    return NULL;
}

static void *first(void *me) { return run(me, asks); }

static void *second(void *me) { return run(me, answers); }

int main(void) {
    ipcz_cell cells[] = { IPCZ_CELL_INIT, IPCZ_CELL_INIT };
    owner owners[] = { { .cell = &cells[0] }, { .cell = &cells[1] } };
    pthread_t threads[THREADS];
    if (ipcz_cells_create(16, cells, 2)) return 1;
    if (pthread_create(&threads[0], NULL, first, &owners[0]) || pthread_create(&threads[1], NULL, second, &owners[1])) return 1;
    for (int i = 0; i < THREADS; i++) pthread_join(threads[i], NULL);
    printf("node 0: %s, \"%s\"\n", ipcz_status_name(owners[0].status), owners[0].answer);
    printf("node 1: %s, in order: %d\n", ipcz_status_name(owners[1].status), owners[1].in_order);
    ipcz_cell_destroy(&cells[0]);
    ipcz_cell_destroy(&cells[1]);
    return 0;
}
