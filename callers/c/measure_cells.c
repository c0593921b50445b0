/* How long a parcel of 16 bytes takes between two nodes by their cells: on one thread, by put, acts, acts and get, and on two, of which one
 * puts on node 0 and the other gets on node 1. measure_cells [PARCELS [TIMES]] prints nanoseconds a parcel, once for each time: those of
 * the processor for one thread, and those that pass for two. */
#include "ipcz_portals.h"

#include <pthread.h>
#include <stdatomic.h>
#include <stdio.h>
#include <stdlib.h>
#include <time.h>

enum { AHEAD = 8 };

static const char text[] = "0123456789abcdef";
static ipcz_cell cells[] = { IPCZ_CELL_INIT, IPCZ_CELL_INIT };
static long count = 1000000;
static atomic_long come;

static double nanoseconds(clockid_t clock) {
    struct timespec now;
    clock_gettime(clock, &now);
    return (double)now.tv_sec * 1e9 + (double)now.tv_nsec;
}

static bool put(void) {
    uint64_t number;
    return !ipcz_cell_put(&cells[0], ipcz_first(0, 1, 2), text, 16, NULL, 0, &number);
}

static bool serve(ipcz_cell *cell) {
    uint64_t acts;
    ipcz_status status = ipcz_cell_acts(cell, 1000, &acts);
    return !status || status == IPCZ_RACED;
}

static ipcz_status get(void) {
    ipcz_portal portals[IPCZ_MAX_PORTALS];
    uint8_t bytes[IPCZ_MAX_BYTES];
    uint64_t number;
    size_t size, with;
    return ipcz_cell_get(&cells[1], ipcz_first(1, 0, 2), bytes, sizeof bytes, &size, portals, IPCZ_MAX_PORTALS, &with, &number);
}

__attribute__((noinline)) static bool on_one(long parcels) {
    for (long i = 0; i < parcels; i++)
        if (!put() || !serve(&cells[0]) || !serve(&cells[1]) || get()) return false;
    return true;
}

/* The putting thread is at most AHEAD parcels ahead, so that none waits for long. */
static void *puts_all(void *unused) {
    (void)unused;
    for (long i = 0; i < count; i++) {
        while (i - atomic_load_explicit(&come, memory_order_relaxed) >= AHEAD)
            if (!serve(&cells[0])) return &cells;
        if (!put() || !serve(&cells[0])) return &cells;
    }
    while (atomic_load_explicit(&come, memory_order_relaxed) < count)
        if (!serve(&cells[0])) return &cells;
    return NULL;
}

static bool on_two(void) {
    pthread_t thread;
    void *failed;
    bool ok = true;
    atomic_store(&come, 0);
    if (pthread_create(&thread, NULL, puts_all, NULL)) return false;
    for (long i = 0; i < count && ok;) {
        ipcz_status status = get();
        if (!status) atomic_store_explicit(&come, ++i, memory_order_relaxed);
        else ok = status == IPCZ_EMPTY && serve(&cells[1]);
    }
    if (!ok) exit(1);
    return !pthread_join(thread, &failed) && !failed;
}

int main(int argc, char **argv) {
    if (argc > 1) count = atol(argv[1]);
    int times = argc > 2 ? atoi(argv[2]) : 5;
    if (count < 1 || ipcz_cells_create(1, cells, 2) || !on_one(100)) return 1;
    for (int i = 0; i < times; i++) {
        double begun = nanoseconds(CLOCK_PROCESS_CPUTIME_ID);
        if (!on_one(count)) return 1;
        double one = nanoseconds(CLOCK_PROCESS_CPUTIME_ID) - begun;
        begun = nanoseconds(CLOCK_MONOTONIC);
        if (!on_two()) return 1;
        double two = nanoseconds(CLOCK_MONOTONIC) - begun;
        printf("one thread %.1f ns, two threads %.1f ns\n", one / (double)count, two / (double)count);
    }
    ipcz_cell_destroy(&cells[0]);
    ipcz_cell_destroy(&cells[1]);
    return 0;
}
