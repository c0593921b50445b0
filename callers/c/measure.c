/* How long a parcel of 16 bytes takes on one thread: put on node 0, settled, and got on node 1; and beside it a ring under a mutex.
 * measure [PARCELS [TIMES]] prints nanoseconds of the processor a parcel, once for each time. */
#include "ipcz_portals.h"

#include <pthread.h>
#include <stdio.h>
#include <stdlib.h>
#include <string.h>
#include <time.h>

static const char text[] = "0123456789abcdef";

static double nanoseconds(void) {
    struct timespec now;
    clock_gettime(CLOCK_PROCESS_CPUTIME_ID, &now);
    return (double)now.tv_sec * 1e9 + (double)now.tv_nsec;
}

/* One parcel at a time through the world; the answer is whether all came. */
__attribute__((noinline)) static bool parcels(ipcz_world *world, long count) {
    ipcz_portal left = ipcz_first(0, 1, 2), right = ipcz_first(1, 0, 2), portals[IPCZ_MAX_PORTALS];
    uint8_t bytes[IPCZ_MAX_BYTES];
    uint64_t number, acts;
    size_t size, with;
    bool quiet;
    for (long i = 0; i < count; i++) {
        if (ipcz_put(world, 0, left, text, 16, NULL, 0, &number)) return false;
        if (ipcz_settle(world, 1000, &acts, &quiet) || !quiet) return false;
        if (ipcz_get(world, 1, right, bytes, sizeof bytes, &size, portals, IPCZ_MAX_PORTALS, &with, &number) || size != 16) return false;
    }
    return true;
}

static struct {
    pthread_mutex_t lock;
    unsigned head, tail;
    struct {
        size_t size;
        uint8_t bytes[IPCZ_MAX_BYTES];
    } slot[64];
} ring = { .lock = PTHREAD_MUTEX_INITIALIZER };

__attribute__((noinline)) static bool ring_put(const void *bytes, size_t size) {
    pthread_mutex_lock(&ring.lock);
    bool has_place = ring.tail - ring.head < 64;
    if (has_place) {
        ring.slot[ring.tail % 64].size = size;
        memcpy(ring.slot[ring.tail++ % 64].bytes, bytes, size);
    }
    pthread_mutex_unlock(&ring.lock);
    return has_place;
}

__attribute__((noinline)) static bool ring_get(void *bytes, size_t *size) {
    pthread_mutex_lock(&ring.lock);
    bool has_one = ring.tail != ring.head;
    if (has_one) {
        *size = ring.slot[ring.head % 64].size;
        memcpy(bytes, ring.slot[ring.head++ % 64].bytes, *size);
    }
    pthread_mutex_unlock(&ring.lock);
    return has_one;
}

__attribute__((noinline)) static bool through_ring(long count) {
    uint8_t bytes[IPCZ_MAX_BYTES];
    size_t size;
    for (long i = 0; i < count; i++)
        if (!ring_put(text, 16) || !ring_get(bytes, &size) || size != 16) return false;
    return true;
}

int main(int argc, char **argv) {
    long count = argc > 1 ? atol(argv[1]) : 1000000;
    int times = argc > 2 ? atoi(argv[2]) : 5;
    ipcz_world world = IPCZ_WORLD_INIT;
    if (count < 1 || ipcz_create(2, 1, &world) || !parcels(&world, 100)) return 1;
    for (int i = 0; i < times; i++) {
        double begun = nanoseconds();
        bool came = parcels(&world, count);
        double between = nanoseconds();
        came = through_ring(count) && came;
        double ended = nanoseconds();
        if (!came) return 1;
        printf("world %.1f ns, ring under a mutex %.1f ns\n", (between - begun) / (double)count, (ended - between) / (double)count);
    }
    ipcz_destroy(&world);
    return 0;
}
