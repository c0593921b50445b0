/* Two threads share a world by a mutex: one puts numbered parcels on node 0, the other gets them on node 1. */
#include "ipcz_portals.h"

#include <inttypes.h>
#include <pthread.h>
#include <sched.h>
#include <stdio.h>

enum { PARCELS = 1000 };

typedef struct shared {
    pthread_mutex_t lock;
    ipcz_world world;
} shared;

/* Each puts or gets all parcels, and answers what the first call came to that was refused for good. */
static ipcz_status put_all(shared *with) {
    ipcz_status status = IPCZ_OK;
    for (int i = 0; i < PARCELS && !status; i++) {
        char text[16];
        uint64_t number, acts;
        bool quiet;
        int size = snprintf(text, sizeof text, "%d", i);
        pthread_mutex_lock(&with->lock);
        status = ipcz_put(&with->world, 0, ipcz_first(0, 1, 2), text, (size_t)size, NULL, 0, &number);
        if (!status) status = ipcz_settle(&with->world, 1000, &acts, &quiet);
        pthread_mutex_unlock(&with->lock);
    }
    return status;
}

static ipcz_status get_all(shared *with, int *in_order) {
    for (int got = 0; got < PARCELS;) {
        uint8_t bytes[IPCZ_MAX_BYTES + 1];
        ipcz_portal portals[IPCZ_MAX_PORTALS];
        size_t size, count;
        uint64_t number;
        int value;
        pthread_mutex_lock(&with->lock);
        ipcz_status status = ipcz_get(&with->world, 1, ipcz_first(1, 0, 2), bytes, IPCZ_MAX_BYTES, &size, portals, IPCZ_MAX_PORTALS, &count, &number);
        pthread_mutex_unlock(&with->lock);
        if (status == IPCZ_EMPTY) {
            sched_yield();
            continue;
        }
        if (status) return status;
        bytes[size] = 0;
        *in_order += sscanf((const char *)bytes, "%d", &value) == 1 && value == got && number == (uint64_t)got;
        got++;
    }
    return IPCZ_OK;
}

static void *put_thread(void *with) { return (void *)(uintptr_t)put_all(with); }

int main(void) {
    shared with = { PTHREAD_MUTEX_INITIALIZER, IPCZ_WORLD_INIT };
    pthread_t thread;
    void *put;
    int in_order = 0;
    if (ipcz_create(2, 1, &with.world) || pthread_create(&thread, NULL, put_thread, &with)) return 1;
    ipcz_status got = get_all(&with, &in_order);
    pthread_join(thread, &put);
    printf("put: %s\ngot: %s\nin order: %d\n", ipcz_status_name((ipcz_status)(uintptr_t)put), ipcz_status_name(got), in_order);
    ipcz_destroy(&with.world);
    return 0;
}
