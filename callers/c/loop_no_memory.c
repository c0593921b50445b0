/* A parcel with a portal is sent to a sleeping thread with no memory at the first allocation of the send, then at its second, and so on until none is
 * refused. A send that is refused sends nothing; if only a turn was refused behind it the sleeper is told, calls again, and gets the parcel once. It is
 * linked with --wrap=malloc and --wrap=realloc. */
#include "ipcz_loop.h"

#include <pthread.h>
#include <stdatomic.h>
#include <stdio.h>
#include <stdlib.h>

void *__real_malloc(size_t size);
void *__real_realloc(void *at, size_t size);
void *__wrap_malloc(size_t size);
void *__wrap_realloc(void *at, size_t size);

/* How many allocations are granted yet; none is refused while it is below 0. */
static atomic_long granted = -1;
static atomic_bool was_refused;

static bool is_granted(void) {
    long left = atomic_load(&granted);
    if (left > 0) atomic_fetch_sub(&granted, 1);
    if (left == 0) atomic_store(&was_refused, true);
    return left != 0;
}

void *__wrap_malloc(size_t size) { return is_granted() ? __real_malloc(size) : NULL; }

void *__wrap_realloc(void *at, size_t size) { return is_granted() ? __real_realloc(at, size) : NULL; }

typedef struct {
    ipcz_node *node;
    ipcz_status status;
    int told;
    ipcz_parcel parcel;
} sleeper;

static void *sleeps(void *given) {
    sleeper *me = given;
    while ((me->status = ipcz_node_recv(me->node, ipcz_node_first(me->node, 0), &me->parcel, -1)) == IPCZ_OUT_OF_MEMORY) {
        me->told = 1;
        sched_yield();
    }
    return NULL;
}

/* Waits until a thread has fallen asleep at a node, which only the header's own fields tell. */
static void await_sleeper(ipcz_node *node) {
    bool is_asleep = false;
    while (!is_asleep) {
        sched_yield();
        pthread_mutex_lock(&node->lock);
        is_asleep = node->waiters != NULL;
        pthread_mutex_unlock(&node->lock);
    }
}

/* How often the send was refused: once or never; whether a turn was is added to told. */
static int send_with(long grants, int *told) {
    char text[8];
    ipcz_loop *loop;
    ipcz_portal kept, sent;
    pthread_t thread;
    if (ipcz_loop_create(2, 0, &loop) || ipcz_node_open(ipcz_loop_node(loop, 0), &kept, &sent)) exit(1);
    ipcz_node *node = ipcz_loop_node(loop, 0);
    sleeper me = { ipcz_loop_node(loop, 1), IPCZ_EMPTY, 0, IPCZ_PARCEL(text, sizeof text) };
    if (pthread_create(&thread, NULL, sleeps, &me)) exit(1);
    await_sleeper(me.node);
    atomic_store(&was_refused, false);
    atomic_store(&granted, grants);
    ipcz_status status = ipcz_node_send(node, ipcz_node_first(node, 1), "it", 2, &sent, 1);
    atomic_store(&granted, -1);
    if (status == IPCZ_OUT_OF_MEMORY && ipcz_node_send(node, ipcz_node_first(node, 1), "it", 2, &sent, 1)) exit(1);
    pthread_join(thread, NULL);
    bool came = !me.status && me.parcel.size == 2 && me.parcel.count == 1;
    if (!came || ipcz_node_recv(me.node, ipcz_node_first(me.node, 0), &me.parcel, 0) != IPCZ_EMPTY) {
        printf("with %ld allocations: %s\n", grants, ipcz_status_name(me.status));
        exit(1);
    }
    ipcz_loop_destroy(loop);
    *told += me.told;
    return status == IPCZ_OUT_OF_MEMORY;
}

int main(void) {
    int refused = 0, told = 0;
    long grants = 0;
    do refused += send_with(grants++, &told);
    while (atomic_load(&was_refused));
    printf("sends refused: %s, sleepers told: %s, each parcel came once\n", refused ? "some" : "none", told ? "some" : "none");
    return 0;
}
