/* Back-pressure by credits: the receiver grants four, and one more for each parcel that it has dealt with; the sender sleeps while it has none. loop_credits
 * [PARCELS [CREDITS]] sends so many. */
#include "ipcz_loop.h"

#include <pthread.h>
#include <stdatomic.h>
#include <stdio.h>
#include <stdlib.h>

static long parcels = 1000, granted = 4;
static atomic_long dealt_with;

/* Sends once there is a credit, and sleeps until then. Each parcel that comes from the receiver is one credit. */
static ipcz_status send_for_credit(ipcz_node *node, ipcz_portal at, long *credits, const void *bytes, size_t size) {
    ipcz_parcel credit = IPCZ_PARCEL(NULL, 0);
    ipcz_status status;
    while (!(status = ipcz_node_recv(node, at, &credit, *credits ? 0 : -1))) ++*credits;
    if (status == IPCZ_EMPTY) status = ipcz_node_send(node, at, bytes, size, NULL, 0);
    if (!status) --*credits;
    return status;
}

/* Grants credits, and one more for each parcel, all of which come in order. */
static void *receives(void *given) {
    ipcz_node *node = given;
    ipcz_portal at = ipcz_node_first(node, 0);
    long number, count = 0;
    ipcz_parcel parcel = IPCZ_PARCEL(&number, sizeof number);
    for (long i = 0; i < granted; i++) ipcz_node_send(node, at, NULL, 0, NULL, 0);
    while (!ipcz_node_recv(node, at, &parcel, -1)) {
        count += number == count;
        atomic_fetch_add(&dealt_with, 1);
        ipcz_node_send(node, at, NULL, 0, NULL, 0);
    }
    if (count != parcels) exit(1);
    return NULL;
}

int main(int argc, char **argv) {
    ipcz_loop *loop;
    pthread_t receiver;
    long credits = 0, most = 0;
    if (argc > 1) parcels = atol(argv[1]);
    if (argc > 2) granted = atol(argv[2]);
    if (ipcz_loop_create(2, 0, &loop)) return 1;
    ipcz_node *node = ipcz_loop_node(loop, 0);
    if (pthread_create(&receiver, NULL, receives, ipcz_loop_node(loop, 1))) return 1;
    for (long i = 0; i < parcels; i++) {
        if (send_for_credit(node, ipcz_node_first(node, 1), &credits, &i, sizeof i)) return 1;
        long ahead = i + 1 - atomic_load(&dealt_with);
        if (ahead > most) most = ahead;
    }
    ipcz_node_close(node, ipcz_node_first(node, 1));
    pthread_join(receiver, NULL);
    printf("%ld parcels, never more than %ld ahead: %d\n", parcels, granted, most <= granted);
    ipcz_loop_destroy(loop);
    return 0;
}
