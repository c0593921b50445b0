/* Many sleepers at once: eight threads of node 0 have a channel each, send a number there and sleep until it is answered, while the channels' other portals
 * travel round nodes 1 to 3, one thread of which sleeps at all that it has. loop_stress [PARCELS] sends so many at each channel; each is answered once
 * and in order, or the program ends with what was otherwise. */
#include "ipcz_loop.h"

#include <pthread.h>
#include <stdio.h>
#include <stdlib.h>

enum { NODES = 4, CHANNELS = 8, AT_A_NODE = 7, MOST = NODES + CHANNELS };

static ipcz_loop *loop;
static uint32_t parcels = 250;

static void well(ipcz_status status, const char *what) {
    if (!status) return;
    printf("%s: %s\n", what, ipcz_status_name(status));
    exit(1);
}

/* Sends numbers at a channel of its own, and sleeps until each is answered. */
static void *asks(void *unused) {
    ipcz_node *node = ipcz_loop_node(loop, 0);
    ipcz_portal kept, sent;
    uint32_t answer;
    ipcz_parcel parcel = IPCZ_PARCEL(&answer, sizeof answer);
    well(ipcz_node_open(node, &kept, &sent), "open");
    well(ipcz_node_send(node, ipcz_node_first(node, 1), NULL, 0, &sent, 1), "the channel");
    for (uint32_t i = 0; i < parcels; i++) {
        well(ipcz_node_send(node, kept, &i, sizeof i, NULL, 0), "question");
        well(ipcz_node_recv(node, kept, &parcel, 60000), "answer");
        if (parcel.size != sizeof i || answer != i || parcel.number != i) well(IPCZ_BAD_DATA, "answer");
    }
    well(ipcz_node_close(node, kept), "close");
    return unused;
}

/* The portals that a thread sleeps at: those of the first pairs, and behind them the channels that it has. */
typedef struct {
    ipcz_node *node;
    ipcz_portal at[MOST];
    size_t count;
    int heard[MOST];
} host;

static void take_out(host *me, size_t i) {
    me->count--;
    me->at[i] = me->at[me->count];
    me->heard[i] = me->heard[me->count];
}

/* Answers a number. Each channel goes on to the next node after some. */
static void answers(host *me, size_t i, const uint32_t *number) {
    const uint8_t next = (uint8_t)(ipcz_node_number(me->node) % 3 + 1);
    well(ipcz_node_send(me->node, me->at[i], number, sizeof *number, NULL, 0), "answering");
    if (++me->heard[i] < AT_A_NODE) return;
    well(ipcz_node_send(me->node, ipcz_node_first(me->node, next), NULL, 0, &me->at[i], 1), "handing over");
    take_out(me, i);
}

static void *hosts(void *node) {
    host me = { .node = node };
    uint32_t number = 0;
    size_t which = 0;
    ipcz_parcel parcel = IPCZ_PARCEL(&number, sizeof number);
    for (uint8_t i = 0; i < NODES; i++)
        if (i != ipcz_node_number(node)) me.at[me.count++] = ipcz_node_first(node, i);
    for (;;) {
        ipcz_status status = ipcz_node_recv_any(node, me.at, me.count, &parcel, &which, -1);
        if (status == IPCZ_STOPPED) return NULL;
        if (status == IPCZ_PEER_CLOSED && which >= NODES - 1) {
            well(ipcz_node_close(node, me.at[which]), "closing");
            take_out(&me, which);
            continue;
        }
        well(status, "receiving");
        if (which >= NODES - 1) {
            answers(&me, which, &number);
        } else {
            me.heard[me.count] = 0;
            me.at[me.count++] = parcel.portals[0];
        }
    }
}

int main(int argc, char **argv) {
    pthread_t asking[CHANNELS], hosting[NODES];
    if (argc > 1) parcels = (uint32_t)atol(argv[1]);
    well(ipcz_loop_create(NODES, 0, &loop), "create");
    for (uint8_t i = 1; i < NODES; i++) pthread_create(&hosting[i], NULL, hosts, ipcz_loop_node(loop, i));
    for (int i = 0; i < CHANNELS; i++) pthread_create(&asking[i], NULL, asks, NULL);
    for (int i = 0; i < CHANNELS; i++) pthread_join(asking[i], NULL);
    ipcz_loop_stop(loop);
    for (uint8_t i = 1; i < NODES; i++) pthread_join(hosting[i], NULL);
    ipcz_loop_destroy(loop);
    printf("all answered in order\n");
    return 0;
}
