/* A fan-out of workers: three threads sleep at one node until a job comes, and whoever slept longest gets the next one. A job is a number;
 * its square goes back at the same pair. What all squares add up to is printed. */
#include "ipcz_loop.h"

#include <pthread.h>
#include <stdio.h>
#include <stdlib.h>

enum { WORKERS = 3, JOBS = 100 };

/* Takes jobs until no more can come. */
static void *work(void *given) {
    ipcz_node *node = given;
    ipcz_portal at = ipcz_node_first(node, 0);
    uint32_t job, square;
    ipcz_parcel parcel = IPCZ_PARCEL(&job, sizeof job);
    while (!ipcz_node_recv(node, at, &parcel, -1)) {
        square = job * job;
        if (ipcz_node_send(node, at, &square, sizeof square, NULL, 0)) exit(1);
    }
    return NULL;
}

int main(void) {
    ipcz_loop *loop;
    pthread_t workers[WORKERS];
    uint32_t square, sum = 0, jobs = 0;
    if (ipcz_loop_create(2, 0, &loop)) return 1;
    ipcz_node *node = ipcz_loop_node(loop, 0);
    ipcz_portal at = ipcz_node_first(node, 1);
    for (int i = 0; i < WORKERS; i++)
        if (pthread_create(&workers[i], NULL, work, ipcz_loop_node(loop, 1))) return 1;
    for (uint32_t job = 1; job <= JOBS; job++)
        if (ipcz_node_send(node, at, &job, sizeof job, NULL, 0)) return 1;
    ipcz_parcel parcel = IPCZ_PARCEL(&square, sizeof square);
    for (; jobs < JOBS && !ipcz_node_recv(node, at, &parcel, -1); jobs++) sum += square;
    printf("%u jobs, the squares add up to %u\n", (unsigned)jobs, (unsigned)sum);
    ipcz_node_close(node, at);
    for (int i = 0; i < WORKERS; i++) pthread_join(workers[i], NULL);
    ipcz_loop_destroy(loop);
    return 0;
}
