/* How long a parcel takes between two threads that sleep until it comes, and how often they sleep: two nodes of a loop, of which each thread has one,
 * and a ball that goes to and fro. measure_loop [ROUNDS [TIMES [NODES]]] prints, once for each time, the microseconds that pass for a parcel and how
 * often a thread slept for it; a loop of more than two nodes has a sleeping thread at each of the others. */
#include "ipcz_loop.h"

#include <pthread.h>
#include <stdio.h>
#include <stdlib.h>
#include <sys/resource.h>
#include <time.h>

static long rounds = 50000;
static ipcz_loop *loop;

static double now(void) {
    struct timespec time;
    clock_gettime(CLOCK_MONOTONIC, &time);
    return (double)time.tv_sec * 1e6 + (double)time.tv_nsec / 1e3;
}

/* How often the threads of the program gave their processor back to wait for something. */
static long sleeps(void) {
    struct rusage used;
    getrusage(RUSAGE_SELF, &used);
    return used.ru_nvcsw;
}

static void *returns(void *unused) {
    char text[16];
    ipcz_node *node = ipcz_loop_node(loop, 1);
    ipcz_portal at = ipcz_node_first(node, 0);
    ipcz_parcel parcel = IPCZ_PARCEL(text, sizeof text);
    while (!ipcz_node_recv(node, at, &parcel, -1))
        if (ipcz_node_send(node, at, text, parcel.size, NULL, 0)) exit(1);
    return unused;
}

/* Waits for what never comes. */
static void *idles(void *node) {
    ipcz_parcel parcel = IPCZ_PARCEL(NULL, 0);
    ipcz_node_recv(node, ipcz_node_first(node, 0), &parcel, -1);
    return NULL;
}

static bool goes_to_and_fro(void) {
    char text[16] = "0123456789abcde";
    ipcz_node *node = ipcz_loop_node(loop, 0);
    ipcz_portal at = ipcz_node_first(node, 1);
    ipcz_parcel parcel = IPCZ_PARCEL(text, sizeof text);
    for (long i = 0; i < rounds; i++)
        if (ipcz_node_send(node, at, text, sizeof text, NULL, 0) || ipcz_node_recv(node, at, &parcel, -1)) return false;
    return true;
}

int main(int argc, char **argv) {
    if (argc > 1) rounds = atol(argv[1]);
    int times = argc > 2 ? atoi(argv[2]) : 5, nodes = argc > 3 ? atoi(argv[3]) : 2;
    pthread_t threads[IPCZ_MAX_NODES];
    if (rounds < 1 || nodes < 2 || nodes > IPCZ_MAX_NODES || ipcz_loop_create((uint8_t)nodes, 0, &loop)) return 1;
    for (int i = 1; i < nodes; i++) pthread_create(&threads[i], NULL, i == 1 ? returns : idles, ipcz_loop_node(loop, (uint8_t)i));
    for (int i = 0; i < times; i++) {
        long slept = sleeps();
        double begun = now();
        if (!goes_to_and_fro()) return 1;
        double passed = now() - begun;
        printf("%.2f microseconds a parcel, %.3f sleeps\n", passed / (2.0 * (double)rounds), (double)(sleeps() - slept) / (2.0 * (double)rounds));
    }
    ipcz_loop_stop(loop);
    for (int i = 1; i < nodes; i++) pthread_join(threads[i], NULL);
    ipcz_loop_destroy(loop);
    return 0;
}
