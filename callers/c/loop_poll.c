/* An event loop of the program's own: one thread waits in epoll for a pipe, which stands for any socket, and for its node at once. Another thread sends three
 * parcels to the node and writes three lines into the pipe; each is counted. */
#include "ipcz_loop.h"

#include <pthread.h>
#include <stdio.h>
#include <sys/epoll.h>

enum { EACH = 3 };

static int ends[2];

static void *sends(void *given) {
    ipcz_node *node = given;
    for (int i = 0; i < EACH; i++) {
        if (ipcz_node_send(node, ipcz_node_first(node, 1), "news", 4, NULL, 0)) return given;
        if (write(ends[1], "line\n", 5) != 5) return given;
    }
    return NULL;
}

/* Receives all that has come to the node: how many parcels. First it says that it looks, so that what comes later makes the descriptor readable again. */
static int all_parcels(ipcz_node *node) {
    char text[8];
    int parcels = 0;
    ipcz_parcel parcel = IPCZ_PARCEL(text, sizeof text);
    ipcz_node_wait(node, 0);
    while (!ipcz_node_recv(node, ipcz_node_first(node, 0), &parcel, 0)) parcels += parcel.size == 4;
    return parcels;
}

int main(void) {
    ipcz_loop *loop;
    pthread_t thread;
    void *failed;
    int parcels = 0;
    long bytes = 0;
    if (ipcz_loop_create(2, 0, &loop) || pipe(ends)) return 1;
    ipcz_node *node = ipcz_loop_node(loop, 1);
    int sources = epoll_create1(0);
    struct epoll_event of_node = { .events = EPOLLIN, .data.fd = ipcz_node_fd(node) }, of_pipe = { .events = EPOLLIN, .data.fd = ends[0] }, ready;
    if (epoll_ctl(sources, EPOLL_CTL_ADD, of_node.data.fd, &of_node) || epoll_ctl(sources, EPOLL_CTL_ADD, ends[0], &of_pipe)) return 1;
    if (pthread_create(&thread, NULL, sends, ipcz_loop_node(loop, 0))) return 1;
    while (parcels < EACH || bytes < 5 * EACH) {
        char line[64];
        if (epoll_wait(sources, &ready, 1, 10000) != 1) return 1;
        if (ready.data.fd == ends[0]) bytes += read(ends[0], line, sizeof line);
        else parcels += all_parcels(node);
    }
    printf("parcels: %d, bytes of the pipe: %ld\n", parcels, bytes);
    pthread_join(thread, &failed);
    close(sources);
    close(ends[0]);
    close(ends[1]);
    ipcz_loop_destroy(loop);
    return failed != NULL;
}
