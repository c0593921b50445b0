/* Request and reply: the asker opens a pair and sends one portal of it along; whoever has the request answers there and closes it. The server is a thread
 * that sleeps until a request comes. What the asker gets is printed. */
#include "ipcz_loop.h"

#include <pthread.h>
#include <stdio.h>
#include <stdlib.h>

/* Answers each request "A * B" at the portal that came with it, until no more can come. */
static void *serve(void *given) {
    ipcz_node *node = given;
    char text[100], answer[100];
    ipcz_parcel request = IPCZ_PARCEL(text, sizeof text - 1);
    while (!ipcz_node_recv(node, ipcz_node_first(node, 0), &request, -1)) {
        text[request.size] = 0;
        int a = 0, b = 0;
        if (request.count != 1 || sscanf(text, "%d * %d", &a, &b) != 2) exit(1);
        int size = snprintf(answer, sizeof answer, "%d", a * b);
        ipcz_node_send(node, request.portals[0], answer, (size_t)size, NULL, 0);
        ipcz_node_close(node, request.portals[0]);
    }
    return NULL;
}

/* Asks, and sleeps until the answer comes. */
static ipcz_status ask(ipcz_node *node, const char *text) {
    char bytes[100];
    ipcz_parcel answer = IPCZ_PARCEL(bytes, sizeof bytes);
    ipcz_portal kept, sent;
    ipcz_status status = ipcz_node_open(node, &kept, &sent);
    if (!status) status = ipcz_node_send(node, ipcz_node_first(node, 1), text, strlen(text), &sent, 1);
    if (!status) status = ipcz_node_recv(node, kept, &answer, -1);
    if (status) return status;
    printf("%s = %.*s", text, (int)answer.size, bytes);
    printf(", then %s\n", ipcz_status_name(ipcz_node_recv(node, kept, &answer, -1)));
    return ipcz_node_close(node, kept);
}

int main(void) {
    ipcz_loop *loop;
    pthread_t server;
    if (ipcz_loop_create(2, 0, &loop) || pthread_create(&server, NULL, serve, ipcz_loop_node(loop, 1))) return 1;
    ipcz_node *node = ipcz_loop_node(loop, 0);
    if (ask(node, "6 * 7") || ask(node, "111 * 111")) return 1;
    ipcz_node_close(node, ipcz_node_first(node, 1));
    pthread_join(server, NULL);
    ipcz_loop_destroy(loop);
    return 0;
}
