/* A channel handed over: the server of a conversation gives its portal to another node, which goes on. The client sends as before, and is never asked to
 * wait: what it sends meanwhile follows the portal, in order. The answers are printed. */
#include "ipcz_loop.h"

#include <pthread.h>
#include <stdio.h>
#include <stdlib.h>

/* Serves the channel that comes from a node before this one: answers so many words, and hands the channel on to the node behind this one. */
static void serve(ipcz_node *node, int words, bool is_last) {
    char text[100], answer[120];
    const uint8_t me = ipcz_node_number(node);
    ipcz_parcel parcel = IPCZ_PARCEL(text, sizeof text);
    if (ipcz_node_recv(node, ipcz_node_first(node, (uint8_t)(me - 1)), &parcel, -1) || parcel.count != 1) exit(1);
    const ipcz_portal channel = parcel.portals[0];
    for (int i = 0; i < words; i++) {
        if (ipcz_node_recv(node, channel, &parcel, -1)) exit(1);
        int size = snprintf(answer, sizeof answer, "node %d heard %.*s", me, (int)parcel.size, text);
        if (ipcz_node_send(node, channel, answer, (size_t)size, NULL, 0)) exit(1);
    }
    if (is_last) ipcz_node_close(node, channel);
    else ipcz_node_send(node, ipcz_node_first(node, (uint8_t)(me + 1)), "you go on", 9, &channel, 1);
}

static void *first(void *node) { return serve(node, 1, false), NULL; }

static void *second(void *node) { return serve(node, 2, true), NULL; }

int main(void) {
    const char *words[] = { "one", "two", "three" };
    char text[120];
    ipcz_loop *loop;
    pthread_t servers[2];
    ipcz_portal client, server;
    if (ipcz_loop_create(3, 0, &loop)) return 1;
    ipcz_node *node = ipcz_loop_node(loop, 0);
    if (pthread_create(&servers[0], NULL, first, ipcz_loop_node(loop, 1)) || pthread_create(&servers[1], NULL, second, ipcz_loop_node(loop, 2))) return 1;
    if (ipcz_node_open(node, &client, &server) || ipcz_node_send(node, ipcz_node_first(node, 1), "serve this", 10, &server, 1)) return 1;
    for (int i = 0; i < 3; i++)
        if (ipcz_node_send(node, client, words[i], strlen(words[i]), NULL, 0)) return 1;
    ipcz_parcel answer = IPCZ_PARCEL(text, sizeof text);
    ipcz_status status;
    while (!(status = ipcz_node_recv(node, client, &answer, -1))) printf("%.*s\n", (int)answer.size, text);
    printf("%s\n", ipcz_status_name(status));
    for (int i = 0; i < 2; i++) pthread_join(servers[i], NULL);
    ipcz_loop_destroy(loop);
    return 0;
}
