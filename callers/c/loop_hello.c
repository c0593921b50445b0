/* A thread sleeps until a parcel comes, and says what it was. */
#include <ipcz_loop.h>
#include <stdio.h>

static void *listens(void *node) {
    char text[100];
    ipcz_parcel parcel = IPCZ_PARCEL(text, sizeof text);
    while (!ipcz_node_recv(node, ipcz_node_first(node, 0), &parcel, -1)) printf("%.*s\n", (int)parcel.size, text);
    return NULL;
}

int main(void) {
    ipcz_loop *loop;
    pthread_t thread;
    if (ipcz_loop_create(2, 0, &loop) || pthread_create(&thread, NULL, listens, ipcz_loop_node(loop, 1))) return 1;
    ipcz_node *node = ipcz_loop_node(loop, 0);
    ipcz_node_send(node, ipcz_node_first(node, 1), "hello", 5, NULL, 0);
    ipcz_node_close(node, ipcz_node_first(node, 1));
    pthread_join(thread, NULL);
    ipcz_loop_destroy(loop);
}
