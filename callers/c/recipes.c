/* The recipes of docs/RECIPES.md, on one thread: each prints what its nodes get. */
#include "ipcz_portals.h"

#include <stdio.h>
#include <stdlib.h>
#include <string.h>

/* Ends the program if a call wasn't done. */
static void well(ipcz_status status) {
    if (!status) return;
    printf("%s\n", ipcz_status_name(status));
    exit(1);
}

/* Puts a text at a portal of a node, and with it a portal, if one is given. */
static void put(ipcz_world *world, uint8_t node, ipcz_portal at, const char *text, const ipcz_portal *with) {
    uint64_t number;
    well(ipcz_put(world, node, at, text, strlen(text), with, with ? 1 : 0, &number));
}

/* Gets the next parcel, prints it or why there is none, and answers the portal that came with it. */
static ipcz_portal get(ipcz_world *world, uint8_t node, ipcz_portal at) {
    static uint8_t bytes[IPCZ_MAX_BYTES];
    ipcz_portal portals[IPCZ_MAX_PORTALS] = { { 0, false } };
    uint64_t number;
    size_t size, count;
    ipcz_status status = ipcz_get(world, node, at, bytes, sizeof bytes, &size, portals, IPCZ_MAX_PORTALS, &count, &number);
    if (status)
        printf("node %d: %s\n", node, ipcz_status_name(status));
    else
        printf("node %d: %.*s\n", node, (int)size, (const char *)bytes);
    return portals[0];
}

/* Lets the nodes work until all that was put has come to where it can be got. */
static void rest(ipcz_world *world) {
    uint64_t acts;
    bool quiet;
    well(ipcz_settle(world, 1000, &acts, &quiet));
    if (!quiet) exit(1);
}

static void request_and_reply(ipcz_world *world) {
    ipcz_portal answer, to;
    well(ipcz_open(world, 0, &answer, &to));
    put(world, 0, ipcz_first(0, 1, 4), "how much?", &to);
    rest(world);
    ipcz_portal reply = get(world, 1, ipcz_first(1, 0, 4));
    put(world, 1, reply, "42", NULL);
    well(ipcz_close(world, 1, reply));
    rest(world);
    get(world, 0, answer);
    get(world, 0, answer);
    well(ipcz_close(world, 0, answer));
}

static void fan_out(ipcz_world *world) {
    ipcz_portal kept[3], sent;
    for (uint8_t node = 1; node < 4; node++) {
        well(ipcz_open(world, 0, &kept[node - 1], &sent));
        put(world, 0, ipcz_first(0, node, 4), "news come here", &sent);
    }
    for (int i = 0; i < 3; i++) put(world, 0, kept[i], "news", NULL);
    rest(world);
    for (uint8_t node = 1; node < 4; node++) get(world, node, get(world, node, ipcz_first(node, 0, 4)));
}

static void handing_a_channel_over(ipcz_world *world) {
    ipcz_portal client, server;
    well(ipcz_open(world, 0, &client, &server));
    put(world, 0, client, "one", NULL);
    put(world, 0, ipcz_first(0, 1, 4), "serve this", &server);
    rest(world);
    server = get(world, 1, ipcz_first(1, 0, 4));
    get(world, 1, server);
    put(world, 0, client, "two", NULL);
    put(world, 1, ipcz_first(1, 2, 4), "you go on", &server);
    put(world, 0, client, "three", NULL);
    rest(world);
    server = get(world, 2, ipcz_first(2, 1, 4));
    get(world, 2, server);
    get(world, 2, server);
}

/* Sends a text if a credit is left, and answers whether one was. The receiver's parcels are credits, one each. */
static bool send_for_credit(ipcz_world *world, ipcz_portal at, int *credits, const char *text) {
    uint8_t bytes[1];
    ipcz_portal portals[1];
    uint64_t number;
    size_t size, count;
    while (!ipcz_get(world, 0, at, bytes, sizeof bytes, &size, portals, 1, &count, &number)) (*credits)++;
    if (!*credits) return false;
    put(world, 0, at, text, NULL);
    (*credits)--;
    return true;
}

static void back_pressure_by_credits(ipcz_world *world) {
    ipcz_portal at = ipcz_first(0, 3, 4), receives = ipcz_first(3, 0, 4);
    int credits = 0;
    put(world, 3, receives, "+", NULL);
    put(world, 3, receives, "+", NULL);
    rest(world);
    printf("sent: %d", send_for_credit(world, at, &credits, "item 1"));
    printf(" %d", send_for_credit(world, at, &credits, "item 2"));
    printf(" %d\n", send_for_credit(world, at, &credits, "item 3"));
    rest(world);
    get(world, 3, receives);
    put(world, 3, receives, "+", NULL);
    rest(world);
    printf("sent: %d\n", send_for_credit(world, at, &credits, "item 3"));
}

static void shutting_down(ipcz_world *world) {
    ipcz_portal ends, reads;
    uint64_t number;
    well(ipcz_open(world, 0, &ends, &reads));
    put(world, 0, ipcz_first(0, 1, 4), "take it", &reads);
    rest(world);
    reads = get(world, 1, ipcz_first(1, 0, 4));
    put(world, 0, ends, "last word", NULL);
    well(ipcz_close(world, 0, ends));
    rest(world);
    get(world, 1, reads);
    get(world, 1, reads);
    printf("put: %s\n", ipcz_status_name(ipcz_put(world, 1, reads, "too late", 8, NULL, 0, &number)));
    well(ipcz_close(world, 1, reads));
}

int main(void) {
    void (*const recipes[])(ipcz_world *) = { request_and_reply, fan_out, handing_a_channel_over, back_pressure_by_credits, shutting_down };
    for (size_t i = 0; i < sizeof recipes / sizeof *recipes; i++) {
        ipcz_world world = IPCZ_WORLD_INIT;
        well(ipcz_create(4, 20, &world));
        printf("recipe %zu\n", i + 1);
        recipes[i](&world);
        ipcz_destroy(&world);
    }
    return 0;
}
