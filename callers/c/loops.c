/* What the calls of ipcz_loop.h answer: each line is printed by a part of main, and what stands in loops.out is by the comments of the header. */
#include "ipcz_loop.h"

#include <poll.h>
#include <pthread.h>
#include <stdio.h>
#include <stdlib.h>

static bool is_readable(int fd) {
    struct pollfd it = { .fd = fd, .events = POLLIN };
    return poll(&it, 1, 0) == 1;
}

static double seconds(void) {
    struct timespec time;
    clock_gettime(CLOCK_MONOTONIC, &time);
    return (double)time.tv_sec + (double)time.tv_nsec / 1e9;
}

static void say(ipcz_status status) { printf(" %s", ipcz_status_name(status)); }

static void tell(const char *what, size_t number) { printf(" %s %zu", what, number); }

static void limits(void) {
    ipcz_loop *loop;
    ipcz_portal a, b;
    tell("version", !strcmp(ipcz_version(), IPCZ_VERSION));
    printf("\nlimits:");
    say(ipcz_loop_create(0, 0, &loop));
    say(ipcz_loop_create(65, 0, &loop));
    say(ipcz_loop_create(8, 27, &loop));
    tell("no loop", loop == NULL);
    ipcz_loop_destroy(loop);
    say(ipcz_loop_create(8, 28, &loop));
    if (!loop) exit(1);
    tell("fresh and readable", is_readable(ipcz_node_fd(ipcz_loop_node(loop, 0))));
    say(ipcz_node_open(ipcz_loop_node(loop, 7), &a, &b));
    tell("last", ipcz_node_number(ipcz_loop_node(loop, 7)));
    tell("none", ipcz_loop_node(loop, 8) == NULL);
    ipcz_loop_destroy(loop);
}

static void parcels(ipcz_node *left, ipcz_node *right) {
    static uint8_t wide[IPCZ_MAX_BYTES], room[IPCZ_MAX_BYTES + 1];
    const ipcz_portal at = ipcz_node_first(left, 1), to = ipcz_node_first(right, 0);
    ipcz_parcel parcel = IPCZ_PARCEL(room, 3);
    for (size_t i = 0; i < sizeof wide; i++) wide[i] = (uint8_t)(i * 7);
    printf("\nsent:");
    say(ipcz_node_recv(right, to, &parcel, 0));
    say(ipcz_node_send(left, to, "", 0, NULL, 0));
    say(ipcz_node_send(left, at, room, sizeof room, NULL, 0));
    say(ipcz_node_send(left, at, "text", 4, NULL, 0));
    say(ipcz_node_send(left, at, NULL, 0, NULL, 0));
    say(ipcz_node_send(left, at, wide, sizeof wide, NULL, 0));
    printf("\nreceived:");
    say(ipcz_node_recv(right, to, &parcel, 0));
    tell("wants", parcel.size);
    parcel.room = sizeof room;
    say(ipcz_node_recv(right, to, &parcel, 0));
    tell((const char *)room, parcel.size);
    parcel.bytes = NULL;
    parcel.room = 0;
    say(ipcz_node_recv(right, to, &parcel, 0));
    tell("empty", parcel.size);
    say(ipcz_node_recv(right, to, &parcel, 0));
    tell("wants", parcel.size);
    parcel.bytes = room;
    parcel.room = parcel.size;
    say(ipcz_node_recv(right, to, &parcel, 0));
    tell("number", parcel.number);
    tell("same", !memcmp(wide, room, sizeof wide));
}

static void waiting(ipcz_node *node) {
    ipcz_parcel parcel = IPCZ_PARCEL(NULL, 0);
    double begun = seconds();
    printf("\n50 milliseconds:");
    say(ipcz_node_recv(node, ipcz_node_first(node, 1), &parcel, 50));
    double passed = seconds() - begun;
    tell("waited", passed >= 0.05 && passed < 5);
}

static void data(ipcz_node *left, ipcz_node *right, ipcz_portal kept, ipcz_portal sent) {
    int one = 0, two = 0;
    char text[8];
    ipcz_parcel parcel = IPCZ_PARCEL(text, sizeof text);
    printf("\ndata:");
    tell("none", ipcz_node_data(left, kept) == NULL);
    say(ipcz_node_set_data(left, sent, &one));
    say(ipcz_node_set_data(left, kept, &one));
    say(ipcz_node_set_data(left, sent, &two));
    tell("first", ipcz_node_data(left, kept) == &one);
    tell("second", ipcz_node_data(left, sent) == &two);
    say(ipcz_node_send(left, ipcz_node_first(left, 1), "it", 2, &sent, 1));
    say(ipcz_node_recv(right, ipcz_node_first(right, 0), &parcel, -1));
    tell("gone", ipcz_node_data(left, sent) == NULL);
    tell("not there", ipcz_node_data(right, sent) == NULL);
    say(ipcz_node_set_data(left, sent, &two));
    say(ipcz_node_set_data(left, kept, NULL));
    tell("forgotten", ipcz_node_data(left, kept) == NULL);
    say(ipcz_node_set_data(left, kept, &two));
}

static void looks(ipcz_node *left, ipcz_node *right, ipcz_portal kept, ipcz_portal sent) {
    ipcz_portal_status status;
    bool arrived = false;
    printf("\nlooks:");
    say(ipcz_node_look(left, sent, &status));
    say(ipcz_node_look(right, sent, &status));
    tell("next", status.next);
    tell("waiting", status.waiting);
    tell("bytes", status.size);
    tell("portals", status.count);
    tell("closed", status.peer_closed);
    say(ipcz_node_has_arrived(right, kept, &arrived));
    say(ipcz_node_has_arrived(left, kept, &arrived));
    tell("at home", arrived);
    say(ipcz_node_has_arrived(right, sent, &arrived));
    tell("moved", arrived);
}

static void portals(ipcz_node *left, ipcz_node *right) {
    ipcz_portal kept, sent;
    size_t which = 9;
    char text[8] = "";
    ipcz_parcel parcel = IPCZ_PARCEL(text, sizeof text);
    if (ipcz_node_open(left, &kept, &sent)) exit(1);
    data(left, right, kept, sent);
    const ipcz_portal two[] = { ipcz_node_first(right, 0), sent };
    printf("\nof two:");
    say(ipcz_node_recv_any(right, two, 2, &parcel, &which, 0));
    say(ipcz_node_send(left, kept, "moved", 5, NULL, 0));
    looks(left, right, kept, sent);
    printf("\nreceived at:");
    say(ipcz_node_recv_any(right, two, 2, &parcel, &which, -1));
    tell(text, which);
    say(ipcz_node_recv_any(right, two, 0, &parcel, NULL, -1));
    printf("\nclosed:");
    say(ipcz_node_close(left, kept));
    say(ipcz_node_close(left, kept));
    tell("gone", ipcz_node_data(left, kept) == NULL);
    say(ipcz_node_recv(right, sent, &parcel, -1));
    say(ipcz_node_send(right, sent, "", 0, NULL, 0));
    say(ipcz_node_close(right, sent));
}

static void descriptors(ipcz_node *left, ipcz_node *right) {
    const int fd = ipcz_node_fd(right);
    ipcz_parcel parcel = IPCZ_PARCEL(NULL, 0);
    printf("\ndescriptor:");
    tell("at first", is_readable(fd));
    tell("same", fd == ipcz_node_fd(right));
    say(ipcz_node_wait(right, 0));
    tell("told", is_readable(fd));
    say(ipcz_node_wait(right, 10));
    say(ipcz_node_send(left, ipcz_node_first(left, 1), "", 0, NULL, 0));
    say(ipcz_node_send(left, ipcz_node_first(left, 1), "", 0, NULL, 0));
    tell("sent", is_readable(fd));
    say(ipcz_node_wait(right, -1));
    tell("told", is_readable(fd));
    for (int i = 0; i < 3; i++) say(ipcz_node_recv(right, ipcz_node_first(right, 0), &parcel, 0));
}

typedef struct {
    ipcz_node *node;
    ipcz_portal at;
    ipcz_status status, wait;
    uint64_t number;
} sleeper;

static void *sleeps(void *given) {
    sleeper *me = given;
    ipcz_parcel parcel = IPCZ_PARCEL(NULL, 0);
    me->status = ipcz_node_recv(me->node, me->at, &parcel, -1);
    return NULL;
}

static void *waits(void *given) {
    sleeper *me = given;
    while (!(me->wait = ipcz_node_wait(me->node, -1))) {}
    return NULL;
}

/* Lets a moment pass, in which a thread falls asleep, mostly. */
static void moment(void) {
    struct timespec time = { 0, 20000000 };
    nanosleep(&time, NULL);
}

/* Waits until so many threads sleep at a node, which only the header's own fields tell. */
static void await_sleepers(ipcz_node *node, int wanted) {
    int sleepers = 0;
    while (sleepers != wanted) {
        sched_yield();
        sleepers = 0;
        pthread_mutex_lock(&node->lock);
        for (ipcz_waiter_ *it = node->waiters; it; it = it->next) sleepers++;
        pthread_mutex_unlock(&node->lock);
    }
}

static void *receives(void *given) {
    sleeper *me = given;
    char text[8];
    ipcz_parcel parcel = IPCZ_PARCEL(text, sizeof text);
    me->status = ipcz_node_recv(me->node, me->at, &parcel, -1);
    me->number = parcel.number;
    return NULL;
}

/* Three threads fall asleep at one portal, one after the other: the first of them gets the first parcel. */
static void turns_of_sleepers(ipcz_node *left, ipcz_node *right) {
    ipcz_portal kept, sent;
    pthread_t threads[3];
    sleeper sleepers[3];
    ipcz_parcel parcel = IPCZ_PARCEL(NULL, 0);
    if (ipcz_node_open(left, &kept, &sent) || ipcz_node_send(left, ipcz_node_first(left, 1), NULL, 0, &sent, 1)) exit(1);
    if (ipcz_node_recv(right, ipcz_node_first(right, 0), &parcel, -1)) exit(1);
    for (int i = 0; i < 3; i++) {
        sleepers[i] = (sleeper){ .node = right, .at = sent, .status = 9, .number = 9 };
        pthread_create(&threads[i], NULL, receives, &sleepers[i]);
        await_sleepers(right, i + 1);
    }
    for (int i = 0; i < 3; i++) ipcz_node_send(left, kept, "next", 4, NULL, 0);
    printf("\nin the order in which they came:");
    for (int i = 0; i < 3; i++) {
        pthread_join(threads[i], NULL);
        say(sleepers[i].status);
        tell("number", sleepers[i].number);
    }
    ipcz_node_close(left, kept);
    ipcz_node_close(right, sent);
}

static void ends_of_waiting(ipcz_loop *loop) {
    ipcz_node *left = ipcz_loop_node(loop, 0), *right = ipcz_loop_node(loop, 1);
    sleeper at_closed = { .node = left, .status = 9 }, at_first = { .node = right, .at = ipcz_node_first(right, 0), .status = 9, .wait = 9 };
    ipcz_portal peer;
    pthread_t threads[3];
    char text[1];
    ipcz_parcel parcel = IPCZ_PARCEL(text, sizeof text);
    if (ipcz_node_open(left, &at_closed.at, &peer)) exit(1);
    pthread_create(&threads[0], NULL, sleeps, &at_closed);
    pthread_create(&threads[1], NULL, sleeps, &at_first);
    pthread_create(&threads[2], NULL, waits, &at_first);
    moment();
    ipcz_node_close(left, at_closed.at);
    pthread_join(threads[0], NULL);
    ipcz_loop_stop(loop);
    for (int i = 1; i < 3; i++) pthread_join(threads[i], NULL);
    ipcz_loop_stop(loop);
    printf("\nsleepers, of a closed portal, and stopped:");
    say(at_closed.status);
    say(at_first.status);
    say(at_first.wait);
    printf("\nlater:");
    say(ipcz_node_wait(right, 0));
    tell("readable", is_readable(ipcz_node_fd(right)));
    say(ipcz_node_send(left, ipcz_node_first(left, 1), "x", 1, NULL, 0));
    for (int i = 0; i < 2; i++) say(ipcz_node_recv(right, at_first.at, &parcel, 0));
    printf("\n");
}

int main(void) {
    ipcz_loop *loop;
    limits();
    if (ipcz_loop_create(2, 0, &loop)) return 1;
    ipcz_node *left = ipcz_loop_node(loop, 0), *right = ipcz_loop_node(loop, 1);
    parcels(left, right);
    waiting(left);
    portals(left, right);
    descriptors(left, right);
    turns_of_sleepers(left, right);
    ends_of_waiting(loop);
    ipcz_loop_destroy(loop);
    return 0;
}
