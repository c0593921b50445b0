/* Each call is made with no memory at its first allocation, then at its second, and so on until it is done: what is refused changes nothing,
 * so all comes as it would have. It is linked with --wrap=malloc and --wrap=realloc. */
#include "ipcz_portals.h"

#include <stdio.h>
#include <stdlib.h>
#include <string.h>

void *__real_malloc(size_t size);
void *__real_realloc(void *at, size_t size);
void *__wrap_malloc(size_t size);
void *__wrap_realloc(void *at, size_t size);

/* How many allocations are granted yet; none is refused while it is below 0. */
static long granted = -1;

static bool is_granted(void) {
    if (granted > 0) granted--;
    else if (granted == 0) return false;
    return true;
}

void *__wrap_malloc(size_t size) { return is_granted() ? __real_malloc(size) : NULL; }

void *__wrap_realloc(void *at, size_t size) { return is_granted() ? __real_realloc(at, size) : NULL; }

/* Makes a call until it isn't refused for want of memory, and notes whether it was at all. */
#define INSIST(call, status, refused)                                                                                \
    for (long grants = 0;; grants++) {                                                                               \
        granted = grants;                                                                                            \
        (status) = (call);                                                                                           \
        granted = -1;                                                                                                \
        if ((status) != IPCZ_OUT_OF_MEMORY) break;                                                                   \
        (refused) = true;                                                                                            \
    }

static void print(const char *name, ipcz_status status, bool refused) {
    printf("%s: %s%s\n", name, ipcz_status_name(status), refused ? ", after OutOfMemory" : "");
}

/* The same of cells: a node opens a pair and sends one of its portals to the other. */
static void with_cells(void) {
    ipcz_cell cells[] = { IPCZ_CELL_INIT, IPCZ_CELL_INIT };
    ipcz_portal left = ipcz_first(0, 1, 2), right = ipcz_first(1, 0, 2), kept, sent, portals[IPCZ_MAX_PORTALS];
    uint8_t bytes[IPCZ_MAX_BYTES];
    uint64_t number, first = 1, second = 1;
    size_t size, count;
    bool created = false, opened = false, put = false, acted = false, got = false, closed = false;
    ipcz_status status;
    INSIST(ipcz_cells_create(8, cells, 2), status, created);
    print("create of cells", status, created);
    INSIST(ipcz_cell_open(&cells[0], &kept, &sent), status, opened);
    print("open", status, opened);
    INSIST(ipcz_cell_put(&cells[0], left, "a portal", 8, &sent, 1, &number), status, put);
    print("put", status, put);
    while (first + second > 0) {
        INSIST(ipcz_cell_acts(&cells[0], 1000, &first), status, acted);
        if (!status) INSIST(ipcz_cell_acts(&cells[1], 1000, &second), status, acted);
        if (status) break;
    }
    print("acts", status, acted);
    INSIST(ipcz_cell_get(&cells[1], right, bytes, sizeof bytes, &size, portals, IPCZ_MAX_PORTALS, &count, &number), status, got);
    print("get", status, got);
    printf("\"%.*s\", %zu with it\n", (int)size, (const char *)bytes, count);
    INSIST(ipcz_cell_close(&cells[0], kept), status, closed);
    print("close", status, closed);
    ipcz_cell_destroy(&cells[0]);
    ipcz_cell_destroy(&cells[1]);
}

int main(void) {
    ipcz_world world = IPCZ_WORLD_INIT;
    ipcz_portal left = ipcz_first(0, 1, 2), right = ipcz_first(1, 0, 2), kept, sent, portals[IPCZ_MAX_PORTALS];
    uint8_t bytes[IPCZ_MAX_BYTES];
    uint64_t number, acts;
    size_t size, count;
    bool quiet = false, created = false, added = false, opened = false, put = false, settled = false, got = false, closed = false;
    ipcz_status status;
    INSIST(ipcz_create(2, 8, &world), status, created);
    print("create", status, created);
    INSIST(ipcz_add_words(&world, 1000), status, added);
    print("add words", status, added);
    printf("%d left\n", (int)ipcz_words_left(&world));
    INSIST(ipcz_open(&world, 0, &kept, &sent), status, opened);
    print("open", status, opened);
    INSIST(ipcz_put(&world, 0, left, "a portal", 8, &sent, 1, &number), status, put);
    print("put", status, put);
    INSIST(ipcz_put(&world, 0, kept, "over it", 7, NULL, 0, &number), status, put);
    while (!quiet) {
        INSIST(ipcz_settle(&world, 1000, &acts, &quiet), status, settled);
        if (status) break;
    }
    print("settle", status, settled);
    INSIST(ipcz_get(&world, 1, right, bytes, sizeof bytes, &size, portals, IPCZ_MAX_PORTALS, &count, &number), status, got);
    print("get", status, got);
    printf("\"%.*s\", %zu with it\n", (int)size, (const char *)bytes, count);
    INSIST(ipcz_get(&world, 1, sent, bytes, sizeof bytes, &size, portals, IPCZ_MAX_PORTALS, &count, &number), status, got);
    printf("\"%.*s\", %zu with it\n", (int)size, (const char *)bytes, count);
    INSIST(ipcz_close(&world, 0, kept), status, closed);
    print("close", status, closed);
    ipcz_destroy(&world);
    with_cells();
    return 0;
}
