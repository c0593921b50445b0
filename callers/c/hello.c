#include <ipcz_portals.h>
#include <stdio.h>

int main(void) {
    ipcz_world world = IPCZ_WORLD_INIT;
    ipcz_portal left = ipcz_first(0, 1, 2), right = ipcz_first(1, 0, 2), portals[IPCZ_MAX_PORTALS];
    uint8_t bytes[IPCZ_MAX_BYTES];
    uint64_t number, acts;
    size_t size, count;
    bool quiet;
    if (ipcz_create(2, 1, &world)) return 1;
    ipcz_put(&world, 0, left, "hello", 5, NULL, 0, &number);
    ipcz_settle(&world, 1000, &acts, &quiet);
    ipcz_status status = ipcz_get(&world, 1, right, bytes, sizeof bytes, &size, portals, IPCZ_MAX_PORTALS, &count, &number);
    printf("%s: %.*s\n", ipcz_status_name(status), status ? 0 : (int)size, (char *)bytes);
    ipcz_destroy(&world);
}
