/* Four threads, each with its node's cell, on a table whose link words come back: requests with a fresh portal for their answer, pairs that are opened and
 * closed, and portals that go round all nodes; 20,000 of each. In the end each slot for links is to be had again.
 *
 * With two numbers as arguments each thread makes so many requests and opens so many pairs, and each of the 20 portals makes so many hops; and a portal
 * goes on only once it has arrived, so that memory stays as it is, also where the threads share processors. Ten million of each:
 *     ./lasting_threads 2500000 500000 */
#include "ipcz_portals.h"

#include <pthread.h>
#include <sched.h>
#include <stdatomic.h>
#include <stdio.h>
#include <stdlib.h>

enum { NODES = 4, FIRST_PAIRS = NODES * (NODES - 1) / 2, SLOTS = 256, AT_ONCE = 16, TRAVELLERS = 20 };

/* How many requests and pairs a thread makes, how many hops a portal makes, and whether it goes on only once it has arrived. */
static int rounds = 5000, most_hops = 1000;
static bool rests_on_its_way = false;

/* A request under way: the portal at which its answer is awaited. */
typedef struct request {
    ipcz_portal kept;
    bool awaits;
} request;

/* A portal that rests on its way, and how many hops it has made. */
typedef struct traveller {
    ipcz_portal portal;
    int hops;
} traveller;

/* What a thread has: its cell, its requests under way, the portals that rest there, and what it has done and served so far. */
typedef struct worker {
    ipcz_cell cell;
    uint8_t node;
    request requests[AT_ONCE];
    traveller resting[TRAVELLERS];
    int count, asked, answered, served, churned;
    ipcz_status wrong;
} worker;

static worker workers[NODES];
static atomic_int threads_done, travelled;
static atomic_bool has_failed;

static uint8_t node_behind(uint8_t node) { return (uint8_t)((node + 1) % NODES); }
static uint8_t node_before(uint8_t node) { return (uint8_t)((node + NODES - 1) % NODES); }

/* Opens a pair; again if another thread came between, and later if no slot is to be had now. */
static ipcz_status open_pair(worker *of, ipcz_portal *kept, ipcz_portal *sent) {
    ipcz_status status;
    while ((status = ipcz_cell_open(&of->cell, kept, sent)) == IPCZ_RACED) continue;
    return status;
}

/* Asks the next node, with a fresh portal for the answer. */
static ipcz_status ask(worker *of, request *it) {
    ipcz_portal sent;
    ipcz_status status = open_pair(of, &it->kept, &sent);
    if (status == IPCZ_NO_WORD) return IPCZ_OK;
    if (!status) status = ipcz_cell_put(&of->cell, ipcz_first(of->node, node_behind(of->node), NODES), "?", 1, &sent, 1, NULL);
    it->awaits = !status;
    of->asked++;
    return status;
}

/* Takes the answer, if it has come. */
static ipcz_status hear(worker *of, request *it) {
    uint8_t byte;
    ipcz_status status = ipcz_cell_get(&of->cell, it->kept, &byte, 1, NULL, NULL, 0, NULL, NULL);
    if (status == IPCZ_EMPTY) return IPCZ_OK;
    if (!status) status = ipcz_cell_close(&of->cell, it->kept);
    it->awaits = false;
    of->answered++;
    return status;
}

/* Opens a pair and closes both portals. */
static ipcz_status churn(worker *of) {
    ipcz_portal one, other;
    ipcz_status status = open_pair(of, &one, &other);
    if (status == IPCZ_NO_WORD) return IPCZ_OK;
    if (!status) status = ipcz_cell_close(&of->cell, one);
    if (!status) status = ipcz_cell_close(&of->cell, other);
    of->churned++;
    return status;
}

/* Passes a portal on that has made so many hops, or closes it behind the last. */
static ipcz_status pass_on(worker *of, ipcz_portal portal, int hops) {
    if (hops == most_hops) {
        travelled++;
        return ipcz_cell_close(&of->cell, portal);
    }
    const uint8_t text[4] = { '>', (uint8_t)hops, (uint8_t)(hops >> 8), (uint8_t)(hops >> 16) };
    return ipcz_cell_put(&of->cell, ipcz_first(of->node, node_behind(of->node), NODES), text, sizeof text, &portal, 1, NULL);
}

/* Passes those portals on that have arrived. */
static ipcz_status pass_arrived(worker *of) {
    int left = 0;
    ipcz_status status = IPCZ_OK;
    for (int i = 0; i < of->count; i++) {
        traveller it = of->resting[i];
        bool has_arrived = false;
        if (!status) status = ipcz_cell_has_arrived(&of->cell, it.portal, &has_arrived);
        if (status || !has_arrived) of->resting[left++] = it;
        else status = pass_on(of, it.portal, it.hops);
    }
    of->count = left;
    return status;
}

/* Takes a portal that has come and made so many hops. */
static ipcz_status take_in(worker *of, ipcz_portal portal, int hops) {
    if (!rests_on_its_way) return pass_on(of, portal, hops);
    of->resting[of->count++] = (traveller){ portal, hops };
    return IPCZ_OK;
}

/* Serves a parcel that has come from the node before, if there is one, and tells whether there was. */
static ipcz_status serve(worker *of, bool *came) {
    uint8_t text[4];
    size_t size, count;
    ipcz_portal portal;
    ipcz_status status = ipcz_cell_get(&of->cell, ipcz_first(of->node, node_before(of->node), NODES), text, sizeof text, &size, &portal, 1, &count, NULL);
    *came = !status;
    if (status == IPCZ_EMPTY) return IPCZ_OK;
    if (status || count != 1) return status ? status : IPCZ_STRANGER;
    if (text[0] == '>') return take_in(of, portal, (text[1] | text[2] << 8 | text[3] << 16) + 1);
    of->served++;
    status = ipcz_cell_put(&of->cell, portal, "!", 1, NULL, 0, NULL);
    return status ? status : ipcz_cell_close(&of->cell, portal);
}

/* One round of a thread: turns of its node, all that has come, and what it has to do itself. */
static ipcz_status go_on(worker *of) {
    bool came = true;
    ipcz_status status = ipcz_cell_acts(&of->cell, 1000, NULL);
    if (status == IPCZ_RACED) status = IPCZ_OK;
    ipcz_cell_retry(&of->cell);
    while (!status && came) status = serve(of, &came);
    if (!status) status = pass_arrived(of);
    for (int i = 0; i < AT_ONCE && !status; i++) {
        request *it = &of->requests[i];
        if (it->awaits) status = hear(of, it);
        else if (of->asked < rounds) status = ask(of, it);
    }
    if (!status && of->churned < rounds) status = churn(of);
    return status;
}

/* Whether all threads have done what they have to do; each says so once. */
static bool are_done(worker *of, bool *told) {
    if (!*told && of->answered == rounds && of->served == rounds && of->churned == rounds && travelled == TRAVELLERS) {
        *told = true;
        threads_done++;
    }
    return threads_done == NODES || has_failed;
}

static void *work(void *of) {
    worker *mine = of;
    bool told = false;
    while (!mine->wrong && !are_done(mine, &told)) {
        mine->wrong = go_on(mine);
        sched_yield();
    }
    if (mine->wrong) has_failed = true;
    return NULL;
}

/* Has all nodes take turns on this thread until none has any. */
static bool rest(void) {
    uint64_t sum = 1, acts;
    while (sum) {
        sum = 0;
        for (int i = 0; i < NODES; i++) {
            if (ipcz_cell_acts(&workers[i].cell, 1000, &acts)) return false;
            sum += acts;
            ipcz_cell_retry(&workers[i].cell);
        }
    }
    return true;
}

int main(int argc, char **argv) {
    ipcz_cell cells[NODES];
    pthread_t threads[NODES];
    ipcz_portal kept[TRAVELLERS], sent;
    int opened = 0;
    if (argc == 3) {
        rounds = atoi(argv[1]);
        most_hops = atoi(argv[2]);
        rests_on_its_way = true;
    }
    for (int i = 0; i < NODES; i++) cells[i] = (ipcz_cell)IPCZ_CELL_INIT;
    if (ipcz_cells_create_lasting(SLOTS, cells, NODES)) return 1;
    for (uint8_t i = 0; i < NODES; i++) workers[i] = (worker){ .cell = cells[i], .node = i };
    for (int i = 0; i < TRAVELLERS; i++)
        if (ipcz_cell_open(&workers[0].cell, &kept[i], &sent) || pass_on(&workers[0], sent, 0)) return 1;
    for (int i = 0; i < NODES; i++)
        if (pthread_create(&threads[i], NULL, work, &workers[i])) return 1;
    for (int i = 0; i < NODES; i++) {
        pthread_join(threads[i], NULL);
        printf("node %d: answered %d, served %d, opened and closed %d\n", i, workers[i].answered, workers[i].served, workers[i].churned);
        if (workers[i].wrong) printf("refused %s\n", ipcz_status_name(workers[i].wrong));
    }
    for (int i = 0; i < TRAVELLERS; i++)
        if (ipcz_cell_close(&workers[0].cell, kept[i])) return 1;
    if (!rest()) return 1;
    while (!ipcz_cell_open(&workers[0].cell, &kept[0], &sent)) opened++;
    printf("portals that made %d hops: %d of %d\n", most_hops, travelled, TRAVELLERS);
    printf("slots that are to be had again: %d of %d\n", opened, SLOTS - FIRST_PAIRS);
    for (int i = 0; i < NODES; i++) ipcz_cell_destroy(&workers[i].cell);
    return 0;
}
