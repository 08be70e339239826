/* Document 01's sample network: the cases listed there, marked or not, that the
   functions of the face can show. Here the twin too is held to the document. */
#include "compare.h"

#include <stdio.h>
#include <string.h>

enum { BIG_WORK = 64, BIG_PATH = 8, MOST = 5 };

struct expected {
    const char *what;
    struct ask ask;
    uint32_t number, outs, roads;
    uint64_t out[MOST];
    uint32_t path[2];
};

#define ROAD_AT(k, x)                                                                                  \
    { ROAD_TIME, k, 0, x, 0, 0, 0, OUT_PLACES, 1 }
#define QUESTION(from, to, x, budget, room)                                                            \
    { SEARCH, from, to, x, budget, BIG_WORK, room, OUT_PLACES, 1 }

static const struct expected table[] = {
    {"it opens", {OPEN, 0, 0, 0, 0, 0, 0, OUT_PLACES, 1}, 0, 5, 0, {3, 3, 4, 3, 5}, {0}},
    {"it is full", {CHECK, 0, 0, 0, 0, 0, 0, OUT_PLACES, 1}, 0, 1, 0, {0}, {0}},
    {"road 1 at 0", ROAD_AT(1, 0), 0, 1, 0, {100}, {0}},
    {"road 1 at 1", ROAD_AT(1, 1), 0, 1, 0, {99}, {0}},
    {"road 1 at 100", ROAD_AT(1, 100), 0, 1, 0, {50}, {0}},
    {"road 1 at 60", ROAD_AT(1, 60), 0, 1, 0, {70}, {0}},
    {"1 to 2 at 0", QUESTION(1, 2, 0, 3, BIG_PATH), 0, 4, 2, {0, 130, 2, 2}, {0, 1}},
    {"1 to 2 at 70,805", QUESTION(1, 2, 70805, 5, BIG_PATH), 0, 2, 2, {0, 70955}, {0, 1}},
    {"1 to 2 at 70,806", QUESTION(1, 2, 70806, 5, BIG_PATH), 0, 2, 1, {0, 70956}, {2}},
    {"1 to 2 at 86,399", QUESTION(1, 2, 86399, 5, BIG_PATH), 0, 2, 0, {0, 86529}, {0}},
    {"budget 1", QUESTION(1, 2, 0, 1, BIG_PATH), 0, 5, 0, {2, 130, 0, 0, 1}, {0}},
    {"budget 0", QUESTION(1, 2, 0, 0, BIG_PATH), 0, 5, 0, {2, 0, 0, 0, 0}, {0}},
    {"2 to 1", QUESTION(2, 1, 0, 5, BIG_PATH), 0, 2, 0, {1, 1}, {0}},
    {"1 to 0", QUESTION(1, 0, 0, 5, BIG_PATH), 0, 3, 0, {0, 60, 2}, {0}},
    {"1 to 1, budget 1", QUESTION(1, 1, 0, 1, BIG_PATH), 0, 4, 0, {0, 0, 1, 0}, {0}},
    {"path room 1 for two roads", QUESTION(1, 2, 0, 5, 1), 9, 1, 0, {2}, {0}},
};

static struct net net;
static uint8_t page[VOLUME_ROOM];

static void make_sample(void) {
    net_start(&net, 3);
    net_add_road(&net, 1, 0);
    net_add_point(&net, 0, 60);
    net_add_road(&net, 0, 2);
    net_add_point(&net, 0, 100);
    net_add_point(&net, 100, 50);
    net_add_road(&net, 1, 2);
    net_add_point(&net, 0, 150);
    net_add_edge(&net, 1, 0);
    net_add_piece(&net, 0, 0, EMPTY_MIDDLE);
    net_add_edge(&net, 0, 2);
    net_add_piece(&net, 0, 1, EMPTY_MIDDLE);
    net_add_edge(&net, 1, 2);
    net_add_piece(&net, 0, 0, 1);
    net_add_piece(&net, 70806, 2, EMPTY_MIDDLE);
    net_add_piece(&net, 86359, 0, 1);
}

static uint32_t hold(const struct expected *want) {
    struct answer gave;
    size_t vn = net_write(&net, page);
    int apart = differ(&want->ask, page, vn, &gave);
    int right = gave.number == want->number &&
                memcmp(gave.out, want->out, want->outs * sizeof *want->out) == 0 &&
                memcmp(gave.path, want->path, want->roads * sizeof *want->path) == 0;
    if (!apart && right) return 0;
    printf("sample, %s: %s\n", want->what,
           right ? "the library differs" : "the twin is not as document 01 says");
    print_ask(&want->ask, page, vn);
    return 1;
}

/* Opening gives this number and place for the sample as it stands now. */
static uint32_t hold_opening(const char *what, uint32_t number, uint64_t out) {
    struct expected want = {what, {OPEN, 0, 0, 0, 0, 0, 0, OUT_PLACES, 1}, number, 1, 0, {out}, {0}};
    return hold(&want);
}

/* The cases at a boundary, each on a sample changed for it. */
static uint32_t changed_samples(void) {
    struct expected late = {"edge 2 with its first piece alone",
                            {CHECK, 0, 0, 0, 0, 0, 0, OUT_PLACES, 1},
                            0,
                            4,
                            0,
                            {2, 2, 0, 70806},
                            {0}};
    uint32_t failures = 0;
    net.q = 3;
    net.edge[2].count = 1;
    failures += hold(&late);
    make_sample();
    net.n = 1024;
    failures += hold_opening("N 1,024", 0, 1024);
    net.n = 1025;
    failures += hold_opening("N 1,025", 4, 0);
    make_sample();
    net.point[2].second = 50;
    failures += hold_opening("a fall of 50 in 50 seconds", 0, 3);
    net.point[2].duration = 49;
    failures += hold_opening("a fall of 51 in 50 seconds", 5, 1);
    return failures;
}

/* The sums of block 0 with this first word and zeros. */
static uint32_t hold_sums(uint32_t word, uint32_t a, uint32_t b) {
    struct ask ask = {SEAL, 0, 0, 0, 0, 0, 0, 0, 1};
    uint8_t sums[8];
    memset(page, 0, BLOCK_BYTES);
    volume_set_word(page, 0, word);
    int apart = differ(&ask, page, BLOCK_BYTES, NULL);
    twin_seal(page, BLOCK_BYTES);
    for (int i = 0; i < 4; i++) sums[i] = (uint8_t)(a >> 8 * i), sums[4 + i] = (uint8_t)(b >> 8 * i);
    if (!apart && memcmp(page + 4 * BLOCK_CONTENT, sums, 8) == 0) return 0;
    printf("sample, the sums of a block that begins with %u: not as document 01 says\n", word);
    return 1;
}

uint32_t sample_failures(uint32_t *cases) {
    uint32_t failures = hold_sums(0, 1, 126) + hold_sums(UINT32_MAX, 0, 0),
             count = sizeof table / sizeof *table;
    make_sample();
    for (uint32_t i = 0; i < count; i++) failures += hold(&table[i]);
    *cases += count + 7;
    return failures + changed_samples();
}
