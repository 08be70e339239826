/* The benchmark: library and twin side by side in one run, round by round in
   turn, and the medians of the rounds with their ratios, as a table. Where a
   function opens the volume first, the time of opening it is also measured, and
   taken off on both sides: what is left is the function after opening. */
#include "net.h"

#include "breezeflint.h"

#include <stdio.h>
#include <stdlib.h>
#include <time.h>

enum { LIBRARY, TWIN, SIDES, MOST_ROUNDS = 31, QUESTIONS = 64 };

struct question {
    uint32_t from, to, departure;
};

static struct net net;
static uint8_t volume[VOLUME_ROOM];
static size_t length;
static struct question question[QUESTIONS];
static uint32_t number;
static uint64_t out[OUT_PLACES], work[8 * MAX_JUNCTIONS];
static uint32_t path[65536];
static uint64_t sum; /* of all answers: the two sides must agree on it */

/* ---- what is measured; each gives its answer */

static uint64_t opening(int side) {
    return side == LIBRARY ? bf_open(volume, length, out, OUT_PLACES)
                           : twin_open(volume, length, out, OUT_PLACES);
}

static uint64_t road_time(int side) {
    uint32_t x = 43210;
    uint32_t refused = side == LIBRARY ? bf_road_time(volume, length, number, x, out, OUT_PLACES)
                                       : twin_road_time(volume, length, number, x, out, OUT_PLACES);
    return refused ? UINT64_MAX : out[0];
}

static uint64_t time_of_edge(int side, uint32_t edge, uint32_t x) {
    uint32_t refused = side == LIBRARY ? bf_edge_time(volume, length, edge, x, out, OUT_PLACES)
                                       : twin_edge_time(volume, length, edge, x, out, OUT_PLACES);
    return refused ? UINT64_MAX : out[0];
}

static uint64_t edge_time(int side) { return time_of_edge(side, number, 43210); }

static uint64_t edge_in_turn(int side) {
    uint32_t turn = number++;
    return time_of_edge(side, 7 * turn % net.e, 4321 * turn % DAY);
}

static uint64_t check(int side) {
    uint32_t refused = side == LIBRARY ? bf_check(volume, length, out, OUT_PLACES)
                                       : twin_check(volume, length, out, OUT_PLACES);
    return refused ? UINT64_MAX : out[0];
}

static struct question next_question(void) { return question[number++ % QUESTIONS]; }

static uint64_t search(int side) {
    struct question q = next_question();
    uint32_t refused = side == LIBRARY
                           ? bf_search(volume, length, q.from, q.to, q.departure, UINT32_MAX, work,
                                       8 * MAX_JUNCTIONS, path, 65536, out, OUT_PLACES)
                           : twin_search(volume, length, q.from, q.to, q.departure, UINT32_MAX, work,
                                         8 * MAX_JUNCTIONS, path, 65536, out, OUT_PLACES);
    return refused ? UINT64_MAX : out[1];
}

/* The bare roads have one program: both sides of its race are the same. */
static uint64_t bare(int side) {
    (void)side;
    struct question q = next_question();
    return bare_arrival(&net, q.from, q.to, q.departure);
}

/* ---- the race */

static double seconds(void) {
    struct timespec now;
    clock_gettime(CLOCK_MONOTONIC, &now);
    return (double)now.tv_sec + 1e-9 * (double)now.tv_nsec;
}

static int rising(const void *one, const void *other) {
    double a = *(const double *)one, b = *(const double *)other;
    return (a > b) - (a < b);
}

struct times {
    double side[SIDES]; /* seconds for one call */
    double ratio;
};

/* A job's whole time, and what is left of it without opening the volume. */
struct raced {
    struct times whole, after;
};

static double time_calls(uint64_t (*job)(int side), int side, uint32_t calls, uint64_t *answers) {
    double began = seconds();
    for (uint32_t k = 0; k < calls; k++) *answers += job(side);
    return (seconds() - began) / calls;
}

static double median(double *round, uint32_t rounds) {
    qsort(round, rounds, sizeof(double), rising);
    return round[rounds / 2];
}

/* The medians of the rounds. The ratio is the median of the rounds' own ratios:
   where the pace of the machine changes halfway, the two sides' medians may come
   from different halves. */
static struct times medians(double round[SIDES][MOST_ROUNDS], uint32_t rounds) {
    double ratio[MOST_ROUNDS];
    for (uint32_t i = 0; i < rounds; i++) ratio[i] = round[LIBRARY][i] / round[TWIN][i];
    return (struct times){{median(round[LIBRARY], rounds), median(round[TWIN], rounds)},
                          median(ratio, rounds)};
}

/* So many rounds of so many calls. The opening that is taken off is timed in the
   same round, since a machine's pace drifts. */
static struct raced race(uint64_t (*job)(int side), uint32_t rounds, uint32_t calls) {
    static double whole[SIDES][MOST_ROUNDS], after[SIDES][MOST_ROUNDS];
    uint64_t answers[SIDES] = {0, 0}, opened = 0;
    uint32_t start = number;
    for (uint32_t i = 0; i < rounds; i++) {
        for (int side = 0; side < SIDES; side++) {
            number = start;
            whole[side][i] = time_calls(job, side, calls, &answers[side]);
            after[side][i] = whole[side][i] - time_calls(opening, side, calls, &opened);
        }
    }
    if (answers[LIBRARY] != answers[TWIN]) {
        printf("the answers differ: run host/test\n");
        exit(1);
    }
    number = start;
    sum += answers[TWIN] + opened;
    return (struct raced){medians(whole, rounds), medians(after, rounds)};
}

static void print_row(const char *what, uint32_t n, struct times t) {
    const char *unit = t.side[TWIN] > 0.1 ? "s" : t.side[TWIN] > 1e-4 ? "ms" : "us";
    double scale = t.side[TWIN] > 0.1 ? 1 : t.side[TWIN] > 1e-4 ? 1e3 : 1e6;
    printf("| %s | %u | %lu | %.3f %s | %.3f %s | %.2f |\n", what, n, length / BLOCK_BYTES,
           scale * t.side[LIBRARY], unit, scale * t.side[TWIN], unit, t.ratio);
    fflush(stdout);
}

/* ---- the volumes */

static void measure_limits(struct dice *d) {
    gen_limits(&net, d);
    length = net_write(&net, volume);
    print_row("opening, all limits", net.n, race(opening, 21, 4).whole);
    for (number = 0; net.edge[number].span != 1;) number++;
    print_row("an edge's time, one road, all limits, with opening", net.n,
              race(edge_time, 21, 4).whole);
}

/* One road of many points in a volume of one block: opening is short there. */
static void measure_road(void) {
    net_start(&net, 2);
    net_add_road(&net, 0, 1);
    for (uint32_t i = 0; i < 50; i++) net_add_point(&net, 1700 * i, 100 + 37 * i % 90);
    length = net_write(&net, volume);
    number = 0;
    struct raced road = race(road_time, 31, 20000);
    print_row("a road's time, with opening", net.n, road.whole);
    print_row("a road's time, after opening", net.n, road.after);
}

/* The last edge of a ladder of n junctions, of 2^(n - 2) roads, where each edge
   has so many pieces and each road so many points: with one, nothing is left to do
   but to follow numbers. */
static void measure_edge(struct dice *d, const char *whole, const char *after, uint32_t n,
                         uint32_t parts, uint32_t calls) {
    gen_ladder(&net, d, n, parts);
    length = net_write(&net, volume);
    number = net.e - 1;
    struct raced edge = race(edge_time, 31, calls);
    print_row(whole, net.n, edge.whole);
    print_row(after, net.n, edge.after);
}

static int make_map(struct dice *d, uint32_t width, uint32_t height) {
    gen_grid(&net, d, width, height, 30);
    if (!net_build_full(&net)) {
        printf("a map of %u by %u does not fit the format\n", width, height);
        return 0;
    }
    length = net_write(&net, volume);
    for (uint32_t i = 0; i < QUESTIONS; i++)
        question[i] = (struct question){below(d, net.n), below(d, net.n), below(d, DAY)};
    return 1;
}

static void measure_search(struct dice *d, uint32_t width, uint32_t height) {
    if (!make_map(d, width, height)) exit(1);
    number = 0;
    print_row("an edge's time, edges of a map in turn, with opening", net.n,
              race(edge_in_turn, 31, 256).whole);
    number = 0;
    struct raced found = race(search, 31, QUESTIONS);
    struct times roads = race(bare, 11, QUESTIONS).whole;
    print_row("a search, with opening", net.n, found.whole);
    print_row("a search, after opening", net.n, found.after);
    print_row("a search, after opening; for the twin: the search over the bare roads", net.n,
              (struct times){{found.after.side[LIBRARY], roads.side[TWIN]},
                             found.after.side[LIBRARY] / roads.side[TWIN]});
}

/* The check skips where a piece is the very road or pair it is held against; how
   often that is depends on how many ways compete, hence maps of several shapes. */
static void measure_check(struct dice *d, const char *what, uint32_t width, uint32_t height) {
    if (!make_map(d, width, height)) exit(1);
    print_row(what, net.n, race(check, 3, 1).whole);
}

/* Very small volumes, where most of a call is what every call begins with. */
static void measure_small(struct dice *d) {
    for (uint32_t n = 3; n <= 9; n++) {
        measure_edge(d, "an edge's time, one piece each, with opening",
                     "an edge's time, one piece each, after opening", n, 1, 4000);
        measure_edge(d, "an edge's time, 24 pieces each, with opening",
                     "an edge's time, 24 pieces each, after opening", n, 24, 4000);
    }
    for (uint32_t side = 2; side <= 8; side++) {
        if (!make_map(d, side, side)) exit(1);
        number = 0;
        struct raced found = race(search, 31, 16 * QUESTIONS);
        print_row("a search, with opening", net.n, found.whole);
        print_row("a search, after opening", net.n, found.after);
    }
}

static void measure_all(struct dice *dice) {
    measure_limits(dice);
    measure_road();
    measure_edge(dice, "an edge's time, span 4,096, 24 pieces each, with opening",
                 "an edge's time, span 4,096, 24 pieces each, after opening", 14, 24, 100);
    measure_edge(dice, "an edge's time, span 4,096, one piece each, with opening",
                 "an edge's time, span 4,096, one piece each, after opening", 14, 1, 100);
    measure_search(dice, 10, 10);
    measure_search(dice, 15, 20);
    measure_search(dice, 32, 32);
    measure_check(dice, "the full check, a line; for the twin: at every second", 1, 100);
    measure_check(dice, "the full check, a strip; for the twin: at every second", 4, 25);
    measure_check(dice, "the full check, a grid; for the twin: at every second", 10, 10);
    measure_check(dice, "the full check, another grid; for the twin: at every second", 10, 10);
}

/* With any word: very small volumes instead. */
int main(int words, char **word) {
    (void)word;
    struct dice dice = {7};
    printf("| measured | N | blocks | library | twin | ratio |\n|---|---|---|---|---|---|\n");
    if (words > 1)
        measure_small(&dice);
    else
        measure_all(&dice);
    return sum == 0;
}
