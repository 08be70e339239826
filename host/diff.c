/* The differential test: test SEED COUNT asks the library and the twin the same
   COUNT questions, each a call of one function of the face, over volumes that
   the seed makes (volumes.c). Volume i depends on the seed and on i alone. */
#include "compare.h"

#include <stdio.h>
#include <stdlib.h>
#include <string.h>

static struct net net;
static uint8_t page[VOLUME_ROOM];
static size_t length;

static uint64_t seed = 1;
static uint32_t wanted = 40000, cases, volume_number;
static uint32_t seen[FACES][11], kinds[2][5];

/* The check over every second is the dear part: what may still be spent on it for
   volumes that are full, and the most that one check may cost, all in hundredths
   of a road's day. A volume that was not made full mostly has a fault soon. */
static int64_t allowance;
enum { ALLOWANCE_A_CASE = 3, DEAREST_FULL = 30000, DEAREST_OTHER = 5000 };

/* ---- one call */

static void report(struct ask ask) {
    printf("MISMATCH: seed %lu, volume %u, case %u\n", seed, volume_number, cases);
    shrink(&ask, page, &length);
    print_ask(&ask, page, length);
    print_volume(page, length);
}

/* Makes the call; ends the test where the two differ. */
static struct answer ask_both(const struct ask *ask) {
    struct answer gave;
    cases++;
    if (differ(ask, page, length, &gave)) {
        report(*ask);
        fflush(stdout);
        exit(1);
    }
    seen[ask->face][gave.number]++;
    if (ask->face == SEARCH && gave.number == 0) kinds[1][gave.out[0]]++;
    if (ask->face == CHECK && gave.number == 0) kinds[0][gave.out[0]]++;
    if (wanted >= 10 && cases % (wanted / 10) == 0) printf("%u of %u cases agree\n", cases, wanted);
    fflush(stdout);
    return gave;
}

static size_t some_outn(struct dice *d) { return chance(d, 95) ? OUT_PLACES : below(d, OUT_ROOM); }

static struct ask plain(struct dice *d, enum face face) {
    return (struct ask){.face = face, .outn = some_outn(d), .junk = roll(d)};
}

/* A number below limit, or one at and over it. */
static uint32_t number_below(struct dice *d, uint32_t limit) {
    if (limit > 0 && chance(d, 96)) return below(d, limit);
    return chance(d, 50) ? limit : chance(d, 50) ? limit + 1 : UINT32_MAX;
}

/* A departure: by chance, at a day's ends, or where a piece or a point lies. */
static uint32_t some_departure(struct dice *d, const struct twin_volume *v) {
    uint32_t day = DAY * (chance(d, 70) ? 0 : below(d, 49710));
    switch (below(d, 8)) {
    case 0: return (uint32_t)roll(d);
    case 1: return UINT32_MAX - below(d, 2);
    case 2: return day + DAY - 1;
    case 3: return day;
    case 4: return v->q == 0 ? 0 : about(d, day + v->piece[below(d, v->q)].start);
    case 5: return v->p == 0 ? 0 : about(d, day + v->point[below(d, v->p)].second);
    default: return day + below(d, DAY);
    }
}

/* ---- searches */

static uint32_t some_budget(struct dice *d, uint32_t used, uint32_t n) {
    switch (below(d, 8)) {
    case 0: return 0;
    case 1: return used - (used > 0);
    case 2: return used;
    case 3: return used + 1;
    case 4: return 2 * n - 1;
    case 5: return UINT32_MAX;
    default: return below(d, used + 1);
    }
}

/* The rooms: mostly enough, else at and about what is needed. */
static void some_rooms(struct dice *d, struct ask *ask, uint32_t n, uint32_t roads) {
    size_t need = 8 * (size_t)n;
    ask->workn = chance(d, 80)   ? need
                 : chance(d, 50) ? need - 1
                 : chance(d, 80) ? need + below(d, 60)
                                 : 0;
    ask->pathn = chance(d, 40) ? roads : roads + 3;
    if (chance(d, 20)) ask->pathn = chance(d, 70) && roads > 0 ? roads - 1 : 0;
    if (ask->pathn > PATH_ROOM) ask->pathn = PATH_ROOM;
}

/* Several budgets and rooms for one question; where the volume is full, its
   closed answer is also held to the search over the bare roads. */
static void ask_searches(struct dice *d, const struct twin_volume *v, int full) {
    struct ask ask = {SEARCH,     below(d, v->n),   below(d, v->n), some_departure(d, v),
                      UINT32_MAX, 8 * (size_t)v->n, PATH_ROOM,      OUT_PLACES,
                      roll(d)};
    uint32_t n = v->n;
    struct answer whole = ask_both(&ask);
    int closed = whole.number == 0 && whole.out[0] == 0;
    if (full) {
        uint64_t least = bare_arrival(&net, ask.one, ask.other, ask.departure);
        if (least != (closed ? whole.out[1] : UINT64_MAX)) {
            printf("NOT LEAST: the bare roads arrive at %lu\n", least);
            report(ask);
            exit(1);
        }
    }
    uint32_t used = (uint32_t)whole.out[closed ? 2 : 1], roads = closed ? (uint32_t)whole.out[3] : 0;
    for (uint32_t i = 0, more = 2 + below(d, 3); i < more; i++) {
        ask.budget = some_budget(d, used, n);
        some_rooms(d, &ask, n, roads);
        ask.outn = some_outn(d);
        ask.junk = roll(d);
        ask_both(&ask);
    }
    ask.one = number_below(d, n);
    ask.other = number_below(d, n);
    ask_both(&ask);
}

/* ---- the check */

/* What a check of the whole volume costs, in hundredths of a road's day. */
static int64_t check_cost(const struct twin_volume *v) {
    static struct twin_fans fans;
    int64_t cost = 2 * (int64_t)v->r;
    twin_make_fans(&fans, v);
    for (uint32_t left = 0; left < v->e; left++) {
        const struct twin_edge *edge = &v->edge[left];
        for (uint32_t i = fans.begin[edge->to]; i < fans.begin[edge->to + 1]; i++) {
            const struct twin_edge *next = &v->edge[fans.edge[i]];
            if (edge->to < edge->from && edge->to < next->to && edge->from != next->to)
                cost += 2 * ((int64_t)edge->span + next->span);
        }
    }
    return 100 * cost;
}

static void ask_check(struct dice *d, const struct twin_volume *v, int full) {
    int64_t cost = check_cost(v);
    if (full ? cost > DEAREST_FULL || allowance < 0 : cost > DEAREST_OTHER) return;
    struct ask ask = plain(d, CHECK);
    struct answer gave = ask_both(&ask);
    if (!full) return;
    allowance -= cost;
    if (gave.number != 0 || gave.out[0] == 0) return;
    printf("NOT FULL: the builder's volume %u of seed %lu\n", volume_number, seed);
    exit(1);
}

/* ---- one volume */

/* Every function over the volume on the page. What v points at is filled again by
   each call of the twin, with the same records. */
static void ask_all(struct dice *d, int full) {
    struct twin_volume v;
    struct ask ask = plain(d, OPEN);
    uint32_t before = cases;
    ask_both(&ask);
    ask = plain(d, SEAL);
    ask_both(&ask);
    if (twin_opened(&v, page, length).number != 0) {
        for (uint32_t i = 0; i < 2; i++) {
            ask = plain(d, (enum face)(ROAD_TIME + below(d, SEARCH - ROAD_TIME + 1)));
            ask.workn = below(d, WORK_ROOM / 8);
            ask.pathn = below(d, 8);
            ask_both(&ask);
        }
        return;
    }
    uint32_t times = 1 + below(d, 3);
    for (uint32_t i = 0; i < times; i++) {
        ask = plain(d, ROAD_TIME);
        ask.one = number_below(d, v.r);
        ask.departure = some_departure(d, &v);
        ask_both(&ask);
        ask.face = EDGE_TIME;
        ask.one = number_below(d, v.e);
        ask.departure = some_departure(d, &v);
        ask_both(&ask);
    }
    for (uint32_t i = 0; i < times; i++) ask_searches(d, &v, full);
    ask_check(d, &v, full);
    allowance += ALLOWANCE_A_CASE * (int64_t)(cases - before);
}

static void one_volume(void) {
    struct dice dice = {seed * 0x2545f4914f6cdd1du + volume_number};
    dice.state = roll(&dice);
    int full = make_volume(&net, &dice, page, &length);
    ask_all(&dice, full);
}

static void limits(void) {
    for (uint32_t which = 0; which < LIMITS; which++) {
        struct dice dice = {seed + which};
        volume_number = UINT32_MAX - which;
        make_limit(&net, &dice, which, page, &length);
        ask_all(&dice, 0);
    }
}

/* ---- the whole */

/* Prints how often each answer came; 0 where one that can come never came. */
static int print_seen(void) {
    static const char *const name[FACES] = {"seal",      "open",  "road time",
                                            "edge time", "check", "search"};
    static const uint32_t last[FACES] = {1, 9, 9, 9, 9, 9};
    int all = 1;
    for (int i = 0; i < FACES; i++) {
        printf("%-9s", name[i]);
        for (uint32_t k = 0; k <= last[i]; k++) printf(" %u:%u", k, seen[i][k]);
        printf("\n");
    }
    printf("check kinds");
    for (uint32_t k = 0; k < 5; k++) printf(" %u:%u", k, kinds[0][k]), all &= kinds[0][k] > 0;
    printf(", search kinds");
    for (uint32_t k = 0; k < 3; k++) printf(" %u:%u", k, kinds[1][k]), all &= kinds[1][k] > 0;
    printf("\n");
    for (uint32_t k = 0; k <= 9; k++) all &= seen[SEARCH][k] > 0;
    return all;
}

int main(int argc, char **argv) {
    if (argc > 1) seed = strtoul(argv[1], NULL, 10);
    if (argc > 2) wanted = (uint32_t)strtoul(argv[2], NULL, 10);
    printf("seed %lu, %u cases\n", seed, wanted);
    uint32_t failures = sample_failures(&cases);
    if (failures > 0) return 1;
    limits();
    for (volume_number = 0; cases < wanted; volume_number++) one_volume();
    int all = print_seen();
    if (!all && wanted >= 20000) printf("NOT ALL: an answer never came\n");
    if (!all && wanted >= 20000) return 1;
    printf("%u cases agree\n", cases);
    return 0;
}
