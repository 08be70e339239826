/* The comparison: see compare.h. Each list stands in a room of its own between
   two canaries. The rooms of the two programs start out equal, so the lists and
   the canaries are compared in one go. */
#include "compare.h"

#include "breezeflint.h"

#include <stdio.h>
#include <stdlib.h>
#include <string.h>

enum { CANARY = 64 };

struct room {
    uint8_t *bytes; /* canary, list, canary */
    size_t size;    /* of the list */
};

enum list { VOLUME, WORK, PATH, OUT, LISTS };

static const char *const list_name[LISTS] = {"volume", "work", "path", "out"};
static const size_t element[LISTS] = {1, 8, 4, 8};
static const size_t capacity[LISTS] = {VOLUME_ROOM, WORK_ROOM, PATH_ROOM, OUT_ROOM};

struct program {
    const char *name;
    uint32_t (*seal)(uint8_t *, size_t);
    uint32_t (*open)(const uint8_t *, size_t, uint64_t *, size_t);
    uint32_t (*road_time)(const uint8_t *, size_t, uint32_t, uint32_t, uint64_t *, size_t);
    uint32_t (*edge_time)(const uint8_t *, size_t, uint32_t, uint32_t, uint64_t *, size_t);
    uint32_t (*check)(const uint8_t *, size_t, uint64_t *, size_t);
    uint32_t (*search)(const uint8_t *, size_t, uint32_t, uint32_t, uint32_t, uint32_t, uint64_t *,
                       size_t, uint32_t *, size_t, uint64_t *, size_t);
    struct room room[LISTS];
    uint32_t number;
};

static struct program library = {"library", bf_seal, bf_open, bf_road_time, bf_edge_time, bf_check,
                                 bf_search, {{0}},   0};
static struct program twin = {
    "twin", twin_seal, twin_open, twin_road_time, twin_edge_time, twin_check, twin_search, {{0}}, 0};

/* Lends the program lists of these sizes, with the same random bytes each time. */
static void lend(struct program *program, const struct ask *ask, const uint8_t *v, size_t vn) {
    const size_t length[LISTS] = {vn, ask->workn, ask->pathn, ask->outn};
    struct dice dice = {ask->junk};
    for (int i = 0; i < LISTS; i++) {
        struct room *room = &program->room[i];
        room->size = length[i] * element[i];
        if (room->bytes == NULL) room->bytes = malloc(capacity[i] * element[i] + 2 * CANARY);
        if (room->bytes == NULL || length[i] > capacity[i]) abort();
        size_t from = i == VOLUME ? CANARY + vn / 8 * 8 : CANARY;
        for (size_t at = 0; at < CANARY; at += 8) memcpy(room->bytes + at, &(uint64_t){roll(&dice)}, 8);
        for (size_t at = from; at < room->size + 2 * CANARY; at += 8) {
            uint64_t junk = roll(&dice);
            size_t rest = room->size + 2 * CANARY - at;
            memcpy(room->bytes + at, &junk, rest < 8 ? rest : 8);
        }
    }
    memcpy(program->room[VOLUME].bytes + CANARY, v, vn);
}

static void call(struct program *p, const struct ask *ask) {
    uint8_t *v = p->room[VOLUME].bytes + CANARY;
    size_t vn = p->room[VOLUME].size;
    uint64_t *out = (void *)(p->room[OUT].bytes + CANARY);
    uint64_t *work = (void *)(p->room[WORK].bytes + CANARY);
    uint32_t *path = (void *)(p->room[PATH].bytes + CANARY);
    switch (ask->face) {
    case SEAL: p->number = p->seal(v, vn); break;
    case OPEN: p->number = p->open(v, vn, out, ask->outn); break;
    case ROAD_TIME: p->number = p->road_time(v, vn, ask->one, ask->departure, out, ask->outn); break;
    case EDGE_TIME: p->number = p->edge_time(v, vn, ask->one, ask->departure, out, ask->outn); break;
    case CHECK: p->number = p->check(v, vn, out, ask->outn); break;
    default:
        p->number = p->search(v, vn, ask->one, ask->other, ask->departure, ask->budget, work,
                              ask->workn, path, ask->pathn, out, ask->outn);
    }
}

/* The first place where the rooms differ, or the size of the rooms. */
static size_t first_difference(enum list list) {
    const struct room *one = &library.room[list], *other = &twin.room[list];
    size_t size = one->size + 2 * CANARY;
    if (memcmp(one->bytes, other->bytes, size) == 0) return size;
    size_t at = 0;
    while (one->bytes[at] == other->bytes[at]) at++;
    return at;
}

int differ(const struct ask *ask, const uint8_t *v, size_t vn, struct answer *gave) {
    lend(&library, ask, v, vn);
    lend(&twin, ask, v, vn);
    call(&library, ask);
    call(&twin, ask);
    if (gave != NULL) {
        gave->number = twin.number;
        memcpy(gave->out, twin.room[OUT].bytes + CANARY, twin.room[OUT].size);
        size_t roads = ask->pathn < FIRST_ROADS ? ask->pathn : FIRST_ROADS;
        memcpy(gave->path, twin.room[PATH].bytes + CANARY, roads * sizeof *gave->path);
    }
    if (library.number != twin.number) return 1;
    for (int i = 0; i < LISTS; i++)
        if (first_difference((enum list)i) < library.room[i].size + 2 * CANARY) return 1;
    return 0;
}

static void print_answer(const struct program *p, size_t outn) {
    const uint64_t *out = (const void *)(p->room[OUT].bytes + CANARY);
    printf("  %-7s gives %u, out", p->name, p->number);
    for (size_t i = 0; i < outn && i < 5; i++) printf(" %lu", out[i]);
    printf("\n");
}

void print_ask(const struct ask *ask, const uint8_t *v, size_t vn) {
    static const char *const name[FACES] = {"seal",      "open",  "road_time",
                                            "edge_time", "check", "search"};
    printf("  %s, volume of %lu bytes", name[ask->face], vn);
    if (ask->face == ROAD_TIME || ask->face == EDGE_TIME)
        printf(", number %u, departure %u", ask->one, ask->departure);
    if (ask->face == SEARCH)
        printf(", from %u to %u, departure %u, budget %u, work %lu, path %lu", ask->one, ask->other,
               ask->departure, ask->budget, ask->workn, ask->pathn);
    printf(", out %lu\n", ask->outn);
    differ(ask, v, vn, NULL);
    print_answer(&library, ask->outn);
    print_answer(&twin, ask->outn);
    for (int i = 0; i < LISTS; i++) {
        size_t at = first_difference((enum list)i);
        if (at < library.room[i].size + 2 * CANARY)
            printf("  the list %s differs first at element %ld of %lu\n", list_name[i],
                   ((long)at - CANARY) / (long)element[i], library.room[i].size / element[i]);
    }
}
