/* The parts of the differential test: one call of the face, made of the library
   and of the twin over equal lists, and what comes back compared to the last byte
   (compare.c); the shortest input that still shows a difference (shrink.c); the
   volumes (volumes.c); document 01's sample (sample.c). */
#ifndef COMPARE_H
#define COMPARE_H

#include "net.h"

enum face { SEAL, OPEN, ROAD_TIME, EDGE_TIME, CHECK, SEARCH, FACES };

/* A call: its numbers, the lengths of its lists, and a seed for what they hold. */
struct ask {
    enum face face;
    uint32_t one, other, departure, budget; /* one: road, edge or from; other: to */
    size_t workn, pathn, outn;
    uint64_t junk;
};

enum { PATH_ROOM = 65536, WORK_ROOM = 8 * MAX_JUNCTIONS + 64, OUT_ROOM = 16, FIRST_ROADS = 4 };

/* What the twin gave: the number, all of out, and the first places of the path. */
struct answer {
    uint32_t number;
    uint64_t out[OUT_ROOM];
    uint32_t path[FIRST_ROADS];
};

/* Makes the call of both; 1 where anything differs. gave may be null. */
int differ(const struct ask *ask, const uint8_t *v, size_t vn, struct answer *gave);
/* Prints the call, and what the two gave for it. */
void print_ask(const struct ask *ask, const uint8_t *v, size_t vn);

/* Makes the input as short as it can, keeping a difference. */
void shrink(struct ask *ask, uint8_t *v, size_t *vn);
void print_volume(const uint8_t *v, size_t vn);

/* volumes.c: some volume on the page, 1 where it was made full; one at a limit of
   the format, by its number below LIMITS. */
enum { LIMITS = 10 };
int make_volume(struct net *net, struct dice *d, uint8_t *page, size_t *length);
void make_limit(struct net *net, struct dice *d, uint32_t which, uint8_t *page, size_t *length);

/* sample.c: holds both programs to document 01's sample; gives the failures. */
uint32_t sample_failures(uint32_t *cases);

#endif
