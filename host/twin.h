/* The twin: a second implementation of document 01, written from the document
   alone, for the differential test and the benchmark. twin.c has sealing,
   opening and travel times, twin_check.c the full check, twin_search.c the
   settling rule. The six functions of the face behave as breezeflint.h says. */
#ifndef TWIN_H
#define TWIN_H

#include <stddef.h>
#include <stdint.h>

enum {
    DAY = 86400,
    BLOCK_BYTES = 512,
    BLOCK_CONTENT = 126,
    MAX_BLOCKS = 3381,
    MAX_JUNCTIONS = 1024,
    MAX_ROADS = 4096,
    MAX_POINTS = 65535,
    MAX_EDGES = 16384,
    MAX_PIECES = 65535,
    MAX_SPAN = 4096,
    OUT_PLACES = 8
};

#define EMPTY_MIDDLE UINT32_MAX

/* The records, word for word as they stand in the volume. */
struct twin_road {
    uint32_t from, to, first, count;
};
struct twin_point {
    uint32_t second, duration;
};
struct twin_edge {
    uint32_t from, to, first, count, span;
};
struct twin_piece {
    uint32_t start, left, right;
};

/* An opened volume: the counts, and the records in its content words. */
struct twin_volume {
    uint32_t n, r, p, e, q;
    const struct twin_road *road;
    const struct twin_point *point;
    const struct twin_edge *edge;
    const struct twin_piece *piece;
};

/* A refusal's number, 0 for none, and its place. */
struct twin_verdict {
    uint32_t number;
    uint64_t place;
};

/* The edges of each start u: edge[begin[u]] to edge[begin[u + 1] - 1], rising. */
struct twin_fans {
    uint32_t begin[MAX_JUNCTIONS + 1];
    uint32_t edge[MAX_EDGES];
};

struct twin_verdict twin_opened(struct twin_volume *volume, const uint8_t *v, size_t vn);
void twin_make_fans(struct twin_fans *fans, const struct twin_volume *v);
uint32_t twin_road_duration(const struct twin_volume *v, uint32_t road, uint64_t departure);
uint64_t twin_edge_duration(const struct twin_volume *v, uint32_t edge, uint64_t departure);
const struct twin_piece *twin_piece_in_force(const struct twin_volume *v, uint32_t edge,
                                             uint64_t departure);

uint32_t twin_seal(uint8_t *v, size_t vn);
uint32_t twin_open(const uint8_t *v, size_t vn, uint64_t *out, size_t outn);
uint32_t twin_road_time(const uint8_t *v, size_t vn, uint32_t road, uint32_t departure, uint64_t *out,
                        size_t outn);
uint32_t twin_edge_time(const uint8_t *v, size_t vn, uint32_t edge, uint32_t departure, uint64_t *out,
                        size_t outn);
uint32_t twin_check(const uint8_t *v, size_t vn, uint64_t *out, size_t outn);
uint32_t twin_search(const uint8_t *v, size_t vn, uint32_t from, uint32_t to, uint32_t departure,
                     uint32_t budget, uint64_t *work, size_t workn, uint32_t *path, size_t pathn,
                     uint64_t *out, size_t outn);

#endif
