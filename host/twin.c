/* The twin's sealing, opening and travel times: document 01, "The volume",
   "Travel time" and the refusals 1 to 7. Plain and direct: opening unpacks the
   content words into one array, and every rule is read off the records there.
   Refusal 10 has no code: an arrival is at most 2^32 + 2,046 * 4,096 * 86,400. */
#include "twin.h"

#include <string.h>

enum { HEAD_WORDS = 6, ROAD_WORDS = 4, POINT_WORDS = 2, EDGE_WORDS = 5, PIECE_WORDS = 3 };

_Static_assert(sizeof(struct twin_road) == 4 * ROAD_WORDS, "a road is its words");
_Static_assert(sizeof(struct twin_point) == 4 * POINT_WORDS, "a point is its words");
_Static_assert(sizeof(struct twin_edge) == 4 * EDGE_WORDS, "an edge is its words");
_Static_assert(sizeof(struct twin_piece) == 4 * PIECE_WORDS, "a piece is its words");

static uint32_t content[MAX_BLOCKS * BLOCK_CONTENT];

/* ---- blocks */

static uint32_t read_word(const uint8_t *at) {
    return at[0] | (uint32_t)at[1] << 8 | (uint32_t)at[2] << 16 | (uint32_t)at[3] << 24;
}

static void write_word(uint8_t *at, uint32_t word) {
    for (int i = 0; i < 4; i++) at[i] = (uint8_t)(word >> 8 * i);
}

static int whole_blocks(size_t vn) {
    return vn % BLOCK_BYTES == 0 && vn >= BLOCK_BYTES && vn <= (size_t)MAX_BLOCKS * BLOCK_BYTES;
}

/* The sums A and B of block k; its content words are put into words. */
static void sum_block(const uint8_t *block, uint32_t k, uint32_t *words, uint32_t *a, uint32_t *b) {
    uint32_t sum_a = k + 1, sum_b = 0;
    for (uint32_t i = 0; i < BLOCK_CONTENT; i++) {
        words[i] = read_word(block + 4 * i);
        sum_a += words[i];
        sum_b += sum_a;
    }
    *a = sum_a;
    *b = sum_b;
}

uint32_t twin_seal(uint8_t *v, size_t vn) {
    if (!whole_blocks(vn)) return 1;
    for (uint32_t k = 0; k < vn / BLOCK_BYTES; k++) {
        uint8_t *block = v + (size_t)k * BLOCK_BYTES;
        uint32_t words[BLOCK_CONTENT], a, b;
        sum_block(block, k, words, &a, &b);
        write_word(block + 4 * BLOCK_CONTENT, a);
        write_word(block + 4 * BLOCK_CONTENT + 4, b);
    }
    return 0;
}

/* The first block whose check differs, or the number of blocks; fills content. */
static uint32_t first_bad_block(const uint8_t *v, uint32_t blocks) {
    for (uint32_t k = 0; k < blocks; k++) {
        const uint8_t *block = v + (size_t)k * BLOCK_BYTES;
        uint32_t a, b;
        sum_block(block, k, content + (size_t)k * BLOCK_CONTENT, &a, &b);
        if (read_word(block + 4 * BLOCK_CONTENT) != a) return k;
        if (read_word(block + 4 * BLOCK_CONTENT + 4) != b) return k;
    }
    return blocks;
}

/* ---- the head */

/* Reads the head and sets out the records; 0 where a limit, the block count or
   the filler is wrong. */
static int read_counts(struct twin_volume *v, uint32_t blocks) {
    v->n = content[1];
    v->r = content[2];
    v->p = content[3];
    v->e = content[4];
    v->q = content[5];
    if (v->n < 1 || v->n > MAX_JUNCTIONS || v->r > MAX_ROADS || v->p > MAX_POINTS) return 0;
    if (v->e > MAX_EDGES || v->q > MAX_PIECES) return 0;
    uint32_t roads = HEAD_WORDS, points = roads + ROAD_WORDS * v->r;
    uint32_t edges = points + POINT_WORDS * v->p, pieces = edges + EDGE_WORDS * v->e;
    uint32_t words = pieces + PIECE_WORDS * v->q;
    if (blocks != (words + BLOCK_CONTENT - 1) / BLOCK_CONTENT) return 0;
    for (uint32_t w = words; w < blocks * BLOCK_CONTENT; w++)
        if (content[w] != 0) return 0;
    /* a record is nothing but 32-bit words, so its words may be read as its members */
    v->road = (const void *)(content + roads);
    v->point = (const void *)(content + points);
    v->edge = (const void *)(content + edges);
    v->piece = (const void *)(content + pieces);
    return 1;
}

/* ---- the rules of roads and edges */

static int ends_right(const struct twin_volume *v, uint32_t from, uint32_t to) {
    return from != to && from < v->n && to < v->n;
}

/* Whether count records from first follow the used ones and lie inside all. */
static int laid_end_to_end(uint32_t first, uint32_t count, uint32_t used, uint32_t all) {
    return count >= 1 && first == used && count <= all - used;
}

/* The FIFO rule from one point to another that comes gap seconds later. */
static int fifo(struct twin_point here, struct twin_point next, uint32_t gap) {
    return here.duration <= next.duration + gap;
}

static int points_right(const struct twin_point *point, uint32_t count) {
    for (uint32_t i = 0; i < count; i++) {
        if (point[i].second >= DAY) return 0;
        if (point[i].duration < 1 || point[i].duration > DAY) return 0;
        if (i == 0) continue;
        if (point[i].second <= point[i - 1].second) return 0;
        if (!fifo(point[i - 1], point[i], point[i].second - point[i - 1].second)) return 0;
    }
    struct twin_point last = point[count - 1];
    return fifo(last, point[0], point[0].second + DAY - last.second);
}

/* The first road at fault, R where points are left over, R + 1 for none. */
static uint32_t road_at_fault(const struct twin_volume *v) {
    uint32_t used = 0;
    for (uint32_t k = 0; k < v->r; k++) {
        const struct twin_road *road = &v->road[k];
        if (!ends_right(v, road->from, road->to)) return k;
        if (!laid_end_to_end(road->first, road->count, used, v->p)) return k;
        if (!points_right(v->point + used, road->count)) return k;
        used += road->count;
    }
    return used == v->p ? v->r + 1 : v->r;
}

/* The span of a piece of edge k, or 0 where the piece is wrong. */
static uint32_t piece_span(const struct twin_volume *v, uint32_t k, const struct twin_piece *piece) {
    const struct twin_edge *edge = &v->edge[k];
    if (piece->right == EMPTY_MIDDLE) {
        if (piece->left >= v->r) return 0;
        const struct twin_road *road = &v->road[piece->left];
        return road->from == edge->from && road->to == edge->to;
    }
    if (piece->left >= k || piece->right >= k) return 0;
    const struct twin_edge *left = &v->edge[piece->left], *right = &v->edge[piece->right];
    if (left->from != edge->from || right->to != edge->to || left->to != right->from) return 0;
    if (left->to >= edge->from || left->to >= edge->to) return 0;
    return left->span + right->span;
}

static int pieces_right(const struct twin_volume *v, uint32_t k, const struct twin_piece *piece) {
    uint32_t greatest = 0, count = v->edge[k].count;
    for (uint32_t i = 0; i < count; i++) {
        if (i == 0 ? piece[i].start != 0 : piece[i].start <= piece[i - 1].start) return 0;
        if (piece[i].start >= DAY) return 0;
        uint32_t span = piece_span(v, k, &piece[i]);
        if (span == 0) return 0;
        if (span > greatest) greatest = span;
    }
    return v->edge[k].span == greatest && greatest <= MAX_SPAN;
}

/* The first edge at fault, E where pieces are left over, E + 1 for none. */
static uint32_t edge_at_fault(const struct twin_volume *v) {
    static uint8_t seen[MAX_JUNCTIONS * MAX_JUNCTIONS];
    memset(seen, 0, (size_t)v->n * v->n);
    uint32_t used = 0;
    for (uint32_t k = 0; k < v->e; k++) {
        const struct twin_edge *edge = &v->edge[k];
        if (!ends_right(v, edge->from, edge->to)) return k;
        uint8_t *ends = &seen[edge->from * v->n + edge->to];
        if (*ends) return k;
        *ends = 1;
        if (!laid_end_to_end(edge->first, edge->count, used, v->q)) return k;
        if (!pieces_right(v, k, v->piece + used)) return k;
        used += edge->count;
    }
    return used == v->q ? v->e + 1 : v->e;
}

/* ---- opening */

struct twin_verdict twin_opened(struct twin_volume *volume, const uint8_t *v, size_t vn) {
    if (!whole_blocks(vn)) return (struct twin_verdict){1, 0};
    uint32_t blocks = (uint32_t)(vn / BLOCK_BYTES), bad = first_bad_block(v, blocks);
    if (bad < blocks) return (struct twin_verdict){2, bad};
    if (content[0] != 1) return (struct twin_verdict){3, 0};
    if (!read_counts(volume, blocks)) return (struct twin_verdict){4, 0};
    uint32_t road = road_at_fault(volume);
    if (road <= volume->r) return (struct twin_verdict){5, road};
    uint32_t edge = edge_at_fault(volume);
    if (edge <= volume->e) return (struct twin_verdict){6, edge};
    return (struct twin_verdict){0, 0};
}

uint32_t twin_open(const uint8_t *v, size_t vn, uint64_t *out, size_t outn) {
    if (outn < OUT_PLACES) return 9;
    struct twin_volume volume;
    struct twin_verdict verdict = twin_opened(&volume, v, vn);
    if (verdict.number != 0) {
        out[0] = verdict.place;
        return verdict.number;
    }
    out[0] = volume.n;
    out[1] = volume.r;
    out[2] = volume.p;
    out[3] = volume.e;
    out[4] = volume.q;
    return 0;
}

void twin_make_fans(struct twin_fans *fans, const struct twin_volume *v) {
    memset(fans->begin, 0, sizeof fans->begin);
    for (uint32_t k = 0; k < v->e; k++) fans->begin[v->edge[k].from + 1]++;
    for (uint32_t u = 0; u < v->n; u++) fans->begin[u + 1] += fans->begin[u];
    uint32_t next[MAX_JUNCTIONS];
    memcpy(next, fans->begin, sizeof next);
    for (uint32_t k = 0; k < v->e; k++) fans->edge[next[v->edge[k].from]++] = k;
}

/* ---- travel times */

static int64_t floor_divide(int64_t a, int64_t b) {
    int64_t quotient = a / b;
    return a % b < 0 ? quotient - 1 : quotient;
}

uint32_t twin_road_duration(const struct twin_volume *v, uint32_t road, uint64_t departure) {
    const struct twin_point *point = v->point + v->road[road].first;
    uint32_t count = v->road[road].count, x = (uint32_t)(departure % DAY);
    if (count == 1) return point[0].duration;
    /* low becomes the number of points at or before x */
    uint32_t low = 0, high = count;
    while (low < high) {
        uint32_t middle = (low + high) / 2;
        if (point[middle].second <= x)
            low = middle + 1;
        else
            high = middle;
    }
    struct twin_point left = point[low == 0 ? count - 1 : low - 1], right = point[low % count];
    int64_t t0 = left.second - (low == 0 ? (int64_t)DAY : 0);
    int64_t t1 = right.second + (low == count ? (int64_t)DAY : 0);
    int64_t rise = (int64_t)right.duration - left.duration;
    return (uint32_t)(left.duration + floor_divide(rise * (x - t0), t1 - t0));
}

const struct twin_piece *twin_piece_in_force(const struct twin_volume *v, uint32_t edge,
                                             uint64_t departure) {
    const struct twin_piece *piece = v->piece + v->edge[edge].first;
    uint32_t x = (uint32_t)(departure % DAY), low = 0, high = v->edge[edge].count;
    while (high - low > 1) {
        uint32_t middle = (low + high) / 2;
        if (piece[middle].start <= x)
            low = middle;
        else
            high = middle;
    }
    return piece + low;
}

uint64_t twin_edge_duration(const struct twin_volume *v, uint32_t edge, uint64_t departure) {
    const struct twin_piece *piece = twin_piece_in_force(v, edge, departure);
    if (piece->right == EMPTY_MIDDLE) return twin_road_duration(v, piece->left, departure);
    uint64_t left = twin_edge_duration(v, piece->left, departure);
    return left + twin_edge_duration(v, piece->right, departure + left);
}

uint32_t twin_road_time(const uint8_t *v, size_t vn, uint32_t road, uint32_t departure, uint64_t *out,
                        size_t outn) {
    if (outn < OUT_PLACES) return 9;
    struct twin_volume volume;
    struct twin_verdict verdict = twin_opened(&volume, v, vn);
    if (verdict.number == 0 && road >= volume.r) verdict = (struct twin_verdict){7, 0};
    out[0] = verdict.number != 0 ? verdict.place : twin_road_duration(&volume, road, departure);
    return verdict.number;
}

uint32_t twin_edge_time(const uint8_t *v, size_t vn, uint32_t edge, uint32_t departure, uint64_t *out,
                        size_t outn) {
    if (outn < OUT_PLACES) return 9;
    struct twin_volume volume;
    struct twin_verdict verdict = twin_opened(&volume, v, vn);
    if (verdict.number == 0 && edge >= volume.e) verdict = (struct twin_verdict){7, 0};
    out[0] = verdict.number != 0 ? verdict.place : twin_edge_duration(&volume, edge, departure);
    return verdict.number;
}
