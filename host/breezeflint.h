/* Breezeflint for C hosts: sealing, opening, travel times, the full check and
   the earliest-arrival search over a volume, which is v[0] to v[vn - 1].

   Every function takes any bytes, any numbers and any lengths, and gives 0 or
   the number of a refusal. Each list is a pointer, not null even where the
   length is 0, and a length in elements; no two lists of one call overlap.
   The volume is only read, except by bf_seal. A call takes up to
   300 KB of stack, as measured (with rattle-kit-5b) at the limits of the format
   and on edges that nest a thousand deep, and nothing from the heap.

   out needs 8 places: with fewer, the answer is 9 and nothing is changed. On
   any other refusal out[0] is its place. Places that a case does not name keep
   their values. */
#ifndef BREEZEFLINT_H
#define BREEZEFLINT_H

#include <stddef.h>
#include <stdint.h>

#ifdef __cplusplus
extern "C" {
#endif

/* The refusals, in the order of their tests. */
enum bf_refusal {
    BF_LENGTH = 1,  /* not 1 to 3,381 whole blocks; place 0 */
    BF_BLOCK = 2,   /* a check differs; the first such block */
    BF_EDITION = 3, /* not 1; place 0 */
    BF_COUNTS = 4,  /* a head limit, the block count or the filler; place 0 */
    BF_ROAD = 5,    /* the first road at fault, or R where points are left over */
    BF_EDGE = 6,    /* the first edge at fault, or E where pieces are left over */
    BF_NUMBER = 7,  /* start (0) or destination (1) not below N; no such road or edge (0) */
    BF_WORK = 8,    /* a work area below 8N numbers; place 0 */
    BF_PATH = 9,    /* closed, but more roads than room; roads needed */
    BF_CLOCK = 10   /* an arrival that does not fit 64 bits; place 0 */
};

/* Writes A and B of every block, or nothing where it refuses (1 only). */
uint32_t bf_seal(uint8_t *v, size_t vn);

/* out: N, R, P, E, Q. Refusals 1 to 6. */
uint32_t bf_open(const uint8_t *v, size_t vn, uint64_t *out, size_t outn);

/* out: the road's duration at the departure. Refusals 1 to 7. */
uint32_t bf_road_time(const uint8_t *v, size_t vn, uint32_t road, uint32_t departure, uint64_t *out,
                      size_t outn);

/* out: the edge's duration at the departure. Refusals 1 to 7. */
uint32_t bf_edge_time(const uint8_t *v, size_t vn, uint32_t edge, uint32_t departure, uint64_t *out,
                      size_t outn);

/* out[0], the kind: 0 full, 1 road missing, 2 road late, 3 pair missing, 4 pair
   late. out[1], the road or the left edge; out[2], the right edge, or 0 for a
   road; out[3], the second. Full has 0 in all four. Refusals 1 to 6. */
uint32_t bf_check(const uint8_t *v, size_t vn, uint64_t *out, size_t outn);

/* out[0], the kind: 0 closed, then arrival, used, roads; 1 no way, then used;
   2 open, then lower end, 1 or 0 for whether there is an upper end, the upper
   end or 0, used. A closed answer writes its roads to the first places of path.
   work needs 8N numbers, which are zero after any answer and after refusals 9
   and 10. All refusals. */
uint32_t bf_search(const uint8_t *v, size_t vn, uint32_t from, uint32_t to, uint32_t departure,
                   uint32_t budget, uint64_t *work, size_t workn, uint32_t *path, size_t pathn,
                   uint64_t *out, size_t outn);

#ifdef __cplusplus
}
#endif

#endif
