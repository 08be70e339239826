/* The generator of damage to a volume as it is written: the head, the filler, the
   number of blocks, and bytes. That to records is in damage.c. */
#include "net.h"

#include <string.h>

/* ---- the head, the filler and the number of blocks, resealed */

static uint32_t broken_count(struct dice *d, uint32_t field, uint32_t value) {
    static const uint32_t limit[6] = {1, MAX_JUNCTIONS, MAX_ROADS, MAX_POINTS, MAX_EDGES, MAX_PIECES};
    switch (below(d, 4)) {
    case 0: return about(d, value);
    case 1: return chance(d, 50) ? limit[field] : limit[field] + 1;
    case 2: return below(d, 2);
    default: return (uint32_t)roll(d);
    }
}

size_t break_head(uint8_t *v, size_t vn, struct dice *d) {
    uint32_t words = (uint32_t)(vn / BLOCK_BYTES) * BLOCK_CONTENT, field = below(d, 6);
    uint32_t used = 6 + 4 * volume_word(v, 2) + 2 * volume_word(v, 3) + 5 * volume_word(v, 4) +
                    3 * volume_word(v, 5);
    switch (below(d, 5)) {
    case 0: /* a block too many, or one too few */
        if (chance(d, 50)) {
            vn -= vn > BLOCK_BYTES ? BLOCK_BYTES : 0;
            break;
        }
        memset(v + vn, 0, BLOCK_BYTES);
        vn += BLOCK_BYTES;
        break;
    case 1: /* the filler's first and last word, and words between */
        if (used < words)
            volume_set_word(v, chance(d, 50) ? used : words - 1 - below(d, words - used),
                            1u << below(d, 32));
        break;
    case 2:
        volume_set_word(v, 1,
                        about(d, chance(d, 30)   ? MAX_JUNCTIONS
                                 : chance(d, 50) ? 1
                                                 : volume_word(v, 1)));
        break;
    case 3: volume_set_word(v, below(d, words), (uint32_t)roll(d)); break;
    default: volume_set_word(v, field, broken_count(d, field, volume_word(v, field)));
    }
    twin_seal(v, vn);
    return vn;
}

/* ---- bytes */

size_t break_bytes(uint8_t *v, size_t vn, struct dice *d) {
    size_t at = below(d, (uint32_t)vn);
    switch (below(d, 6)) {
    case 0: /* truncated, to anything or to whole blocks */
        return chance(d, 50) ? at : at / BLOCK_BYTES * BLOCK_BYTES;
    case 1: /* longer than whole blocks, or one whole block more */
        for (size_t i = 0; i < BLOCK_BYTES; i++) v[vn + i] = (uint8_t)roll(d);
        return vn + (chance(d, 50) ? BLOCK_BYTES : 1 + below(d, BLOCK_BYTES));
    case 2: /* random bytes, sealed half of the time */
        for (size_t i = 0; i < vn; i++) v[i] = (uint8_t)roll(d);
        if (chance(d, 50)) twin_seal(v, vn);
        return vn;
    case 3: /* a check word */
        at = at / BLOCK_BYTES * BLOCK_BYTES + 4 * BLOCK_CONTENT + below(d, 8);
        break;
    default: break;
    }
    v[at] ^= (uint8_t)(1u << below(d, 8));
    /* a second change in another block: the first bad block is the answer */
    if (chance(d, 40)) v[below(d, (uint32_t)vn)] ^= (uint8_t)(1 + below(d, 255));
    return vn;
}
