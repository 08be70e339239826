/* The volumes of the differential test: full ones, sound ones that are not full,
   ones with a rule broken, ones damaged in their bytes, and the limits. */
#include "compare.h"

/* A full volume: mostly of few junctions, now and then of middle size. */
static void make_full(struct net *net, struct dice *d, int middle) {
    uint32_t n = middle ? 7 + below(d, 9) : 1 + below(d, 7);
    if (middle && chance(d, 30))
        gen_grid(net, d, 3 + below(d, 5), 3 + below(d, 5), 40);
    else if (chance(d, 50))
        gen_diamond(net, d, 1 + below(d, 4));
    else
        gen_roads(net, d, n, below(d, n + n / 2 + 1));
    /* with no roads at all it is full too */
    if (!net_build_full(net)) net_start(net, n);
}

static void make_sound(struct net *net, struct dice *d) {
    gen_sound(net, d, chance(d, 97) ? 1 + below(d, 12) : 13 + below(d, 48));
}

/* Of a hundred, 7 are full, 9 were full before a change, 29 sound; 35 have a rule
   of the records broken, 10 the head, and 10 their bytes. */
int make_volume(struct net *net, struct dice *d, uint8_t *page, size_t *length) {
    uint32_t kind = below(d, 100);
    if (kind < 16)
        make_full(net, d, kind == 0);
    else
        make_sound(net, d);
    if (kind >= 7 && kind < 16) tweak(net, d);
    if (kind >= 45 && kind < 80) break_rule(net, d);
    *length = net_write(net, page);
    if (kind >= 80 && kind < 90) *length = break_head(page, *length, d);
    if (kind >= 90) *length = break_bytes(page, *length, d);
    return kind < 7;
}

/* ---- the limits of the format */

/* An edge of span 4,097: 4,096 down to junction 12, and one road on. */
static void make_span_over(struct net *net, struct dice *d) {
    gen_ladder(net, d, 14, 1);
    uint32_t down = net->e - 1; /* 13 to 12, the last of the ladder */
    net->n = 15;
    net_add_road(net, 12, 14);
    net_add_point(net, 0, 60);
    net_add_edge(net, 12, 14);
    net_add_piece(net, 0, net->r - 1, EMPTY_MIDDLE);
    net_add_edge(net, 13, 14);
    net_add_piece(net, 0, down, net->e - 2);
}

void make_limit(struct net *net, struct dice *d, uint32_t which, uint8_t *page, size_t *length) {
    gen_limits(net, d);
    switch (which) {
    case 0: break;
    case 1: net->n++; break;
    case 2: net->road[net->r++] = (struct twin_road){0, 1, net->p, 0}; break;
    case 3: net_add_point(net, DAY - 1, 500); break;
    case 4: net->edge[net->e++] = (struct twin_edge){1, 2, net->q, 0, 0}; break;
    case 5: net_add_piece(net, DAY - 1, net->e - 2, EMPTY_MIDDLE); break;
    case 6: net->piece[net->q - 1].start = DAY; break;
    case 7: gen_ladder(net, d, 14, 1); break;
    case 8: make_span_over(net, d); break;
    default: break;
    }
    *length = net_write(net, page);
    if (which == 9) *length += BLOCK_BYTES; /* 3,382 blocks */
}
