/* The shrinker: drops records and lowers numbers as long as the library and the
   twin still differ. It is greedy and simple: what it drops last to first, it
   tries again until nothing goes any more or its tries are used up. */
#include "compare.h"

#include <stdio.h>

static struct net net, trial;
static uint8_t page[VOLUME_ROOM];
static int tries;

enum { MOST_PRINTED = 200 };

/* Drops record k of a kind whose holders say where their records begin. */
#define CLOSE_UP(array, count, k)                                                                      \
    do {                                                                                               \
        for (uint32_t i_ = (k); i_ + 1 < (count); i_++) (array)[i_] = (array)[i_ + 1];                 \
        (count)--;                                                                                     \
    } while (0)

static void drop_point(struct net *t, uint32_t k) {
    CLOSE_UP(t->point, t->p, k);
    for (uint32_t i = 0; i < t->r; i++) {
        struct twin_road *road = &t->road[i];
        if (road->first > k)
            road->first--;
        else if (k - road->first < road->count)
            road->count--;
    }
}

static void drop_piece(struct net *t, uint32_t k) {
    CLOSE_UP(t->piece, t->q, k);
    for (uint32_t i = 0; i < t->e; i++) {
        struct twin_edge *edge = &t->edge[i];
        if (edge->first > k)
            edge->first--;
        else if (k - edge->first < edge->count)
            edge->count--;
    }
}

static void drop_road(struct net *t, uint32_t k) {
    while (t->road[k].count > 0 && t->road[k].first < t->p) drop_point(t, t->road[k].first);
    CLOSE_UP(t->road, t->r, k);
    for (uint32_t i = 0; i < t->q; i++)
        if (t->piece[i].right == EMPTY_MIDDLE && t->piece[i].left > k) t->piece[i].left--;
}

static void drop_edge(struct net *t, uint32_t k) {
    while (t->edge[k].count > 0 && t->edge[k].first < t->q) drop_piece(t, t->edge[k].first);
    CLOSE_UP(t->edge, t->e, k);
    for (uint32_t i = 0; i < t->q; i++) {
        if (t->piece[i].right == EMPTY_MIDDLE) continue;
        if (t->piece[i].left > k) t->piece[i].left--;
        if (t->piece[i].right > k) t->piece[i].right--;
    }
}

/* The spans as the pieces have them: a dropped piece may have been the longest. */
static void mend_spans(struct net *t) {
    for (uint32_t k = 0; k < t->e; k++) {
        struct twin_edge *edge = &t->edge[k];
        edge->span = 0;
        for (uint32_t i = edge->first; i < t->q && i - edge->first < edge->count; i++) {
            const struct twin_piece *piece = &t->piece[i];
            if (piece->right != EMPTY_MIDDLE && (piece->left >= k || piece->right >= k)) continue;
            uint32_t span = net_piece_span(t, piece->left, piece->right);
            if (span > edge->span) edge->span = span;
        }
    }
}

/* Keeps the trial where the two still differ. */
static int keep_if_it_shows(const struct ask *ask) {
    if (tries-- <= 0 || !differ(ask, page, net_write(&trial, page), NULL)) return 0;
    net = trial;
    return 1;
}

/* Tries to drop many edges from the end at once, for a volume with thousands. */
static void drop_last_edges(const struct ask *ask) {
    for (uint32_t many = net.e / 2; many > 1; many /= 2) {
        do {
            trial = net;
            if (trial.e < many) break;
            trial.e -= many;
            for (uint32_t k = trial.e; k < net.e; k++)
                trial.q -= trial.q < net.edge[k].count ? trial.q : net.edge[k].count;
        } while (keep_if_it_shows(ask));
    }
}

/* Tries to drop each record of one kind, with the spans as they are and mended. */
static int drop_each(struct ask *ask, void (*drop)(struct net *, uint32_t), const uint32_t *count) {
    int dropped = 0;
    for (uint32_t k = *count; k-- > 0 && tries > 0;) {
        struct ask moved = *ask;
        int numbered = (drop == drop_road && ask->face == ROAD_TIME) ||
                       (drop == drop_edge && ask->face == EDGE_TIME);
        if (numbered && moved.one > k) moved.one--;
        trial = net;
        drop(&trial, k);
        int shows = keep_if_it_shows(&moved);
        if (!shows) {
            trial = net;
            drop(&trial, k);
            mend_spans(&trial);
            shows = keep_if_it_shows(&moved);
        }
        if (shows) *ask = moved;
        dropped |= shows;
    }
    return dropped;
}

static int lower_number(struct ask *ask, uint32_t *number, uint32_t to) {
    uint32_t before = *number;
    if (before <= to || tries-- <= 0) return 0;
    *number = to;
    if (differ(ask, page, net_write(&net, page), NULL)) return 1;
    *number = before;
    return 0;
}

static int lower_junctions(const struct ask *ask) {
    trial = net;
    if (trial.n < 2) return 0;
    trial.n--;
    return keep_if_it_shows(ask);
}

/* Drops whole blocks from the end of a volume that is not one of records. */
static void drop_blocks(const struct ask *ask, const uint8_t *v, size_t *vn) {
    while (*vn >= BLOCK_BYTES && differ(ask, v, *vn - BLOCK_BYTES, NULL)) *vn -= BLOCK_BYTES;
}

void shrink(struct ask *ask, uint8_t *v, size_t *vn) {
    tries = ask->face == CHECK ? 300 : 6000;
    if (!net_read(&net, v, *vn) || !differ(ask, page, net_write(&net, page), NULL)) {
        drop_blocks(ask, v, vn);
        return;
    }
    drop_last_edges(ask);
    for (int again = 1; again && tries > 0;) {
        again = drop_each(ask, drop_edge, &net.e);
        again |= drop_each(ask, drop_piece, &net.q);
        again |= drop_each(ask, drop_road, &net.r);
        again |= drop_each(ask, drop_point, &net.p);
        again |= lower_junctions(ask);
        again |= lower_number(ask, &ask->departure, ask->departure % DAY);
        again |= lower_number(ask, &ask->departure, 0);
        again |= lower_number(ask, &ask->budget, 2 * net.n - 1);
    }
    *vn = net_write(&net, v);
}

static void print_words(const char *kind, uint32_t k, const void *words, uint32_t count) {
    const uint32_t *word = words;
    if (k >= MOST_PRINTED) return;
    printf("  %s %u:", kind, k);
    for (uint32_t i = 0; i < count; i++) printf(" %u", word[i]);
    printf("\n");
}

/* Prints the records, or the bytes of a volume that has none; the first of very
   many, since seed and case give them all again. */
void print_volume(const uint8_t *v, size_t vn) {
    if (!net_read(&net, v, vn)) {
        for (size_t i = 0; i < vn && i < 32 * MOST_PRINTED; i++)
            printf(i % 32 ? "%02x" : "\n  %02x", v[i]);
        printf("\n");
        return;
    }
    printf("  N %u R %u P %u E %u Q %u\n", net.n, net.r, net.p, net.e, net.q);
    for (uint32_t k = 0; k < net.r; k++) print_words("road", k, &net.road[k], 4);
    for (uint32_t k = 0; k < net.p; k++) print_words("point", k, &net.point[k], 2);
    for (uint32_t k = 0; k < net.e; k++) print_words("edge", k, &net.edge[k], 5);
    for (uint32_t k = 0; k < net.q; k++) print_words("piece", k, &net.piece[k], 3);
    if (net_write(&net, page) == vn) {
        for (size_t i = 0; i < vn; i++)
            if (page[i] != v[i]) printf("  and byte %lu is %u in place of %u\n", i, v[i], page[i]);
    }
}
