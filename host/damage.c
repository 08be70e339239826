/* The generator of damage to records; that to bytes is in bytes.c. Each rule of
   document 01 has a case below that puts one value at its boundary, now inside
   and now outside; what the volume then is, is for the two programs to agree on. */
#include "net.h"

#include <string.h>

/* A value at the boundary of numbers below limit. */
static uint32_t boundary(struct dice *d, uint32_t limit) {
    switch (below(d, 5)) {
    case 0: return 0;
    case 1: return UINT32_MAX - below(d, 2);
    case 2: return below(d, limit);
    default: return about(d, limit);
    }
}

/* ---- roads and points */

static void break_road(struct net *net, struct dice *d) {
    struct twin_road *road = &net->road[below(d, net->r)];
    switch (below(d, 6)) {
    case 0: road->from = boundary(d, net->n); break;
    case 1: road->to = boundary(d, net->n); break;
    case 2: road->to = road->from; break;
    case 3: road->first = chance(d, 80) ? about(d, road->first) : boundary(d, net->p); break;
    case 4: road->count = chance(d, 80) ? about(d, road->count) : boundary(d, net->p); break;
    default: road->count = chance(d, 50) ? 0 : UINT32_MAX - road->first + below(d, 3);
    }
}

/* Puts the duration of a point where the fall to it, inside the day or over
   midnight, is about the seconds between. */
static void break_fifo(struct net *net, struct dice *d, const struct twin_road *road) {
    struct twin_point *point = net->point + road->first;
    uint32_t last = road->count - 1, i = chance(d, 50) ? 0 : below(d, road->count);
    uint32_t before = i == 0 ? last : i - 1;
    uint32_t gap = point[i].second - point[before].second + (i == 0 ? DAY : 0);
    if (point[before].duration > gap) point[i].duration = about(d, point[before].duration - gap);
    if (point[before].duration <= gap && gap < DAY)
        point[before].duration = about(d, point[i].duration + gap);
}

/* Two points so close over midnight that a fall shows. */
static void break_midnight(struct net *net, struct dice *d, const struct twin_road *road) {
    struct twin_point *point = net->point + road->first, *last = point + road->count - 1;
    if (road->count < 2) return;
    point->second = 0;
    last->second = DAY - 50;
    if (road->count > 2 && last[-1].second >= last->second) return;
    for (uint32_t i = 0; i < road->count; i++) point[i].duration = 200;
    point->duration = about(d, 151);
}

static void break_point(struct net *net, struct dice *d) {
    const struct twin_road *road = &net->road[below(d, net->r)];
    uint32_t i = chance(d, 50) ? road->count - 1 : below(d, road->count);
    struct twin_point *point = &net->point[road->first + i];
    switch (below(d, 8)) {
    case 0: point->second = boundary(d, DAY); break;
    case 1: net->point[road->first + road->count - 1].second = about(d, DAY); break;
    case 2: point->second = about(d, i > 0 ? point[-1].second : 0); break;
    case 3: point->duration = about(d, 1); break;
    case 4: point->duration = about(d, DAY); break;
    case 5: break_midnight(net, d, road); break;
    default: break_fifo(net, d, road);
    }
}

/* ---- edges and pieces */

/* The rules of two edges in turn that a piece of edge k would break, a bit each. */
static uint32_t rules_broken(const struct net *net, uint32_t k, uint32_t left, uint32_t right) {
    const struct twin_edge *edge = &net->edge[k], *one = &net->edge[left], *other = &net->edge[right];
    int broken[] = {left >= k,
                    right >= k,
                    one->from != edge->from,
                    other->to != edge->to,
                    one->to != other->from,
                    one->to >= edge->from,
                    one->to >= edge->to};
    uint32_t bits = 0;
    for (uint32_t i = 0; i < sizeof broken / sizeof *broken; i++) bits |= (uint32_t)broken[i] << i;
    return bits;
}

/* Two edges for some piece of edge k, by chance among those that break just these
   rules; 0 where there are none. */
static uint32_t take_some_pair(struct net *net, struct dice *d, uint32_t k, uint32_t broken) {
    struct twin_piece *piece = &net->piece[net->edge[k].first + below(d, net->edge[k].count)];
    uint32_t found = 0;
    if (net->e > 200) return 0; /* every two are looked at */
    for (uint32_t left = 0; left < net->e; left++) {
        for (uint32_t right = 0; right < net->e; right++) {
            if (rules_broken(net, k, left, right) != broken || below(d, ++found) != 0) continue;
            piece->left = left;
            piece->right = right;
        }
    }
    return found;
}

/* The number of an edge after a and b have changed places. */
static uint32_t moved(uint32_t k, uint32_t a, uint32_t b) { return k == a ? b : k == b ? a : k; }

/* Lets two edges change places, and nothing else: an edge may then ask a later one. */
static void exchange_edges(struct net *net, uint32_t a, uint32_t b) {
    static struct net old;
    old = *net;
    net->e = net->q = 0;
    for (uint32_t k = 0; k < old.e; k++) {
        const struct twin_edge *edge = &old.edge[moved(k, a, b)];
        uint32_t first = net->q;
        for (uint32_t i = 0; i < edge->count; i++) {
            struct twin_piece piece = old.piece[edge->first + i];
            if (piece.right != EMPTY_MIDDLE) {
                piece.left = moved(piece.left, a, b);
                piece.right = moved(piece.right, a, b);
            }
            net->piece[net->q++] = piece;
        }
        net->edge[net->e++] = (struct twin_edge){edge->from, edge->to, first, edge->count, edge->span};
    }
}

/* Sets the span to what the pieces say, so that only the rule above is broken. */
static void mend_span(struct net *net, struct twin_edge *edge) {
    edge->span = 0;
    for (uint32_t i = edge->first; i < edge->first + edge->count; i++) {
        const struct twin_piece *piece = &net->piece[i];
        if (piece->right != EMPTY_MIDDLE && (piece->left >= net->e || piece->right >= net->e)) continue;
        uint32_t span = net_piece_span(net, piece->left, piece->right);
        if (span > edge->span) edge->span = span;
    }
}

static void break_edge(struct net *net, struct dice *d) {
    uint32_t k = below(d, net->e);
    struct twin_edge *edge = &net->edge[k], *other = &net->edge[below(d, net->e)];
    switch (below(d, 9)) {
    case 0: edge->from = boundary(d, net->n); break;
    case 1: edge->to = boundary(d, net->n); break;
    case 2: edge->to = edge->from; break;
    case 3:
        /* the same two ends as another edge, whose pieces then fit this one too */
        edge->from = other->from;
        edge->to = other->to;
        if (other->first != edge->first) net->piece[edge->first] = net->piece[other->first];
        break;
    case 4: edge->first = chance(d, 80) ? about(d, edge->first) : boundary(d, net->q); break;
    case 5: edge->count = chance(d, 80) ? about(d, edge->count) : boundary(d, net->q); break;
    case 6: edge->count = chance(d, 50) ? 0 : UINT32_MAX - edge->first + below(d, 3); break;
    case 7: exchange_edges(net, k, below(d, net->e)); break;
    default: edge->span = chance(d, 70) ? about(d, edge->span) : about(d, MAX_SPAN + below(d, 2));
    }
}

static void break_piece(struct net *net, struct dice *d) {
    uint32_t k = below(d, net->e);
    struct twin_edge *edge = &net->edge[k];
    uint32_t i = below(d, edge->count);
    struct twin_piece *piece = &net->piece[edge->first + i];
    switch (below(d, 8)) {
    case 0: piece->start = boundary(d, DAY); break;
    case 1: net->piece[edge->first].start = 1; break;
    case 2: net->piece[edge->first + edge->count - 1].start = about(d, DAY); break;
    case 3: piece->start = about(d, i > 0 ? piece[-1].start : 0); break;
    case 4: piece->left = chance(d, 50) ? about(d, k) : about(d, net->r); break;
    case 5: piece->right = chance(d, 50) ? about(d, k) : boundary(d, net->e); break;
    case 6: piece->left = below(d, net->r > net->e ? net->r : net->e); break;
    default: piece->right = piece->right == EMPTY_MIDDLE ? below(d, net->e) : EMPTY_MIDDLE;
    }
    if (chance(d, 70)) mend_span(net, edge);
}

/* A piece of two edges that break one rule, of an edge that has such two. */
static void break_pair(struct net *net, struct dice *d) {
    uint32_t broken = 1u << below(d, 7);
    for (int tries = 0; tries < 40; tries++) {
        uint32_t k = below(d, net->e);
        if (take_some_pair(net, d, k, broken) == 0) continue;
        mend_span(net, &net->edge[k]);
        return;
    }
}

/* Points or pieces left over, or one too few. */
static void break_rest(struct net *net, struct dice *d) {
    switch (below(d, 4)) {
    case 0: net->point[net->p++] = (struct twin_point){below(d, DAY), 60}; break;
    case 1: net->piece[net->q++] = (struct twin_piece){0, 0, EMPTY_MIDDLE}; break;
    case 2: net->p -= net->p > 0; break;
    default: net->q -= net->q > 0;
    }
}

void break_rule(struct net *net, struct dice *d) {
    static void (*const of_road[])(struct net *, struct dice *) = {break_road, break_point};
    static void (*const of_edge[])(struct net *, struct dice *) = {break_edge, break_piece, break_pair};
    uint32_t which = below(d, 10);
    if (which < 4 && net->r > 0) of_road[chance(d, 60)](net, d);
    if (which >= 4 && which < 9 && net->e > 0) of_edge[below(d, 3)](net, d);
    if (which == 9) break_rest(net, d);
}

/* ---- changes that mostly keep a network sound */

static void drop_piece(struct net *net, uint32_t k) {
    struct twin_edge *edge = &net->edge[k];
    if (edge->count < 2) return;
    uint32_t gone = edge->first + edge->count - 1;
    memmove(net->piece + gone, net->piece + gone + 1, (net->q - gone - 1) * sizeof *net->piece);
    net->q--;
    edge->count--;
    for (uint32_t i = k + 1; i < net->e; i++) net->edge[i].first--;
}

static int has_road(const struct net *net, const struct twin_edge *edge) {
    for (uint32_t k = 0; k < net->r; k++)
        if (net->road[k].from == edge->from && net->road[k].to == edge->to) return 1;
    return 0;
}

/* An edge, preferably one with no road of its ends: only a pair can find its fault. */
static uint32_t some_shortcut(const struct net *net, struct dice *d) {
    uint32_t k = below(d, net->e);
    for (int tries = 0; tries < 20 && has_road(net, &net->edge[k]); tries++) k = below(d, net->e);
    return k;
}

void tweak(struct net *net, struct dice *d) {
    if (net->e == 0) return;
    uint32_t k = some_shortcut(net, d), i;
    struct twin_edge *edge = &net->edge[k];
    switch (below(d, 5)) {
    case 0: /* the last edge goes: a road or a pair misses its edge */
        net->e--;
        net->q -= net->edge[net->e].count;
        return;
    case 1: drop_piece(net, k); break;
    case 2: /* a change of way a second too early or too late */
        i = edge->first + edge->count - 1;
        if (edge->count > 1) net->piece[i].start = about(d, net->piece[i].start);
        break;
    case 3: /* a road gets a little quicker or slower than the edges think */
        i = below(d, net->p);
        net->point[i].duration = about(d, net->point[i].duration);
        break;
    default: /* another way for one piece */ take_some_pair(net, d, k, 0);
    }
    for (i = k; i < net->e; i++) mend_span(net, &net->edge[i]);
}
