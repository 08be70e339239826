/* The twin's search: document 01, "The settling rule". State j is junction j
   climbing, state N + j the same junction descending, so that "climbing before
   descending, then the lower junction" is the lower state number. The states
   that wait are kept in a list, and the least of it is looked for. */
#include "twin.h"

#include <string.h>

enum stage { UNSEEN, WAITING, SETTLED };

#define NO_EDGE UINT32_MAX

struct state {
    enum stage stage;
    uint64_t arrival;
    uint32_t before, edge; /* the state that made the offer, and by which edge */
};

struct search {
    const struct twin_volume *v;
    struct twin_fans fans;
    uint8_t marked[MAX_JUNCTIONS];
    struct state state[2 * MAX_JUNCTIONS];
    uint32_t waiting[2 * MAX_JUNCTIONS], waits; /* the waiting states, in no order */
};

/* Marks the destination and, in rising rank, what has an edge to a lower marked junction. */
static void mark(struct search *s, uint32_t to) {
    for (uint32_t u = 0; u < s->v->n; u++) {
        s->marked[u] = u == to;
        for (uint32_t i = s->fans.begin[u]; i < s->fans.begin[u + 1]; i++) {
            uint32_t w = s->v->edge[s->fans.edge[i]].to;
            if (w < u && s->marked[w]) s->marked[u] = 1;
        }
    }
}

static void offer(struct search *s, uint32_t state, uint64_t arrival, uint32_t before, uint32_t edge) {
    struct state *at = &s->state[state];
    if (at->stage == SETTLED) return;
    if (at->stage == WAITING && at->arrival <= arrival) return;
    if (at->stage == UNSEEN) s->waiting[s->waits++] = state;
    *at = (struct state){WAITING, arrival, before, edge};
}

/* The place in the list of the waiting state to be settled next. */
static uint32_t least_waiting(const struct search *s) {
    uint32_t best = 0;
    for (uint32_t i = 1; i < s->waits; i++) {
        uint32_t one = s->waiting[i], other = s->waiting[best];
        uint64_t a = s->state[one].arrival, b = s->state[other].arrival;
        if (a < b || (a == b && one < other)) best = i;
    }
    return best;
}

static void settle(struct search *s, uint32_t place) {
    uint32_t state = s->waiting[place], n = s->v->n;
    s->waiting[place] = s->waiting[--s->waits];
    s->state[state].stage = SETTLED;
    uint64_t now = s->state[state].arrival;
    int climbing = state < n;
    uint32_t junction = climbing ? state : state - n;
    if (climbing && s->marked[junction]) offer(s, n + junction, now, state, NO_EDGE);
    for (uint32_t i = s->fans.begin[junction]; i < s->fans.begin[junction + 1]; i++) {
        uint32_t edge = s->fans.edge[i], to = s->v->edge[edge].to;
        if (climbing ? to < junction : to > junction || !s->marked[to]) continue;
        offer(s, climbing ? to : n + to, now + twin_edge_duration(s->v, edge, now), state, edge);
    }
}

/* ---- the path */

/* Unfolds the edge at its departure: counts its roads, and writes them where
   path is not null. */
static uint64_t unfold(const struct twin_volume *v, uint32_t edge, uint64_t departure, uint32_t *path) {
    const struct twin_piece *piece = twin_piece_in_force(v, edge, departure);
    if (piece->right == EMPTY_MIDDLE) {
        if (path) path[0] = piece->left;
        return 1;
    }
    uint64_t left = unfold(v, piece->left, departure, path);
    uint64_t later = departure + twin_edge_duration(v, piece->left, departure);
    return left + unfold(v, piece->right, later, path ? path + left : NULL);
}

/* The edges to the state goal, last first; gives how many. */
static uint32_t trail(const struct search *s, uint32_t goal, uint32_t start, uint32_t *edges) {
    uint32_t count = 0;
    for (uint32_t at = goal; at != start; at = s->state[at].before)
        if (s->state[at].edge != NO_EDGE) edges[count++] = s->state[at].edge;
    return count;
}

/* Unfolds the chain of edges, kept last first; counts, and writes as unfold does. */
static uint64_t unfold_all(const struct search *s, const uint32_t *edges, uint32_t count, uint64_t now,
                           uint32_t *path) {
    uint64_t roads = 0;
    for (uint32_t i = count; i-- > 0;) {
        roads += unfold(s->v, edges[i], now, path ? path + roads : NULL);
        now += twin_edge_duration(s->v, edges[i], now);
    }
    return roads;
}

/* ---- the answers */

static uint32_t answer_closed(const struct search *s, uint32_t from, uint32_t goal, uint32_t used,
                              uint32_t *path, size_t pathn, uint64_t *out) {
    uint32_t edges[2 * MAX_JUNCTIONS];
    uint32_t count = trail(s, goal, from, edges);
    uint64_t departure = s->state[from].arrival;
    uint64_t roads = unfold_all(s, edges, count, departure, NULL);
    if (roads > pathn) {
        out[0] = roads;
        return 9;
    }
    unfold_all(s, edges, count, departure, path);
    out[0] = 0;
    out[1] = s->state[goal].arrival;
    out[2] = used;
    out[3] = roads;
    return 0;
}

static uint32_t answer_no_way(uint32_t used, uint64_t *out) {
    out[0] = 1;
    out[1] = used;
    return 0;
}

static uint32_t answer_open(const struct search *s, uint64_t lower, uint32_t goal, uint32_t used,
                            uint64_t *out) {
    int upper = s->state[goal].stage == WAITING;
    out[0] = 2;
    out[1] = lower;
    out[2] = (uint64_t)upper;
    out[3] = upper ? s->state[goal].arrival : 0;
    out[4] = used;
    return 0;
}

/* Settles until one of the three answers can be given. */
static uint32_t settle_and_answer(struct search *s, uint32_t from, uint32_t to, uint32_t budget,
                                  uint32_t *path, size_t pathn, uint64_t *out) {
    uint32_t goal = s->v->n + to;
    for (uint32_t used = 0;; used++) {
        if (s->waits == 0) return answer_no_way(used, out);
        uint32_t place = least_waiting(s);
        uint64_t least = s->state[s->waiting[place]].arrival;
        /* a climbing state that arrives no later does not keep the answer open */
        if (s->state[goal].stage == WAITING && s->state[goal].arrival == least)
            return answer_closed(s, from, goal, used, path, pathn, out);
        if (used == budget) return answer_open(s, least, goal, used, out);
        settle(s, place);
    }
}

static struct twin_verdict ask(const struct twin_volume *v, uint32_t from, uint32_t to, size_t workn) {
    if (from >= v->n) return (struct twin_verdict){7, 0};
    if (to >= v->n) return (struct twin_verdict){7, 1};
    if (workn < 8 * (size_t)v->n) return (struct twin_verdict){8, 0};
    return (struct twin_verdict){0, 0};
}

uint32_t twin_search(const uint8_t *v, size_t vn, uint32_t from, uint32_t to, uint32_t departure,
                     uint32_t budget, uint64_t *work, size_t workn, uint32_t *path, size_t pathn,
                     uint64_t *out, size_t outn) {
    static struct search s;
    struct twin_volume volume;
    if (outn < OUT_PLACES) return 9;
    struct twin_verdict verdict = twin_opened(&volume, v, vn);
    if (verdict.number == 0) verdict = ask(&volume, from, to, workn);
    if (verdict.number != 0) {
        out[0] = verdict.place;
        return verdict.number;
    }
    /* the twin has its own memory and owes the work area only its zeros */
    memset(work, 0, 8 * (size_t)volume.n * sizeof *work);
    s.v = &volume;
    s.waits = 0;
    memset(s.state, 0, 2 * (size_t)volume.n * sizeof *s.state);
    twin_make_fans(&s.fans, &volume);
    mark(&s, to);
    offer(&s, from, departure, from, NO_EDGE);
    return settle_and_answer(&s, from, to, budget, path, pathn, out);
}
