/* The twin's full check: document 01, "Full", at every second of the day. */
#include "twin.h"

/* What the check answers; the order of the kinds is that of breezeflint.h. */
struct fault {
    enum { FULL, ROAD_MISSING, ROAD_LATE, PAIR_MISSING, PAIR_LATE } kind;
    uint32_t one, other, second;
};

/* The edge with these ends, or E. */
static uint32_t edge_between(const struct twin_volume *v, const struct twin_fans *fans, uint32_t from,
                             uint32_t to) {
    for (uint32_t i = fans->begin[from]; i < fans->begin[from + 1]; i++)
        if (v->edge[fans->edge[i]].to == to) return fans->edge[i];
    return v->e;
}

static struct fault check_road(const struct twin_volume *v, const struct twin_fans *fans,
                               uint32_t road) {
    uint32_t edge = edge_between(v, fans, v->road[road].from, v->road[road].to);
    if (edge == v->e) return (struct fault){ROAD_MISSING, road, 0, 0};
    for (uint32_t x = 0; x < DAY; x++)
        if (twin_edge_duration(v, edge, x) > twin_road_duration(v, road, x))
            return (struct fault){ROAD_LATE, road, 0, x};
    return (struct fault){FULL, 0, 0, 0};
}

/* Two edges in turn through a junction lower than both outer ends. */
static int is_pair(const struct twin_edge *left, const struct twin_edge *right) {
    uint32_t middle = left->to;
    return left->from != right->to && middle < left->from && middle < right->to;
}

static struct fault check_pair(const struct twin_volume *v, const struct twin_fans *fans, uint32_t left,
                               uint32_t right) {
    uint32_t edge = edge_between(v, fans, v->edge[left].from, v->edge[right].to);
    if (edge == v->e) return (struct fault){PAIR_MISSING, left, right, 0};
    for (uint32_t x = 0; x < DAY; x++) {
        uint64_t first = twin_edge_duration(v, left, x);
        if (twin_edge_duration(v, edge, x) > first + twin_edge_duration(v, right, x + first))
            return (struct fault){PAIR_LATE, left, right, x};
    }
    return (struct fault){FULL, 0, 0, 0};
}

static struct fault first_fault(const struct twin_volume *v) {
    static struct twin_fans fans;
    twin_make_fans(&fans, v);
    for (uint32_t road = 0; road < v->r; road++) {
        struct fault found = check_road(v, &fans, road);
        if (found.kind != FULL) return found;
    }
    for (uint32_t left = 0; left < v->e; left++) {
        uint32_t middle = v->edge[left].to;
        for (uint32_t i = fans.begin[middle]; i < fans.begin[middle + 1]; i++) {
            if (!is_pair(&v->edge[left], &v->edge[fans.edge[i]])) continue;
            struct fault found = check_pair(v, &fans, left, fans.edge[i]);
            if (found.kind != FULL) return found;
        }
    }
    return (struct fault){FULL, 0, 0, 0};
}

uint32_t twin_check(const uint8_t *v, size_t vn, uint64_t *out, size_t outn) {
    if (outn < OUT_PLACES) return 9;
    struct twin_volume volume;
    struct twin_verdict verdict = twin_opened(&volume, v, vn);
    if (verdict.number != 0) {
        out[0] = verdict.place;
        return verdict.number;
    }
    struct fault found = first_fault(&volume);
    out[0] = found.kind;
    out[1] = found.one;
    out[2] = found.other;
    out[3] = found.second;
    return 0;
}
