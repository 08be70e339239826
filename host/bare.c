/* The earliest arrival over the bare roads: it shares nothing with the hierarchy
   search but the roads' durations. */
#include "net.h"

#include <string.h>

/* The roads of net as the twin reads them. */
static struct twin_volume roads_of(const struct net *net) {
    return (struct twin_volume){net->n, net->r, net->p, 0, 0, net->road, net->point, NULL, NULL};
}

/* The roads of each start, chained, and the junctions that wait, in no order. */
static uint32_t first[MAX_JUNCTIONS], next[MAX_ROADS + 1];
static uint32_t waiting[MAX_JUNCTIONS], waits;
static uint64_t arrival[MAX_JUNCTIONS];

static void chain_roads(const struct net *net) {
    memset(first, 0xff, net->n * sizeof *first);
    for (uint32_t k = 0; k < net->r; k++) {
        next[k] = first[net->road[k].from];
        first[net->road[k].from] = k;
    }
}

static uint32_t take_least(void) {
    uint32_t best = 0;
    for (uint32_t i = 1; i < waits; i++)
        if (arrival[waiting[i]] < arrival[waiting[best]]) best = i;
    uint32_t junction = waiting[best];
    waiting[best] = waiting[--waits];
    return junction;
}

uint64_t bare_arrival(const struct net *net, uint32_t from, uint32_t to, uint32_t departure) {
    struct twin_volume roads = roads_of(net);
    chain_roads(net);
    memset(arrival, 0xff, net->n * sizeof *arrival);
    arrival[from] = departure;
    waiting[0] = from;
    waits = 1;
    while (waits > 0) {
        uint32_t u = take_least();
        if (u == to) break;
        for (uint32_t k = first[u]; k != UINT32_MAX; k = next[k]) {
            uint32_t w = net->road[k].to;
            uint64_t then = arrival[u] + twin_road_duration(&roads, k, arrival[u]);
            /* roads are FIFO, so what was taken already is not bettered */
            if (then >= arrival[w]) continue;
            if (arrival[w] == UINT64_MAX) waiting[waits++] = w;
            arrival[w] = then;
        }
    }
    return arrival[to];
}
