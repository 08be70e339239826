/* The builder of full volumes, which stands for the builder outside the house:
   it contracts the junctions from rank 0 up. For every two junctions u and w
   that are joined it keeps the least duration at every second of the day and
   the way that gives it: a road, or two edges through a lower junction. When the
   lower of u and w comes up, all that could better the edge has been offered, so
   it gets its number, and its pieces are the runs of seconds with one way. */
#include "net.h"

#include <stdlib.h>
#include <string.h>

/* One way to drive from u to w. */
struct way {
    uint32_t left, right;
};

/* The edge from u to w in the making. */
struct link {
    uint32_t from, to, number;
    uint32_t ways, room;
    struct way *way;
    uint32_t *duration; /* for each second, and null before the first offer */
    uint16_t *chosen;   /* which way */
};

static struct link *links[MAX_JUNCTIONS][MAX_JUNCTIONS];

static void *need(size_t size) {
    void *memory = malloc(size);
    if (memory == NULL) abort();
    return memory;
}

static struct link *link_between(uint32_t from, uint32_t to) {
    struct link **place = &links[from][to];
    if (*place == NULL) {
        *place = need(sizeof **place);
        **place = (struct link){.from = from, .to = to};
        (*place)->duration = need(DAY * sizeof(uint32_t));
        (*place)->chosen = need(DAY * sizeof(uint16_t));
        memset((*place)->duration, 0xff, DAY * sizeof(uint32_t));
    }
    return *place;
}

static void drop_link(struct link *link) {
    links[link->from][link->to] = NULL;
    free(link->way);
    free(link->duration);
    free(link->chosen);
    free(link);
}

/* The number of a new way of link. */
static uint16_t add_way(struct link *link, struct way way) {
    if (link->ways == link->room) {
        struct way *more = need((2 * (size_t)link->room + 4) * sizeof *more);
        if (link->ways > 0) memcpy(more, link->way, link->ways * sizeof *more);
        free(link->way);
        link->way = more;
        link->room = 2 * link->room + 4;
    }
    link->way[link->ways] = way;
    return (uint16_t)link->ways++;
}

static void offer(struct link *link, uint32_t second, uint32_t duration, uint16_t way) {
    if (duration >= link->duration[second]) return;
    link->duration[second] = duration;
    link->chosen[second] = way;
}

/* Offers a road at each second: between two points the mean of both durations,
   weighed by the seconds to the other one. */
static void offer_road(const struct net *net, uint32_t road) {
    struct link *link = link_between(net->road[road].from, net->road[road].to);
    uint16_t way = add_way(link, (struct way){road, EMPTY_MIDDLE});
    const struct twin_point *point = net->point + net->road[road].first;
    uint32_t count = net->road[road].count;
    for (uint32_t i = 0; i < count; i++) {
        struct twin_point here = point[i], next = point[(i + 1) % count];
        uint32_t gap = i + 1 < count ? next.second - here.second : next.second + DAY - here.second;
        for (uint32_t x = 0; x < gap; x++) {
            uint64_t sum = (uint64_t)here.duration * (gap - x) + (uint64_t)next.duration * x;
            offer(link, (here.second + x) % DAY, (uint32_t)(sum / gap), way);
        }
    }
}

static void offer_pair(const struct link *left, const struct link *right) {
    struct link *link = link_between(left->from, right->to);
    uint16_t way = add_way(link, (struct way){left->number, right->number});
    for (uint32_t x = 0; x < DAY; x++) {
        uint32_t first = left->duration[x];
        offer(link, x, first + right->duration[(x + first) % DAY], way);
    }
}

/* Numbers a link and writes its pieces; 0 where they do not fit. */
static int finish_link(struct net *net, struct link *link) {
    if (net->e == MAX_EDGES) return 0;
    link->number = net->e;
    net_add_edge(net, link->from, link->to);
    for (uint32_t x = 0; x < DAY; x++) {
        if (x > 0 && link->chosen[x] == link->chosen[x - 1]) continue;
        if (net->q == MAX_PIECES) return 0;
        struct way way = link->way[link->chosen[x]];
        net_add_piece(net, x, way.left, way.right);
    }
    return net->edge[link->number].span <= MAX_SPAN;
}

/* Finishes the links of m with higher junctions, and offers every pair of them. */
static int contract(struct net *net, uint32_t m) {
    for (uint32_t k = 0; k < net->r; k++) {
        uint32_t from = net->road[k].from, to = net->road[k].to;
        if ((from < to ? from : to) == m) offer_road(net, k);
    }
    for (uint32_t u = m + 1; u < net->n; u++) {
        if (links[u][m] && !finish_link(net, links[u][m])) return 0;
        if (links[m][u] && !finish_link(net, links[m][u])) return 0;
    }
    for (uint32_t u = m + 1; u < net->n; u++)
        for (uint32_t w = m + 1; w < net->n; w++)
            if (u != w && links[u][m] && links[m][w]) offer_pair(links[u][m], links[m][w]);
    for (uint32_t u = m + 1; u < net->n; u++) {
        if (links[u][m]) drop_link(links[u][m]);
        if (links[m][u]) drop_link(links[m][u]);
    }
    return 1;
}

int net_build_full(struct net *net) {
    int fits = 1;
    net->e = net->q = 0;
    for (uint32_t m = 0; m < net->n && fits; m++) fits = contract(net, m);
    for (uint32_t u = 0; u < net->n && !fits; u++)
        for (uint32_t w = 0; w < net->n; w++)
            if (links[u][w]) drop_link(links[u][w]);
    return fits;
}
