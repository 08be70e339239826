/* The generator of networks: random roads, sound edges over them that need not
   be full, maps like a grid, and networks at the limits of the format. */
#include "net.h"

#include <string.h>

/* ---- roads */

static uint32_t some_second(struct dice *d) {
    switch (below(d, 8)) {
    case 0: return 0;
    case 1: return DAY - 1;
    case 2: return below(d, 200);
    default: return below(d, DAY);
    }
}

/* A duration, mostly of at most usual seconds. */
static uint32_t some_duration(struct dice *d, uint32_t usual) {
    if (usual < 10) return 1 + below(d, usual);
    switch (below(d, 10)) {
    case 0: return 1;
    case 1: return DAY;
    case 2: return 1 + below(d, DAY);
    default: return 1 + below(d, usual);
    }
}

/* The usual duration in one network: now and then so short that many arrivals are equal. */
static uint32_t some_usual(struct dice *d) { return chance(d, 40) ? 1 + below(d, 3) : 400; }

/* Raises durations where the road would break the FIFO rule, so that a fall of
   exactly the seconds between comes often. Twice round reaches every point. */
static void make_fifo(struct twin_point *point, uint32_t count) {
    for (uint32_t i = 0; i < 2 * count; i++) {
        struct twin_point *here = &point[i % count], *next = &point[(i + 1) % count];
        uint32_t gap =
            i % count + 1 < count ? next->second - here->second : next->second + DAY - here->second;
        if (next->duration + gap < here->duration) next->duration = here->duration - gap;
    }
}

/* Gives the last road up to count points at strictly rising seconds. */
static void add_points(struct net *net, struct dice *d, uint32_t count, uint32_t usual) {
    uint32_t first = net->p;
    uint32_t second = count == 1 ? some_second(d) : below(d, 2) * below(d, DAY / 4);
    for (uint32_t i = 0; i < count && second < DAY; i++) {
        net_add_point(net, second, some_duration(d, usual));
        second += 1 + (chance(d, 30) ? below(d, 100) : below(d, DAY / count));
        if (i + 2 == count && chance(d, 20) && second < DAY) second = DAY - 1;
    }
    make_fifo(net->point + first, net->p - first);
}

void gen_roads(struct net *net, struct dice *d, uint32_t n, uint32_t roads) {
    uint32_t usual = some_usual(d);
    net_start(net, n);
    for (uint32_t k = 0; k < roads && n > 1; k++) {
        uint32_t from = below(d, n), to = below(d, n);
        /* now and then a parallel road, or the way back */
        if (k > 0 && chance(d, 25)) {
            from = net->road[k - 1].from;
            to = net->road[k - 1].to;
            if (chance(d, 40)) {
                from = net->road[k - 1].to;
                to = net->road[k - 1].from;
            }
        }
        if (from == to) to = (from + 1) % n;
        net_add_road(net, from, to);
        add_points(net, d, chance(d, 40) ? 1 : 1 + below(d, chance(d, 10) ? 30 : 5), usual);
    }
}

void gen_diamond(struct net *net, struct dice *d, uint32_t middles) {
    uint32_t usual = some_usual(d);
    net_start(net, middles + 2);
    for (uint32_t m = 0; m < middles; m++) {
        net_add_road(net, middles, m);
        add_points(net, d, 1 + below(d, 4), usual);
        net_add_road(net, m, middles + 1);
        add_points(net, d, 1 + below(d, 4), usual);
    }
}

/* ---- sound edges */

enum { SOUND_JUNCTIONS = 64, SOUND_WAYS = 64 };

/* The ways, of span at most longest, that a piece from u to w may take over the
   edges made so far. */
static uint32_t ways_between(const struct net *net, uint32_t edge[][SOUND_JUNCTIONS], uint32_t u,
                             uint32_t w, uint32_t longest, struct twin_piece *way) {
    uint32_t count = 0;
    for (uint32_t k = 0; k < net->r && count < SOUND_WAYS; k++)
        if (net->road[k].from == u && net->road[k].to == w)
            way[count++] = (struct twin_piece){0, k, EMPTY_MIDDLE};
    for (uint32_t m = 0; m < u && m < w && count < SOUND_WAYS; m++) {
        uint32_t left = edge[u][m], right = edge[m][w];
        if (left == UINT32_MAX || right == UINT32_MAX) continue;
        if (net_piece_span(net, left, right) > longest) continue;
        way[count++] = (struct twin_piece){0, left, right};
    }
    return count;
}

/* Adds an edge whose pieces take the ways by chance. */
static void add_some_edge(struct net *net, struct dice *d, uint32_t u, uint32_t w,
                          const struct twin_piece *way, uint32_t ways) {
    uint32_t count = chance(d, 40) ? 1 : 1 + below(d, 5), start = 0;
    net_add_edge(net, u, w);
    for (uint32_t i = 0; i < count && start < DAY; i++) {
        /* the last way is a pair if there is one, and pairs are what is to be tried */
        struct twin_piece piece = way[chance(d, 30) ? ways - 1 : below(d, ways)];
        net_add_piece(net, start, piece.left, piece.right);
        start += 1 + (chance(d, 20) ? below(d, 3) : below(d, DAY / count));
        if (i + 2 == count && chance(d, 20)) start = start < DAY ? DAY - 1 : DAY;
    }
}

void gen_sound(struct net *net, struct dice *d, uint32_t n) {
    static uint32_t edge[SOUND_JUNCTIONS][SOUND_JUNCTIONS];
    struct twin_piece way[SOUND_WAYS];
    gen_roads(net, d, n, chance(d, 5) ? 0 : n / 2 + below(d, 3 * n));
    memset(edge, 0xff, sizeof edge);
    /* long spans take their time, and a few networks with them are enough */
    uint32_t longest = chance(d, 5) ? MAX_SPAN : 2 + below(d, 40);
    uint32_t tries = n * n * (1 + below(d, 4));
    for (uint32_t i = 0; i < tries; i++) {
        uint32_t u = below(d, n), w = below(d, n);
        if (u == w || edge[u][w] != UINT32_MAX) continue;
        uint32_t ways = ways_between(net, edge, u, w, longest, way);
        if (ways == 0) continue;
        edge[u][w] = net->e;
        add_some_edge(net, d, u, w, way, ways);
    }
}

/* So many points, one after the other through the day. */
static void add_even_points(struct net *net, struct dice *d, uint32_t points) {
    for (uint32_t i = 0; i < points; i++) net_add_point(net, DAY / points * i, 1 + below(d, 50));
}

/* An edge whose pieces, so many through the day, are all the same. */
static uint32_t add_same_edge(struct net *net, uint32_t from, uint32_t to, uint32_t pieces, uint32_t left,
                              uint32_t right) {
    uint32_t edge = net->e;
    net_add_edge(net, from, to);
    for (uint32_t i = 0; i < pieces; i++) net_add_piece(net, DAY / pieces * i, left, right);
    return edge;
}

/* Every two of n junctions joined, each edge by the highest middle below its
   ends, so that the span doubles with the rank of the lower end: 4,096 at 12.
   Roads have so many points and edges so many pieces. */
void gen_ladder(struct net *net, struct dice *d, uint32_t n, uint32_t parts) {
    static uint32_t edge[SOUND_JUNCTIONS][SOUND_JUNCTIONS];
    net_start(net, n);
    for (uint32_t w = 1; w < n; w++) {
        net_add_road(net, 0, w);
        add_even_points(net, d, parts);
        net_add_road(net, w, 0);
        add_even_points(net, d, parts);
    }
    for (uint32_t m = 0; m < n; m++) {
        for (uint32_t w = m + 1; w < n; w++) {
            edge[m][w] = add_same_edge(net, m, w, parts, m == 0 ? 2 * (w - 1) : edge[m][m - 1],
                                       m == 0 ? EMPTY_MIDDLE : edge[m - 1][w]);
            edge[w][m] = add_same_edge(net, w, m, parts, m == 0 ? 2 * (w - 1) + 1 : edge[w][m - 1],
                                       m == 0 ? EMPTY_MIDDLE : edge[m - 1][m]);
        }
    }
}

/* ---- maps */

static uint8_t near[MAX_JUNCTIONS][MAX_JUNCTIONS]; /* which junctions of the map are joined */

/* Joins the junctions of each row, the rows at their first junction, and two out
   of five of the other neighbours, as streets do. */
static void lay_streets(struct dice *d, uint32_t width, uint32_t height) {
    uint32_t n = width * height;
    memset(near, 0, sizeof near);
    for (uint32_t u = 0; u < n; u++) {
        if (u % width + 1 < width) near[u][u + 1] = near[u + 1][u] = 1;
        if (u + width < n && (u % width == 0 || chance(d, 40)))
            near[u][u + width] = near[u + width][u] = 1;
    }
}

/* Takes u out of the map and joins its neighbours. */
static void take_out(uint32_t u, uint32_t n, uint32_t *degree) {
    for (uint32_t v = 0; v < n; v++) {
        if (!near[u][v]) continue;
        near[v][u] = 0;
        degree[v]--;
        for (uint32_t w = 0; w < n; w++) {
            if (w == v || !near[u][w] || near[v][w]) continue;
            near[v][w] = near[w][v] = 1;
            degree[v]++;
            degree[w]++;
        }
    }
    memset(near[u], 0, n);
}

/* The rank of each junction: again and again the one with the fewest neighbours
   is next, and is taken out. */
static void rank_junctions(uint32_t n, uint32_t *rank) {
    static uint32_t degree[MAX_JUNCTIONS];
    for (uint32_t u = 0; u < n; u++) {
        rank[u] = UINT32_MAX;
        degree[u] = 0;
        for (uint32_t w = 0; w < n; w++) degree[u] += near[u][w];
    }
    for (uint32_t next = 0; next < n; next++) {
        uint32_t best = n;
        for (uint32_t u = 0; u < n; u++)
            if (rank[u] == UINT32_MAX && (best == n || degree[u] < degree[best])) best = u;
        rank[best] = next;
        take_out(best, n, degree);
    }
}

/* A road of a map; changing out of a hundred are slower at two rush hours. */
static void add_street(struct net *net, struct dice *d, uint32_t from, uint32_t to, uint32_t changing) {
    uint32_t quiet = 40 + below(d, 120);
    net_add_road(net, from, to);
    net_add_point(net, 0, quiet);
    if (!chance(d, changing)) return;
    uint32_t morning = 21600 + below(d, 7200), evening = 57600 + below(d, 7200);
    net_add_point(net, morning, quiet);
    net_add_point(net, morning + 3600, quiet + below(d, 2 * quiet));
    net_add_point(net, morning + 7200, quiet);
    net_add_point(net, evening, quiet);
    net_add_point(net, evening + 5400, quiet + below(d, 2 * quiet));
    net_add_point(net, evening + 9000, quiet);
}

void gen_grid(struct net *net, struct dice *d, uint32_t width, uint32_t height, uint32_t changing) {
    static uint32_t rank[MAX_JUNCTIONS];
    uint32_t n = width * height;
    net_start(net, n);
    lay_streets(d, width, height);
    for (uint32_t u = 0; u < n; u++)
        for (uint32_t w = 0; w < n; w++)
            if (near[u][w]) add_street(net, d, u, w, changing);
    rank_junctions(n, rank);
    for (uint32_t k = 0; k < net->r; k++) {
        net->road[k].from = rank[net->road[k].from];
        net->road[k].to = rank[net->road[k].to];
    }
}

/* As many junctions, roads, points, edges and pieces as the format allows. The
   roads and the first edges join junction 0 with every other one, both ways; the
   other edges go down to 0 and up again. The roads keep the FIFO rule, since
   points are over 1,000 seconds apart. */
void gen_limits(struct net *net, struct dice *d) {
    enum { HUBS = MAX_JUNCTIONS - 1, POINTS_EACH = MAX_POINTS / MAX_ROADS };
    net_start(net, MAX_JUNCTIONS);
    for (uint32_t k = 0; k < MAX_ROADS; k++) {
        uint32_t w = 1 + k / 2 % HUBS;
        net_add_road(net, k % 2 ? w : 0, k % 2 ? 0 : w);
        uint32_t points = k < MAX_POINTS % MAX_ROADS ? POINTS_EACH + 1 : POINTS_EACH;
        for (uint32_t i = 0; i < points; i++)
            net_add_point(net, 5000 * i + below(d, 4000), 100 + below(d, 900));
    }
    for (uint32_t k = 0; k < MAX_EDGES; k++) {
        uint32_t pieces =
            k < MAX_PIECES % MAX_EDGES ? MAX_PIECES / MAX_EDGES + 1 : MAX_PIECES / MAX_EDGES;
        uint32_t turn = k / HUBS, u = 1 + k % HUBS, w = 1 + (k + turn - 1) % HUBS;
        if (turn < 2) net_add_edge(net, turn ? u : 0, turn ? 0 : u);
        if (turn >= 2) net_add_edge(net, u, w);
        for (uint32_t i = 0; i < pieces; i++) {
            if (turn < 2)
                net_add_piece(net, 20000 * i, 2 * (u - 1) + turn + 2 * HUBS * below(d, 2),
                              EMPTY_MIDDLE);
            if (turn >= 2) net_add_piece(net, 20000 * i, HUBS + u - 1, w - 1);
        }
    }
}
