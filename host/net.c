/* Networks in memory and on the page: see net.h. */
#include "net.h"

enum { HEAD = 6 };

uint64_t roll(struct dice *d) {
    uint64_t z = d->state += 0x9e3779b97f4a7c15u;
    z = (z ^ z >> 30) * 0xbf58476d1ce4e5b9u;
    z = (z ^ z >> 27) * 0x94d049bb133111ebu;
    return z ^ z >> 31;
}

uint32_t below(struct dice *d, uint32_t limit) {
    return limit == 0 ? 0 : (uint32_t)((roll(d) >> 32) * limit >> 32);
}

int chance(struct dice *d, uint32_t percent) { return below(d, 100) < percent; }

uint32_t about(struct dice *d, uint32_t x) { return x - 1 + below(d, 3); }

void net_start(struct net *net, uint32_t n) {
    net->n = n;
    net->r = net->p = net->e = net->q = 0;
}

void net_add_road(struct net *net, uint32_t from, uint32_t to) {
    net->road[net->r++] = (struct twin_road){from, to, net->p, 0};
}

void net_add_point(struct net *net, uint32_t second, uint32_t duration) {
    net->point[net->p++] = (struct twin_point){second, duration};
    net->road[net->r - 1].count++;
}

void net_add_edge(struct net *net, uint32_t from, uint32_t to) {
    net->edge[net->e++] = (struct twin_edge){from, to, net->q, 0, 0};
}

uint32_t net_piece_span(const struct net *net, uint32_t left, uint32_t right) {
    return right == EMPTY_MIDDLE ? 1 : net->edge[left].span + net->edge[right].span;
}

void net_add_piece(struct net *net, uint32_t start, uint32_t left, uint32_t right) {
    struct twin_edge *edge = &net->edge[net->e - 1];
    uint32_t span = net_piece_span(net, left, right);
    net->piece[net->q++] = (struct twin_piece){start, left, right};
    edge->count++;
    if (span > edge->span) edge->span = span;
}

static size_t place_of(uint32_t w) {
    return (size_t)(w / BLOCK_CONTENT) * BLOCK_BYTES + 4 * (size_t)(w % BLOCK_CONTENT);
}

uint32_t volume_word(const uint8_t *v, uint32_t w) {
    const uint8_t *at = v + place_of(w);
    return at[0] | (uint32_t)at[1] << 8 | (uint32_t)at[2] << 16 | (uint32_t)at[3] << 24;
}

void volume_set_word(uint8_t *v, uint32_t w, uint32_t word) {
    for (int i = 0; i < 4; i++) v[place_of(w) + (size_t)i] = (uint8_t)(word >> 8 * i);
}

static uint32_t words_of(const struct net *net) {
    return HEAD + 4 * net->r + 2 * net->p + 5 * net->e + 3 * net->q;
}

/* Puts words down, or takes them up, one after the other. */
struct pen {
    uint8_t *v;
    uint32_t at;
};

static void put(struct pen *pen, const void *words, uint32_t count) {
    const uint32_t *word = words;
    for (uint32_t i = 0; i < count; i++) volume_set_word(pen->v, pen->at++, word[i]);
}

static void take(const uint8_t *v, uint32_t *at, void *words, uint32_t count) {
    uint32_t *word = words;
    for (uint32_t i = 0; i < count; i++) word[i] = volume_word(v, (*at)++);
}

size_t net_write(const struct net *net, uint8_t *v) {
    uint32_t head[HEAD] = {1, net->n, net->r, net->p, net->e, net->q};
    uint32_t blocks = (words_of(net) + BLOCK_CONTENT - 1) / BLOCK_CONTENT;
    struct pen pen = {v, 0};
    put(&pen, head, HEAD);
    put(&pen, net->road, 4 * net->r);
    put(&pen, net->point, 2 * net->p);
    put(&pen, net->edge, 5 * net->e);
    put(&pen, net->piece, 3 * net->q);
    while (pen.at < blocks * BLOCK_CONTENT) volume_set_word(v, pen.at++, 0);
    twin_seal(v, (size_t)blocks * BLOCK_BYTES);
    return (size_t)blocks * BLOCK_BYTES;
}

int net_read(struct net *net, const uint8_t *v, size_t vn) {
    if (vn < BLOCK_BYTES || vn % BLOCK_BYTES != 0) return 0;
    uint32_t at = 0, head[HEAD];
    take(v, &at, head, HEAD);
    if (head[0] != 1 || head[2] > MAX_ROADS || head[3] > MAX_POINTS) return 0;
    if (head[4] > MAX_EDGES || head[5] > MAX_PIECES) return 0;
    net->n = head[1];
    net->r = head[2];
    net->p = head[3];
    net->e = head[4];
    net->q = head[5];
    if (vn / BLOCK_BYTES != (words_of(net) + BLOCK_CONTENT - 1) / BLOCK_CONTENT) return 0;
    take(v, &at, net->road, 4 * net->r);
    take(v, &at, net->point, 2 * net->p);
    take(v, &at, net->edge, 5 * net->e);
    take(v, &at, net->piece, 3 * net->q);
    return 1;
}
