/* A network in memory, as the raw records of a volume, and its writing as a
   volume. What makes networks (gen.c), full ones (build.c) and broken ones
   (damage.c) works on this; nothing here asks whether a network is sound. */
#ifndef NET_H
#define NET_H

#include "twin.h"

enum { VOLUME_ROOM = (MAX_BLOCKS + 2) * BLOCK_BYTES };

/* One record of each kind more than the format allows, to go over its limits. */
struct net {
    uint32_t n, r, p, e, q;
    struct twin_road road[MAX_ROADS + 1];
    struct twin_point point[MAX_POINTS + 1];
    struct twin_edge edge[MAX_EDGES + 1];
    struct twin_piece piece[MAX_PIECES + 1];
};

/* A generator of numbers that is the same everywhere (splitmix64). */
struct dice {
    uint64_t state;
};
uint64_t roll(struct dice *d);
uint32_t below(struct dice *d, uint32_t limit); /* 0 where limit is 0 */
int chance(struct dice *d, uint32_t percent);
uint32_t about(struct dice *d, uint32_t x); /* x, or one of its neighbours */

void net_start(struct net *net, uint32_t n);
void net_add_road(struct net *net, uint32_t from, uint32_t to);
void net_add_point(struct net *net, uint32_t second, uint32_t duration); /* to the last road */
void net_add_edge(struct net *net, uint32_t from, uint32_t to);
void net_add_piece(struct net *net, uint32_t start, uint32_t left,
                   uint32_t right); /* to the last edge */
uint32_t net_piece_span(const struct net *net, uint32_t left, uint32_t right);

/* The volume of net, sealed, in v; gives its length in bytes. */
size_t net_write(const struct net *net, uint8_t *v);
/* Content word w of a volume, and another one in its place (not resealed). */
uint32_t volume_word(const uint8_t *v, uint32_t w);
void volume_set_word(uint8_t *v, uint32_t w, uint32_t word);
/* The records of a volume whose length agrees with its head; 0 where it does not. */
int net_read(struct net *net, const uint8_t *v, size_t vn);

/* build.c: gives net, which has roads alone, the edges of a full volume; 0 where
   they do not fit the format. */
int net_build_full(struct net *net);

/* gen.c: random roads; roads through several low junctions between the two
   highest; random sound edges over random roads; a map like a grid with its least
   connected junctions ranked lowest; the longest spans; all limits. */
void gen_roads(struct net *net, struct dice *d, uint32_t n, uint32_t roads);
void gen_diamond(struct net *net, struct dice *d, uint32_t middles);
void gen_sound(struct net *net, struct dice *d, uint32_t n);
void gen_grid(struct net *net, struct dice *d, uint32_t width, uint32_t height, uint32_t changing);
void gen_ladder(struct net *net, struct dice *d, uint32_t n, uint32_t parts);
void gen_limits(struct net *net, struct dice *d);

/* damage.c: changes that mostly keep a network sound; one rule put at or over its
   boundary. bytes.c: a volume's words changed and resealed; its bytes changed. */
void tweak(struct net *net, struct dice *d);
void break_rule(struct net *net, struct dice *d);
size_t break_head(uint8_t *v, size_t vn, struct dice *d);
size_t break_bytes(uint8_t *v, size_t vn, struct dice *d);

/* bare.c: the earliest arrival over the roads alone, UINT64_MAX for none. */
uint64_t bare_arrival(const struct net *net, uint32_t from, uint32_t to, uint32_t departure);

#endif
