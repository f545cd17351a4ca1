/* What the rules of networks.c are put together from. */
#ifndef PARTS_H
#define PARTS_H

#include "networks.h"

void start_random(uint64_t seed);

/* A random number below a bound. */
size_t below(size_t bound);

void add(struct network *network, size_t first, size_t second);

/* Adds random lines until there are so many. */
void add_random(struct network *network, size_t lines);

/* Takes out random lines until so many are left, but none without which the network falls apart. */
void cut(struct network *network, size_t lines);

/* Puts vertices on random lines, from a vertex number up to the vertex count. */
void stretch(struct network *network, size_t from);

/* Gives vertices and lines other numbers, and half of the lines the other direction. */
void renumber(struct network *network);

/* Puts each vertex into a random triangle, so that all meshes are triangles. */
void stack(struct network *network);

/* Turns random lines of a stacked network into the other diagonal of the two triangles beside them. */
void turn(struct network *network, size_t turns);

#endif
