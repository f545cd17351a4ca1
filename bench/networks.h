/* Networks to measure with, each made from a rule and random numbers of its own: the same seed gives the same networks
 * on any machine. */
#ifndef NETWORKS_H
#define NETWORKS_H

#include "../include/cornetariel.h"

struct network {
    const char *name;
    size_t vertices, lines;
    uint16_t ends[2 * CORNETARIEL_MAX_LINES];
};

enum shape {
    /* flat */
    PATH,
    LADDER,
    GRID,
    WHEEL,
    TWO_HUBS,
    BROOM,
    BROOM_FILLED,
    BUNDLE,
    CHORDS,
    CUT,
    STACKED,
    TURNED,
    /* not flat, from five or six vertices on; a sparse random one may happen to be */
    COMPLETE,
    TWO_PARTS,
    STRETCHED_FIVE,
    STRETCHED_THREES,
    TWISTED_LADDER,
    THREE_HUBS,
    BROOM_ON_FIVE,
    BROOM_DENSE,
    GRID_AND_LINE,
    CUT_AND_LINE,
    RANDOM_SPARSE,
    RANDOM_MIDDLE,
    RANDOM_DENSE,
    SHAPES
};

/* Whether chance has a part in a shape, so that another seed gives another network. */
int is_random(enum shape shape);

/* Makes the network of a shape with so many vertices. Where the shape has rows, that has to be a power of two. */
void make_network(struct network *network, enum shape shape, size_t vertices, uint64_t seed);

#endif
