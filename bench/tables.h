/* The tables. Each is measured in rounds over all of its cells, so that what disturbs the machine for a while meets a part
 * of every cell and not the whole of one; then it is printed, in the form of Markdown. */
#ifndef TABLES_H
#define TABLES_H

#include "networks.h"

struct plan {
    /* Each cell is timed so often in each round, after some turns that only warm up. */
    size_t rounds, repetitions;
    /* Whether caches and branches are spoiled before each repetition. */
    int cold;
    /* Where random numbers begin. */
    uint64_t seed;
};

enum { WARMING = 3 };

/* Ours and the peers on each network. Nonzero where they disagree or fail. */
int compare(const struct plan *plan);

/* Each of our six calls on networks of 64, 128, 256 and 512 vertices. Nonzero where the programs disagree or a call
 * fails. */
int grow(const struct plan *plan);

#endif
