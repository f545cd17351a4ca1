/* The programs that are measured, behind one face. */
#ifndef PROGRAMS_H
#define PROGRAMS_H

#include "networks.h"

#ifdef __cplusplus
extern "C" {
#endif

/* What a work answers. */
enum { NOT_FLAT = 0, FLAT = 1, FAILED = -1 };

/* A built network serves one work only: planarity's changes what it is given. */
struct program {
    const char *name;
    /* Makes what the program works on from a list of ends; null where it fails. */
    void *(*build)(const struct network *network);
    /* The works: yes or no; yes with a clockwise order; no with a reason why. */
    int (*test)(void *built);
    int (*embed)(void *built);
    int (*reason)(void *built);
    /* After a yes of embed: the lines at vertex 0 in their order, then those at vertex 1, and so on. This is not timed: it
     * puts the orders of all programs into one form, to be checked. */
    void (*order)(void *built, uint16_t *order);
    void (*release)(void *built);
};

extern const struct program ours, planarity_peer, planarity_reused, boost_peer;

/* All of them. */
enum { OURS, PLANARITY, REUSED, BOOST, PROGRAMS };
extern const struct program *const programs[PROGRAMS];

#ifdef __cplusplus
}
#endif

#endif
