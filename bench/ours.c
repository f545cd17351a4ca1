/* Our calls as a program: first choice tests and gives a ring, first choice and draw give an order. They take the list of
 * ends as it is, so there is nothing to build. */
#include "programs.h"

#include <string.h>

static uint8_t choice[CORNETARIEL_MAX_LINES];
static uint16_t ring_lines[CORNETARIEL_MAX_LINES];
static uint8_t ring_kinds[CORNETARIEL_MAX_LINES];
static uint16_t clockwise[2 * CORNETARIEL_MAX_LINES];
static uint16_t mesh[2 * CORNETARIEL_MAX_LINES];
static uint16_t sizes[2 * CORNETARIEL_MAX_LINES + 1];

static void *build(const struct network *network) {
    return (void *)network;
}

static int test(void *built) {
    const struct network *network = built;
    uint64_t answer = cornetariel_first(network->vertices, network->ends, 2 * network->lines, choice, sizeof choice,
                                        ring_lines, CORNETARIEL_MAX_LINES, ring_kinds, sizeof ring_kinds);
    switch (cornetariel_number(answer)) {
    case CORNETARIEL_DONE: return FLAT;
    case CORNETARIEL_RING: return NOT_FLAT;
    default: return FAILED;
    }
}

static int embed(void *built) {
    const struct network *network = built;
    int flat = test(built);
    if (flat != FLAT)
        return flat;
    uint64_t answer = cornetariel_draw(network->vertices, network->ends, 2 * network->lines, choice, sizeof choice,
                                       clockwise, 2 * CORNETARIEL_MAX_LINES, mesh, 2 * CORNETARIEL_MAX_LINES, sizes,
                                       2 * CORNETARIEL_MAX_LINES + 1);
    return cornetariel_number(answer) == CORNETARIEL_DONE ? FLAT : FAILED;
}

static void order(void *built, uint16_t *order) {
    const struct network *network = built;
    memcpy(order, clockwise, 2 * network->lines * sizeof *order);
}

static void release(void *built) {
    (void)built;
}

const struct program ours = {"ours", build, test, embed, test, order, release};
