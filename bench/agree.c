#include "agree.h"

#include <stdio.h>

const struct program *const programs[PROGRAMS] = {&ours, &planarity_peer, &planarity_reused, &boost_peer};

static uint16_t order[2 * CORNETARIEL_MAX_LINES];
/* Of each direction: the one that follows it on its mesh, and whether the count has yet to pass it. Direction d leaves
 * the vertex at place d of the list of ends, and d ^ 1 goes the other way along the line. */
static uint16_t after[2 * CORNETARIEL_MAX_LINES];
static char waits[2 * CORNETARIEL_MAX_LINES];

static size_t way_out(const struct network *network, size_t line, size_t vertex) {
    return 2 * line + (network->ends[2 * line] != vertex);
}

/* Whether so many places of the order, from one on, hold different lines of the vertex; links their directions if so. */
static int link_vertex(const struct network *network, size_t vertex, size_t from, size_t count) {
    for (size_t i = 0; i < count; i++) {
        size_t line = order[from + i], next = order[from + (i + 1) % count];
        if (line >= network->lines || next >= network->lines)
            return 0;
        size_t leaving = way_out(network, line, vertex);
        if (network->ends[leaving] != vertex || waits[leaving])
            return 0;
        waits[leaving] = 1;
        after[leaving ^ 1] = (uint16_t)way_out(network, next, vertex);
    }
    return 1;
}

/* How many meshes the order has; 0 where it isn't one of the network's lines. */
static size_t count_meshes(const struct network *network) {
    size_t degrees[CORNETARIEL_MAX_VERTICES] = {0}, directions = 2 * network->lines, from = 0, count = 0;
    for (size_t d = 0; d < directions; d++) {
        degrees[network->ends[d]]++;
        waits[d] = 0;
    }
    for (size_t v = 0; v < network->vertices; from += degrees[v++])
        if (!link_vertex(network, v, from, degrees[v]))
            return 0;
    for (size_t d = 0; d < directions; d++) {
        count += waits[d] ? 1 : 0;
        for (size_t on = d; waits[on]; on = after[on])
            waits[on] = 0;
    }
    return count;
}

static int complain(const struct program *program, const struct network *network, const char *what) {
    fprintf(stderr, "bench: on %s, %zu vertices and %zu lines, %s %s\n", network->name, network->vertices, network->lines,
            program->name, what);
    return 0;
}

static int answers(const struct program *program, const struct network *network, int (*work)(void *), int wants_order,
                   int expected) {
    void *built = program->build(network);
    int answer = built ? work(built) : FAILED;
    if (answer == FLAT && wants_order)
        program->order(built, order);
    if (built)
        program->release(built);
    if (answer == expected)
        return 1;
    return complain(program, network, answer == FAILED ? "fails" : answer == FLAT ? "says flat" : "says not flat");
}

static int agrees(const struct program *program, const struct network *network, int expected) {
    if (!answers(program, network, program->test, 0, expected))
        return 0;
    if (expected == NOT_FLAT)
        return answers(program, network, program->reason, 0, expected);
    if (!answers(program, network, program->embed, 1, expected))
        return 0;
    if (network->vertices + count_meshes(network) != network->lines + 2)
        return complain(program, network, "gives an order that is not flat");
    return 1;
}

int all_agree(const struct network *network, int *flat) {
    *flat = ours.test(ours.build(network));
    for (int p = 0; p < PROGRAMS; p++)
        if (!agrees(programs[p], network, *flat))
            return 0;
    return 1;
}
