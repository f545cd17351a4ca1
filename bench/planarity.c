/* The Edge Addition Planarity Suite, Debian's planarity. Its one call embeds a graph or leaves an obstruction in it (a
 * subdivided K5 or K3,3), so test and reason are the same work.
 *
 * It is measured in two forms: with a graph made anew for each network, and with one that is kept and emptied for the next,
 * which asks for no memory. */
#include "programs.h"

#include "graph.h"

/* A graph with vertices and room for the lines; null where there is none. */
static graphP make_empty(const struct network *network) {
    graphP graph = gp_New();
    if (graph == NULL)
        return NULL;
    /* Room for the lines is asked for before the vertices are known, as its manual advises: later it would be moved. */
    if (gp_EnsureArcCapacity(graph, 2 * (int)(network->lines > 0 ? network->lines : 1)) != OK ||
        gp_InitGraph(graph, (int)network->vertices) != OK)
        gp_Free(&graph);
    return graph;
}

static int add_lines(graphP graph, const struct network *network) {
    int first = gp_GetFirstVertex(graph), ok = 1;
    for (size_t line = 0; ok && line < network->lines; line++)
        ok = gp_AddEdge(graph, first + network->ends[2 * line], 0, first + network->ends[2 * line + 1], 0) == OK;
    return ok;
}

static void *build(const struct network *network) {
    graphP graph = make_empty(network);
    if (graph != NULL && !add_lines(graph, network))
        gp_Free(&graph);
    return graph;
}

static void release(void *built) {
    graphP graph = built;
    gp_Free(&graph);
}

/* The graph that is kept, and the vertices and lines that it was made for. It is as large as its network and no larger:
 * emptying it takes as long as it is large. */
static graphP kept;
static size_t kept_vertices, kept_lines;

static void *refill(const struct network *network) {
    if (kept != NULL && kept_vertices == network->vertices && kept_lines == network->lines) {
        gp_ReinitializeGraph(kept);
    } else {
        gp_Free(&kept);
        kept = make_empty(network);
        kept_vertices = network->vertices;
        kept_lines = network->lines;
    }
    if (kept != NULL && !add_lines(kept, network))
        gp_Free(&kept);
    return kept;
}

static void keep(void *built) {
    (void)built;
}

static int test(void *built) {
    switch (gp_Embed(built, EMBEDFLAGS_PLANAR)) {
    case OK: return FLAT;
    case NONEMBEDDABLE: return NOT_FLAT;
    default: return FAILED;
    }
}

/* The call leaves the vertices in the order of its search; an order for the caller's vertices needs the sorting too. */
static int embed(void *built) {
    int flat = test(built);
    if (flat == FLAT && gp_SortVertices(built) != OK)
        return FAILED;
    return flat;
}

/* The arcs of a line were added one after the other, so half of an arc's number tells the line. */
static void order(void *built, uint16_t *order) {
    graphP graph = built;
    for (int v = gp_GetFirstVertex(graph); gp_VertexInRange(graph, v); v++)
        for (int arc = gp_GetFirstArc(graph, v); gp_IsArc(arc); arc = gp_GetNextArc(graph, arc))
            *order++ = (uint16_t)((arc - gp_GetFirstEdge(graph)) / 2);
}

const struct program planarity_peer = {"planarity", build, test, embed, test, order, release};
const struct program planarity_reused = {"planarity with its graph reused", refill, test, embed, test, order, keep};
