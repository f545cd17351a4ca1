#include "networks.h"
#include "parts.h"

static void path(struct network *network) {
    for (size_t v = 1; v < network->vertices; v++)
        add(network, v - 1, v);
}

static void circle(struct network *network) {
    path(network);
    add(network, network->vertices - 1, 0);
}

static void rows_and_columns(struct network *network, size_t columns) {
    for (size_t v = 0; v < network->vertices; v++) {
        if (v % columns + 1 < columns)
            add(network, v, v + 1);
        if (v + columns < network->vertices)
            add(network, v, v + columns);
    }
}

static void ladder(struct network *network) {
    rows_and_columns(network, network->vertices / 2);
}

/* The columns of a grid that is a square, or twice as long as wide. */
static size_t columns_of(const struct network *network) {
    size_t columns = 1;
    while (columns * columns < network->vertices)
        columns *= 2;
    return columns;
}

static void grid(struct network *network) {
    rows_and_columns(network, columns_of(network));
}

/* Between two inner vertices far apart, so that no mesh has both. */
static void grid_and_line(struct network *network) {
    grid(network);
    add(network, columns_of(network) + 1, network->vertices - columns_of(network) - 2);
}

/* A rim and a hub that is joined to all of it. The rim has the lower lines: the search goes all round it first, and the
 * hub's lines are then back lines over all heights. */
static void wheel(struct network *network) {
    size_t hub = network->vertices - 1;
    for (size_t v = 0; v < hub; v++)
        add(network, v, (v + 1) % hub);
    for (size_t v = 0; v < hub; v++)
        add(network, hub, v);
}

/* A path, and hubs joined to all of it and to each other. The search goes up the whole path first, and the hubs' lines are
 * then back lines over all heights: about the longest cycles that so many lines can have. With two hubs the network is
 * flat and all meshes are triangles; with three it is not flat. */
static void path_and_hubs(struct network *network, size_t hubs) {
    size_t path = network->vertices - hubs;
    for (size_t v = 1; v < path; v++)
        add(network, v - 1, v);
    for (size_t hub = path; hub < network->vertices; hub++)
        for (size_t v = 0; v < hub; v++)
            add(network, hub, v);
}

static void two_hubs(struct network *network) {
    path_and_hubs(network, 2);
}

static void three_hubs(struct network *network) {
    path_and_hubs(network, 3);
}

/* The half of a broom's vertices that are its stem; the others are leaves at its top. */
static size_t stem_of(const struct network *network) {
    return network->vertices / 2;
}

/* The stem has the lower lines: the search goes up all of it first, and then to each leaf and back. */
static void stem_and_leaves(struct network *network) {
    for (size_t v = 1; v < network->vertices; v++)
        add(network, v < stem_of(network) ? v - 1 : stem_of(network) - 1, v);
}

/* From each leaf so many lines to the lowest quarter of the stem, or as much higher as the foot is: all are back lines over
 * most of the stem. Each leaf starts a way of its own down it, so that what one has found out helps the next only if it is
 * kept on the stem. */
static void broom_lines(struct network *network, size_t lines, size_t foot) {
    stem_and_leaves(network);
    for (size_t leaf = stem_of(network); leaf < network->vertices; leaf++)
        for (size_t line = 0; line < lines; line++)
            add(network, leaf, foot + (leaf + line) % (stem_of(network) / 4));
}

static void broom(struct network *network) {
    broom_lines(network, 1, 0);
}

/* Not flat: three leaves that end at the same vertices are a K3,3 with the top and two of these. */
static void dense_broom(struct network *network) {
    broom_lines(network, 6, 0);
}

/* Every second leaf on either side of the stem. Those of a side share the stem out, and two that are next to each other
 * have a vertex of it in common: about as many lines as a flat broom has room for. */
static void filled_broom(struct network *network) {
    size_t stem = stem_of(network), leaves = (network->vertices - stem) / 2;
    stem_and_leaves(network);
    for (size_t leaf = 0; leaf < 2 * leaves; leaf++)
        for (size_t v = leaf / 2 * (stem - 2) / leaves; v <= (leaf / 2 + 1) * (stem - 2) / leaves; v++)
            add(network, stem + leaf, v);
}

static void two_parts(struct network *network, size_t first_part, size_t second_part) {
    for (size_t first = 0; first < first_part; first++)
        for (size_t second = 0; second < second_part; second++)
            add(network, first, first_part + second);
}

static void bundle(struct network *network) {
    two_parts(network, 2, network->vertices - 2);
}

/* As many chords as there is room for, none across another: a random vertex between two that see each other sees both. */
static void chords(struct network *network) {
    struct {
        size_t from, to;
    } parts[CORNETARIEL_MAX_VERTICES] = {{0, network->vertices - 1}};
    size_t count = 1;
    circle(network);
    while (count > 0) {
        size_t from = parts[count - 1].from, to = parts[count - 1].to;
        count--;
        if (to - from < 2)
            continue;
        size_t middle = from + 1 + below(to - from - 1);
        if (middle - from > 1)
            add(network, from, middle);
        if (to - middle > 1)
            add(network, middle, to);
        parts[count].from = from, parts[count].to = middle, count++;
        parts[count].from = middle, parts[count].to = to, count++;
    }
}

/* Stacked triangulations have more vertices of three lines than most; turning lines mixes them. */
static void triangulation(struct network *network) {
    stack(network);
    turn(network, 3 * network->vertices);
}

/* As many lines as an electricity network has. */
static void cut_triangulation(struct network *network) {
    triangulation(network);
    cut(network, 7 * network->vertices / 5);
}

static void cut_and_line(struct network *network) {
    triangulation(network);
    cut(network, 12 * network->vertices / 5);
    add_random(network, network->lines + 1);
}

static void complete_part(struct network *network, size_t vertices) {
    for (size_t first = 0; first < vertices; first++)
        for (size_t second = first + 1; second < vertices; second++)
            add(network, first, second);
}

static void complete(struct network *network) {
    complete_part(network, network->vertices);
}

/* What is amiss is at the foot of the stem, where searches that work downwards come last. */
static void broom_on_five(struct network *network) {
    broom_lines(network, 1, 4);
    for (size_t first = 0; first < 5; first++)
        for (size_t second = first + 2; second < 5; second++)
            add(network, first, second);
}

static void two_halves(struct network *network) {
    two_parts(network, network->vertices / 2, network->vertices / 2);
}

static void stretched_five(struct network *network) {
    complete_part(network, 5);
    stretch(network, 5);
}

static void stretched_threes(struct network *network) {
    two_parts(network, 3, 3);
    stretch(network, 6);
}

static void twisted_ladder(struct network *network) {
    circle(network);
    for (size_t v = 0; v < network->vertices / 2; v++)
        add(network, v, v + network->vertices / 2);
}

/* A random tree, and random lines. */
static void scatter(struct network *network, size_t lines) {
    for (size_t v = 1; v < network->vertices; v++)
        add(network, below(v), v);
    add_random(network, lines);
}

static void random_sparse(struct network *network) {
    scatter(network, 7 * network->vertices / 5);
}

static void random_middle(struct network *network) {
    scatter(network, 3 * network->vertices);
}

static void random_dense(struct network *network) {
    scatter(network, 4 * network->vertices);
}

/* Where chance makes a network it gives the numbers too. Others keep the numbers of their rule, for which they were
 * chosen. */
static const struct {
    const char *name;
    void (*make)(struct network *);
    int renumbered;
} rules[SHAPES] = {
    [PATH] = {"path", path, 0},
    [LADDER] = {"ladder", ladder, 0},
    [GRID] = {"grid", grid, 0},
    [WHEEL] = {"wheel", wheel, 0},
    [TWO_HUBS] = {"path and two hubs", two_hubs, 0},
    [BROOM] = {"broom", broom, 0},
    [BROOM_FILLED] = {"broom, filled", filled_broom, 0},
    [BUNDLE] = {"K2,n", bundle, 0},
    [CHORDS] = {"circle with chords", chords, 1},
    [CUT] = {"cut triangulation", cut_triangulation, 1},
    [STACKED] = {"stacked triangulation", stack, 1},
    [TURNED] = {"triangulation", triangulation, 1},
    [COMPLETE] = {"complete", complete, 0},
    [TWO_PARTS] = {"complete in two parts", two_halves, 0},
    [STRETCHED_FIVE] = {"K5 subdivided", stretched_five, 1},
    [STRETCHED_THREES] = {"K3,3 subdivided", stretched_threes, 1},
    [TWISTED_LADDER] = {"twisted ladder", twisted_ladder, 0},
    [THREE_HUBS] = {"path and three hubs", three_hubs, 0},
    [BROOM_ON_FIVE] = {"broom on K5", broom_on_five, 0},
    [BROOM_DENSE] = {"broom, dense", dense_broom, 0},
    [GRID_AND_LINE] = {"grid and a line", grid_and_line, 0},
    [CUT_AND_LINE] = {"cut triangulation and a line", cut_and_line, 1},
    [RANDOM_SPARSE] = {"random, sparse", random_sparse, 1},
    [RANDOM_MIDDLE] = {"random", random_middle, 1},
    [RANDOM_DENSE] = {"random, dense", random_dense, 1},
};

int is_random(enum shape shape) {
    return rules[shape].renumbered;
}

void make_network(struct network *network, enum shape shape, size_t vertices, uint64_t seed) {
    start_random(seed);
    network->name = rules[shape].name;
    network->vertices = vertices;
    network->lines = 0;
    rules[shape].make(network);
    if (rules[shape].renumbered)
        renumber(network);
}
