/* Our six calls, on networks that double: how long each takes, and with which power of the lines its time grows. */
#include "agree.h"
#include "samples.h"
#include "tables.h"

#include <math.h>
#include <stdio.h>
#include <string.h>

enum { SIZES = 4, LAST = SIZES - 1 };

/* Planarity's test, its graph reused, stands beside the calls: it is linear, so its power tells what the processor adds. */
enum call { ORIENT, FIRST, NEXT, DRAW, READ, WRITE, PEER, CALLS };

static const char *const call_names[CALLS] = {"orient", "first choice", "next choice", "draw", "read", "write", "planarity"};

/* Every shape is measured and has its powers printed; of these the times are too. */
static const enum shape shown[] = {
    GRID, CUT, TURNED, TWO_HUBS, BROOM, BROOM_FILLED, THREE_HUBS, BROOM_ON_FIVE, BROOM_DENSE, CUT_AND_LINE, RANDOM_DENSE,
};

enum { SHOWN = sizeof shown / sizeof *shown };

/* The networks of a shape and size. A processor learns a small network by heart when it meets it again and again, and it
 * can't a large one. So where chance has a part in a shape there are as many networks of each size as have the same number
 * of lines together: eight of the last, twice as many of each size before. They take turns, and a time is the mean over
 * them. Where a refusal comes early in some networks and late in others this evens out chance, too. */
enum { FEWEST = 8, MOST = FEWEST << LAST };

struct set {
    size_t count;
    int flat[MOST], all_flat;
    struct network networks[MOST];
};

static struct set sets[SHAPES][SIZES];
static struct samples times[SHAPES][SIZES][CALLS];
/* The medians, in microseconds; 0 where a call had nothing to work on. */
static double medians[SHAPES][SIZES][CALLS];

static uint8_t kinds[CORNETARIEL_MAX_LINES];
static uint16_t heights[CORNETARIEL_MAX_VERTICES];
static uint8_t first_choice[CORNETARIEL_MAX_LINES];
static uint8_t choice[CORNETARIEL_MAX_LINES];
static uint16_t ring_lines[CORNETARIEL_MAX_LINES];
static uint8_t ring_kinds[CORNETARIEL_MAX_LINES];
static uint16_t order[2 * CORNETARIEL_MAX_LINES];
static uint16_t mesh[2 * CORNETARIEL_MAX_LINES];
static uint16_t sizes[2 * CORNETARIEL_MAX_LINES + 1];
static uint8_t text[9 * (CORNETARIEL_MAX_LINES + 1)];
static uint16_t ends[2 * CORNETARIEL_MAX_LINES];

/* The vertices of a shape's first size. The complete ones have as many lines as the library takes on far fewer vertices
 * than the others. */
static size_t smallest(enum shape shape) {
    switch (shape) {
    case COMPLETE: return 8;
    case TWO_PARTS: return 10;
    default: return 64;
    }
}

/* Whether the programs agree on all networks of a shape and size, once they are made. */
static int make_set(enum shape shape, size_t size, uint64_t seed) {
    struct set *set = &sets[shape][size];
    set->count = is_random(shape) ? (size_t)FEWEST << (LAST - size) : 1;
    set->all_flat = 1;
    for (size_t i = 0; i < set->count; i++) {
        make_network(&set->networks[i], shape, smallest(shape) << size, seed + i);
        if (!all_agree(&set->networks[i], &set->flat[i]))
            return 0;
        set->all_flat = set->all_flat && set->flat[i] == FLAT;
    }
    return 1;
}

static unsigned make_call(enum call call, const struct network *network) {
    uint64_t answer = 0;
    size_t vertices = network->vertices, count = 2 * network->lines;
    switch (call) {
    case ORIENT:
        answer = cornetariel_orient(vertices, network->ends, count, kinds, sizeof kinds, heights, CORNETARIEL_MAX_VERTICES);
        break;
    case FIRST:
        answer = cornetariel_first(vertices, network->ends, count, first_choice, sizeof first_choice, ring_lines,
                                   CORNETARIEL_MAX_LINES, ring_kinds, sizeof ring_kinds);
        break;
    case NEXT: answer = cornetariel_next(vertices, network->ends, count, choice, sizeof choice); break;
    case DRAW:
        answer = cornetariel_draw(vertices, network->ends, count, first_choice, sizeof first_choice, order,
                                  2 * CORNETARIEL_MAX_LINES, mesh, 2 * CORNETARIEL_MAX_LINES, sizes,
                                  2 * CORNETARIEL_MAX_LINES + 1);
        break;
    case READ: answer = cornetariel_read(text, 9 * (network->lines + 1), ends, 2 * CORNETARIEL_MAX_LINES); break;
    case WRITE: answer = cornetariel_write(vertices, network->ends, count, text, sizeof text); break;
    case PEER: return planarity_reused.test(planarity_reused.build(network)) == FLAT ? CORNETARIEL_DONE : CORNETARIEL_RING;
    case CALLS: break;
    }
    return cornetariel_number(answer);
}

/* What a call may answer: next, from the first choice on, that there is a further one or that this was the last. */
static int is_expected(enum call call, unsigned number, int flat) {
    switch (call) {
    case FIRST:
    case PEER: return number == (flat == FLAT ? CORNETARIEL_DONE : CORNETARIEL_RING);
    case NEXT: return number == CORNETARIEL_DONE || number == CORNETARIEL_LAST;
    default: return number == CORNETARIEL_DONE;
    }
}

/* Next and draw have nothing to work on where a network has no choice. */
static int has_work(enum call call, const struct set *set) {
    return set->all_flat || (call != NEXT && call != DRAW);
}

/* Adds to each sum how long the call takes on a network of the set. */
static int time_calls(const struct plan *plan, const struct set *set, size_t which, double sums[CALLS]) {
    const struct network *network = &set->networks[which];
    make_call(WRITE, network); /* what read takes */
    for (enum call call = ORIENT; call < CALLS; call++) {
        if (!has_work(call, set))
            continue;
        memcpy(choice, first_choice, sizeof choice); /* next changes what it is lent */
        if (plan->cold)
            spoil();
        uint64_t before = clock_now();
        unsigned number = make_call(call, network);
        uint64_t after = clock_now();
        if (!is_expected(call, number, set->flat[which])) {
            fprintf(stderr, "bench: %s answers %u on %s, %zu vertices\n", call_names[call], number, network->name,
                    network->vertices);
            return 1;
        }
        sums[call] += between(before, after);
    }
    return 0;
}

/* Times all calls on all networks of a set, in turns. */
static int measure(const struct plan *plan, const struct set *set, struct samples samples[CALLS]) {
    for (size_t turn = 0; turn < WARMING + plan->repetitions; turn++) {
        double sums[CALLS] = {0};
        for (size_t which = 0; which < set->count; which++)
            if (time_calls(plan, set, which, sums))
                return 1;
        for (enum call call = ORIENT; call < CALLS; call++)
            if (turn >= WARMING && has_work(call, set))
                put_sample(&samples[call], sums[call] / (double)set->count);
    }
    return 0;
}

static size_t lines_of(enum shape shape, size_t size) {
    return sets[shape][size].networks[0].lines;
}

/* Whether a call was timed on each size of a shape. */
static int is_timed(enum shape shape, enum call call) {
    for (size_t size = 0; size < SIZES; size++)
        if (!(medians[shape][size][call] > 0))
            return 0;
    return 1;
}

/* From the first size to the last the time grows with this power of the lines: 1 is linear, 2 is quadratic. */
static double power(enum shape shape, enum call call) {
    double lines = (double)lines_of(shape, LAST) / (double)lines_of(shape, 0);
    return log(medians[shape][LAST][call] / medians[shape][0][call]) / log(lines);
}

static void print_times(enum shape shape) {
    printf("| **%s**, %zu, %zu, %zu, %zu lines | | | | | | | | |\n", sets[shape][0].networks[0].name, lines_of(shape, 0),
           lines_of(shape, 1), lines_of(shape, 2), lines_of(shape, 3));
    for (enum call call = ORIENT; call < CALLS; call++) {
        if (!is_timed(shape, call))
            continue;
        printf("| %-12s |", call_names[call]);
        for (size_t size = 0; size < SIZES; size++)
            printf(" %7.1f |", medians[shape][size][call]);
        for (size_t size = 1; size < SIZES; size++)
            printf(" %5.2f |", medians[shape][size][call] / medians[shape][size - 1][call]);
        printf(" %4.2f |\n", power(shape, call));
    }
}

static void print_powers(enum shape shape) {
    const struct network *first = &sets[shape][0].networks[0], *last = &sets[shape][LAST].networks[0];
    printf("| %-28s | %2zu to %3zu | %3zu to %4zu |", first->name, first->vertices, last->vertices, first->lines,
           last->lines);
    for (enum call call = ORIENT; call < CALLS; call++)
        if (is_timed(shape, call))
            printf(" %4.2f |", power(shape, call));
        else
            printf("      |");
    printf("\n");
}

/* Of each call the greatest power, and of which shape it is. */
static void print_greatest(void) {
    printf("\nThe greatest power of each call.\n\n| call | power | on |\n|:--|--:|:--|\n");
    for (enum call call = ORIENT; call < CALLS; call++) {
        enum shape greatest = GRID; /* flat, so every call is timed on it */
        for (enum shape shape = 0; shape < SHAPES; shape++)
            if (is_timed(shape, call) && power(shape, call) > power(greatest, call))
                greatest = shape;
        printf("| %-12s | %4.2f | %s |\n", call_names[call], power(greatest, call), sets[greatest][0].networks[0].name);
    }
}

static void print_growth(void) {
    printf("\nGrowth: each call on 64 to 512 vertices, how many times as long it takes with each doubling, and with which\n"
           "power of the lines its time grows from 64 to 512 vertices: the logarithm of the times' ratio by that of the\n"
           "lines'. Where chance has a part in a network, a time is the mean over %d networks of 512 vertices, twice as many\n"
           "of 256, and so on. The last row is planarity's test with its graph reused, which is linear.\n\n",
           FEWEST);
    printf("| call | 64 | 128 | 256 | 512 | to 128 | to 256 | to 512 | power |\n");
    printf("|:--|--:|--:|--:|--:|--:|--:|--:|--:|\n");
    for (size_t i = 0; i < SHOWN; i++)
        print_times(shown[i]);
    printf("\nThe power of the lines on every kind of network.\n\n| network | vertices | lines |");
    for (enum call call = ORIENT; call < CALLS; call++)
        printf(" %s |", call_names[call]);
    printf("\n|:--|--:|--:|--:|--:|--:|--:|--:|--:|--:|\n");
    for (enum shape shape = 0; shape < SHAPES; shape++)
        print_powers(shape);
    print_greatest();
}

int grow(const struct plan *plan) {
    for (enum shape shape = 0; shape < SHAPES; shape++)
        for (size_t size = 0; size < SIZES; size++)
            if (!make_set(shape, size, plan->seed))
                return 1;
    printf("\nThe programs agree on all networks of the following tables too.\n");
    fflush(stdout);
    for (size_t round = 0; round < plan->rounds; round++)
        for (enum shape shape = 0; shape < SHAPES; shape++)
            for (size_t size = 0; size < SIZES; size++)
                if (measure(plan, &sets[shape][size], times[shape][size]))
                    return 1;
    for (enum shape shape = 0; shape < SHAPES; shape++)
        for (size_t size = 0; size < SIZES; size++)
            for (enum call call = ORIENT; call < CALLS; call++)
                if (times[shape][size][call].count > 0)
                    medians[shape][size][call] = settle(&times[shape][size][call]);
    print_growth();
    return 0;
}
