/* Ours and the peers, on each network: first whether they agree, then how long each takes for each work. */
#include "agree.h"
#include "programs.h"
#include "samples.h"
#include "tables.h"

#include <math.h>
#include <stdio.h>

enum work { TEST, EMBED, REASON, WORKS };

static const char *const titles[WORKS] = {
    "Test: flat or not. Ours: first choice.",
    "Order: a clockwise order at each vertex. Ours: first choice and draw, which gives the meshes too.",
    "Reason: why a network is not flat. Ours: first choice, which gives a ring; the peers give a subdivided K5 or K3,3.",
};

static const struct {
    enum shape shape;
    size_t vertices;
} compared[] = {
    {COMPLETE, 4},
    {CUT, 64},
    {PATH, 512},
    {LADDER, 512},
    {GRID, 512},
    {WHEEL, 512},
    {TWO_HUBS, 64},
    {TWO_HUBS, 256},
    {TWO_HUBS, 512},
    {BROOM, 64},
    {BROOM, 256},
    {BROOM, 512},
    {BROOM_FILLED, 64},
    {BROOM_FILLED, 256},
    {BROOM_FILLED, 512},
    {BUNDLE, 512},
    {CHORDS, 512},
    {CUT, 512},
    {STACKED, 512},
    {TURNED, 512},
    {COMPLETE, 5},
    {TWO_PARTS, 6},
    {RANDOM_SPARSE, 64},
    {STRETCHED_FIVE, 512},
    {STRETCHED_THREES, 512},
    {TWISTED_LADDER, 512},
    {THREE_HUBS, 64},
    {THREE_HUBS, 256},
    {THREE_HUBS, 512},
    {BROOM_ON_FIVE, 64},
    {BROOM_ON_FIVE, 256},
    {BROOM_ON_FIVE, 512},
    {BROOM_DENSE, 64},
    {BROOM_DENSE, 256},
    {BROOM_DENSE, 512},
    {GRID_AND_LINE, 512},
    {CUT_AND_LINE, 512},
    {RANDOM_SPARSE, 512},
    {RANDOM_MIDDLE, 512},
    {RANDOM_DENSE, 512},
    {COMPLETE, 64},
    {TWO_PARTS, 90},
};

enum { NETWORKS = sizeof compared / sizeof *compared };

static struct network networks[NETWORKS];
static int flat[NETWORKS];

/* Of each work: all that a program needs from a list of ends on, its memory given back at the end; and the work alone, on
 * what was built for it before. */
static struct samples wholes[WORKS][NETWORKS][PROGRAMS], alones[WORKS][NETWORKS][PROGRAMS];

/* There is no order of a network that isn't flat, and no reason where it is. */
static int has_use(enum work work, size_t n) {
    return work == TEST || (work == EMBED) == (flat[n] == FLAT);
}

static void do_work(const struct program *program, enum work work, void *built) {
    switch (work) {
    case TEST: program->test(built); break;
    case EMBED: program->embed(built); break;
    default: program->reason(built);
    }
}

static void time_once(const struct program *program, enum work work, const struct network *network, double *whole,
                      double *alone) {
    uint64_t start = clock_now();
    void *built = program->build(network);
    uint64_t before = clock_now();
    do_work(program, work, built);
    uint64_t after = clock_now();
    program->release(built);
    uint64_t end = clock_now();
    *alone = between(before, after);
    *whole = between(start, before) + *alone + between(after, end);
}

/* All repetitions of one program, then all of the next. If they took turns one by one, planarity would pay some hundred
 * microseconds for the memory that Boost gave back: this was tried with and without Boost. The price is that caches and
 * branches are at their best, which helps planarity most; a cold run shows it without. */
static void measure(const struct plan *plan, enum work work, size_t n) {
    for (int p = 0; p < PROGRAMS; p++)
        for (size_t turn = 0; turn < WARMING + plan->repetitions; turn++) {
            double whole, alone;
            if (plan->cold)
                spoil();
            time_once(programs[p], work, &networks[n], &whole, &alone);
            if (turn < WARMING)
                continue;
            put_sample(&wholes[work][n][p], whole);
            put_sample(&alones[work][n][p], alone);
        }
}

/* What stands beside ours in each row. Planarity alone is the same whether its graph was kept or not. */
static const struct {
    int program, alone;
    const char *title, *form;
} columns[] = {
    {PLANARITY, 0, "planarity", "its graph made anew"},
    {REUSED, 0, "planarity reused", "its graph reused"},
    {BOOST, 0, "Boost", NULL},
    {PLANARITY, 1, "planarity alone", "building its graph left out"},
    {BOOST, 1, "Boost alone", NULL},
};

enum { COLUMNS = sizeof columns / sizeof *columns };

/* From so many vertices on a network is large: on smaller ones a call takes about as long as it takes on none. */
enum { LARGE = 64 };

/* How a column stands to ours over some rows: the logarithms of the ratios, and the row where ours does worst. */
struct standing {
    size_t rows, worst_row;
    double logarithms, least;
};

static void put_ratio(struct standing *standing, size_t row, double ratio) {
    if (standing->rows == 0 || ratio < standing->least) {
        standing->least = ratio;
        standing->worst_row = row;
    }
    standing->rows++;
    standing->logarithms += log(ratio);
}

static double mean(const struct standing *standing) {
    return exp(standing->logarithms / (double)standing->rows);
}

/* Over the large networks, and over all. */
static struct standing large[WORKS][COLUMNS], all[WORKS][COLUMNS];

/* Two digits that count, on either side of 1. */
static void print_ratio(double ratio) {
    printf(ratio < 0.1 ? " %5.3f |" : " %5.2f |", ratio);
}

static void print_row(enum work work, size_t n) {
    const struct network *network = &networks[n];
    double own = settle(&alones[work][n][OURS]);
    printf("| %-28s | %4zu | %4zu | %-3s | %7.1f |", network->name, network->vertices, network->lines,
           flat[n] == FLAT ? "yes" : "no", own);
    for (size_t c = 0; c < COLUMNS; c++) {
        int p = columns[c].program;
        double time = settle(columns[c].alone ? &alones[work][n][p] : &wholes[work][n][p]);
        printf(" %7.1f |", time);
        print_ratio(time / own);
        put_ratio(&all[work][c], n, time / own);
        if (network->vertices >= LARGE)
            put_ratio(&large[work][c], n, time / own);
    }
    printf("\n");
}

static void print_table(enum work work) {
    printf("\n%s\n\n| network | vertices | lines | flat | ours |", titles[work]);
    for (size_t c = 0; c < COLUMNS; c++)
        printf(" %s | ratio |", columns[c].title);
    printf("\n|:--|--:|--:|:--|--:|");
    for (size_t c = 0; c < COLUMNS; c++)
        printf("--:|--:|");
    printf("\n");
    for (size_t n = 0; n < NETWORKS; n++)
        if (has_use(work, n))
            print_row(work, n);
    printf("| %-28s | | | | |", "geometric mean");
    for (size_t c = 0; c < COLUMNS; c++) {
        printf(" |");
        print_ratio(mean(&all[work][c]));
    }
    printf("\n| geometric mean, %d vertices and more | | | | |", LARGE);
    for (size_t c = 0; c < COLUMNS; c++) {
        printf(" |");
        print_ratio(mean(&large[work][c]));
    }
    printf("\n");
}

/* Ours beside planarity in short, the other way round than in the tables: so many times as long as planarity ours takes. */
static void print_summary(void) {
    static const char *const works[WORKS] = {
        "first choice / test",
        "first choice and draw / order",
        "first choice / reason",
    };
    printf("\nOurs beside planarity in short: our time divided by planarity's, geometric means and the worst network.\n"
           "Below 1 ours is quicker.\n\n");
    printf("| work | planarity with | %d vertices and more | all | worst of %d and more | on |\n", LARGE, LARGE);
    printf("|:--|:--|--:|--:|--:|:--|\n");
    for (enum work work = TEST; work < WORKS; work++)
        for (size_t c = 0; c < COLUMNS; c++) {
            const struct standing *standing = &large[work][c];
            const struct network *worst = &networks[standing->worst_row];
            if (columns[c].form == NULL)
                continue;
            printf("| %s | %s |", works[work], columns[c].form);
            print_ratio(1 / mean(standing));
            print_ratio(1 / mean(&all[work][c]));
            print_ratio(1 / standing->least);
            printf(" %s, %zu vertices, %zu lines |\n", worst->name, worst->vertices, worst->lines);
        }
}

int compare(const struct plan *plan) {
    for (size_t n = 0; n < NETWORKS; n++) {
        make_network(&networks[n], compared[n].shape, compared[n].vertices, plan->seed);
        if (!all_agree(&networks[n], &flat[n]))
            return 1;
    }
    printf("The programs agree on all %d networks, and each of their orders has vertices - lines + meshes 2.\n", NETWORKS);
    for (size_t round = 0; round < plan->rounds; round++)
        for (size_t n = 0; n < NETWORKS; n++)
            for (enum work work = TEST; work < WORKS; work++)
                if (has_use(work, n))
                    measure(plan, work, n);
    for (enum work work = TEST; work < WORKS; work++)
        print_table(work);
    print_summary();
    fflush(stdout);
    return 0;
}
