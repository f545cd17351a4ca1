/* Measures the calls of Cornetariel beside other programs and prints tables. bench/run builds it and says how to call it.
 *
 * Exit status: 0 measured, 1 the programs disagree or a call fails, 2 wrong arguments. */
#include "samples.h"
#include "tables.h"

#include <malloc.h>
#include <stdio.h>
#include <stdlib.h>
#include <string.h>

enum { ROUNDS = 5 };

static int is_number(const char *word, unsigned long least, unsigned long most, unsigned long *number) {
    char *end;
    if (word == NULL || *word == '\0')
        return 0;
    *number = strtoul(word, &end, 10);
    return *end == '\0' && least <= *number && *number <= most;
}

/* Whether the arguments, up to a null, make a plan. */
static int make_plan(char **arguments, struct plan *plan) {
    unsigned long number;
    while (*arguments != NULL) {
        const char *word = *arguments++;
        if (strcmp(word, "--quick") == 0) {
            plan->repetitions = 5;
        } else if (strcmp(word, "--cold") == 0) {
            plan->cold = 1;
        } else if (strcmp(word, "--repetitions") == 0 && is_number(*arguments, ROUNDS, MOST_SAMPLES, &number)) {
            plan->repetitions = number / ROUNDS;
            arguments++;
        } else if (strcmp(word, "--seed") == 0 && is_number(*arguments, 0, 1000000, &number)) {
            plan->seed = number;
            arguments++;
        } else {
            return 0;
        }
    }
    return 1;
}

int main(int argc, char **argv) {
    struct plan plan = {.rounds = ROUNDS, .repetitions = 31, .seed = 1};
    if (argc < 1 || !make_plan(argv + 1, &plan)) {
        fprintf(stderr, "bench: use --quick, --cold, --repetitions N (%d to %d) or --seed N (up to 1000000)\n", ROUNDS, MOST_SAMPLES);
        return 2;
    }
    /* The peers take memory and give it back with every graph. Here it stays with the program: to hand it to the system and
     * get it again takes longer than some of the works, and how often that happens would be chance. */
    mallopt(M_MMAP_MAX, 0);
    mallopt(M_TRIM_THRESHOLD, 1 << 30);
    printf("Microseconds, the median of %zu repetitions%s; a ratio is a peer's time divided by ours. Seed %lu.\n",
           plan.rounds * plan.repetitions, plan.cold ? ", cold" : "", (unsigned long)plan.seed);
    fflush(stdout);
    if (compare(&plan) || grow(&plan))
        return 1;
    double usual, worst;
    spread(&usual, &worst);
    printf("\nOf each cell half of the repetitions lay within %.1f %% of their median, of the worst within %.1f %%.\n",
           100 * usual, 100 * worst);
    return 0;
}
