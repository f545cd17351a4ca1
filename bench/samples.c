#include "samples.h"

#include <stdlib.h>
#include <time.h>

enum { MOST_SETTLED = 2000 };

static double spreads[MOST_SETTLED];
static size_t settled;

static int by_size(const void *one, const void *other) {
    double difference = *(const double *)one - *(const double *)other;
    return (difference > 0) - (difference < 0);
}

uint64_t clock_now(void) {
    struct timespec time;
    clock_gettime(CLOCK_THREAD_CPUTIME_ID, &time);
    return (uint64_t)time.tv_sec * 1000000000u + (uint64_t)time.tv_nsec;
}

/* Readings with nothing between them; the median of many. It is as long as the quickest thing measured here. */
static double reading(void) {
    enum { MANY = 1001 };
    static double times[MANY];
    if (times[MANY / 2] > 0)
        return times[MANY / 2];
    for (size_t i = 0; i < MANY; i++) {
        uint64_t before = clock_now();
        times[i] = (double)(clock_now() - before);
    }
    qsort(times, MANY, sizeof *times, by_size);
    return times[MANY / 2];
}

double between(uint64_t before, uint64_t after) {
    double time = (double)(after - before) - reading();
    return time > 0 ? time : 0;
}

/* Reads and writes at random places of a megabyte, and branches at random. */
void spoil(void) {
    static unsigned char places[1 << 20];
    static volatile uint32_t sum;
    uint32_t number = 1, own = 0;
    for (int i = 0; i < 60000; i++) {
        number = number * 1664525 + 1013904223;
        if (number >> 31)
            own += places[number >> 8 & 0xfffff];
        else
            places[number >> 8 & 0xfffff] = (unsigned char)number;
        if (number >> 30 & 1)
            own ^= number;
    }
    sum = own;
    (void)sum;
}

void put_sample(struct samples *samples, double nanoseconds) {
    if (samples->count < MOST_SAMPLES)
        samples->nanoseconds[samples->count++] = nanoseconds;
}

double settle(struct samples *samples) {
    double *sorted = samples->nanoseconds;
    size_t count = samples->count;
    qsort(sorted, count, sizeof *sorted, by_size);
    double median = sorted[count / 2];
    if (settled < MOST_SETTLED && median > 0)
        spreads[settled++] = (sorted[3 * count / 4] - sorted[count / 4]) / 2 / median;
    return median / 1000;
}

void spread(double *usual, double *worst) {
    qsort(spreads, settled, sizeof *spreads, by_size);
    *usual = settled ? spreads[settled / 2] : 0;
    *worst = settled ? spreads[settled - 1] : 0;
}
