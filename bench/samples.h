/* Times of one thing, measured again and again. */
#ifndef SAMPLES_H
#define SAMPLES_H

#include <stddef.h>
#include <stdint.h>

enum { MOST_SAMPLES = 2000 };

struct samples {
    size_t count;
    double nanoseconds[MOST_SAMPLES];
};

/* How long this thread has had a processor, in nanoseconds: what passes while other programs have it doesn't count. */
uint64_t clock_now(void);

/* The nanoseconds between two readings of the clock, less what a reading itself takes. */
double between(uint64_t before, uint64_t after);

/* Leaves the caches and the processor's guesses about branches as other work would: without this, repetitions on one
 * network find both at their best. Takes and gives back no memory. */
void spoil(void);

void put_sample(struct samples *samples, double nanoseconds);

/* The median, in microseconds. Samples that are settled take no more. */
double settle(struct samples *samples);

/* Half of a thing's samples lie within some part of their median. Writes that part for the thing in the middle of all
 * that were settled, and for the worst: it tells a quiet run from one that other programs disturbed. */
void spread(double *usual, double *worst);

#endif
