/* measure.h - drawn numbers and the time, for the programs that measure; they define _POSIX_C_SOURCE for the clock. */
#ifndef MEASURE_H
#define MEASURE_H

#include <stdint.h>
#include <time.h>

/* A generator of numbers that are the same in every run (xorshift). */
static uint64_t generator;

static inline uint32_t draw(uint32_t below)
{
    generator ^= generator << 13;
    generator ^= generator >> 7;
    generator ^= generator << 17;
    return (uint32_t)((generator >> 32) * below >> 32);
}

/* Nanoseconds since some moment. */
static inline double now(void)
{
    struct timespec t;
    clock_gettime(CLOCK_MONOTONIC, &t);
    return (double)t.tv_sec * 1e9 + (double)t.tv_nsec;
}

#endif
