/* A small generator of numbers (splitmix64) that gives the same run for the same seed everywhere. */
#ifndef DICE_H
#define DICE_H

#include <stdbool.h>
#include <stdint.h>

/* 1 unless a test sets another before it throws. */
extern uint64_t dice_seed;

static inline uint64_t dice(void)
{
    uint64_t mixed = dice_seed += 0x9E3779B97F4A7C15;

    mixed = (mixed ^ mixed >> 30) * 0xBF58476D1CE4E5B9;
    mixed = (mixed ^ mixed >> 27) * 0x94D049BB133111EB;
    return mixed ^ mixed >> 31;
}

/* From 0 to below the limit. */
static inline uint64_t below(uint64_t limit) { return dice() % limit; }

/* True once in so many times. */
static inline bool once_in(uint64_t times) { return below(times) == 0; }

#define ONE_OF(array) ((array)[below(sizeof(array) / sizeof *(array))])

#endif
