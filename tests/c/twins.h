/*
 * Two devices of the library side by side, for what should be the same of both: each is the library's half of a pair (pair.h), and no
 * model is asked. Events are put by pair_library.
 */
#ifndef TWINS_H
#define TWINS_H

#include "pair.h"

struct twins {
    struct pair one, other;
};

/* Two fresh devices over the same words, thrown by dice, and no command begun. */
struct twins twins_make(uint64_t part);
void twins_free(struct twins *twins);

/* Makes the other what the one is, in record and both arrays. */
void twins_align(struct twins *twins);

/* Both lent wrongly, in the same way. The arrays are the same. */
struct twins twins_lent_wrongly(const struct twins *twins);

/* What rarely befalls a device between two events befalls both. */
void twins_between(struct twins *twins);

/* Compares the records in all words, and the one-time words. */
bool twins_records(const struct twins *twins);

#endif
