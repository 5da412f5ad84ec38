/*
 * What happens next to a device, thrown by dice: the writes of commands.h, and reads, waits, cuts and ranges at the places and times that
 * matter.
 */
#ifndef PLANS_H
#define PLANS_H

#include "pair.h"

/* The next event; of a command that is begun, mostly its next write. */
struct event some_event(const struct pair *pair);

/* Throws the debris of all the cuts to come. */
void throw_debris(void);

/* A word of either array, as pair_fill asks for it. */
uint16_t blank_or_random(uint64_t address);

/* The same device, lent wrongly: a length, or a record with a bit flipped, which may then still be sound. The arrays are the same. */
struct pair lent_wrongly(const struct pair *pair);

/* What rarely befalls a device between two events: it comes as an older device stored it, a program being suspended; it is of another
 * board, whose one-time words can still be written; or it has come to the clock's limit, where it has nothing more to show, and a new one
 * takes its place. Was there anything? */
bool something_befalls(struct pair *pair);

#endif
