/* Commands as a driver would enter them, thrown by dice, with faults between: what is written next, where, and with what data. */
#ifndef COMMANDS_H
#define COMMANDS_H

#include "pair.h"

/* The model's reading of where the device is: what is planned next depends on it. */
struct model_record now(const struct pair *pair);

/* An address that matters: a block's edge, what an operation is about, one that a reading knows, one of the one-time block's; rarely one
 * outside. */
uint64_t some_address(const struct pair *pair);

/* Address and word of a write: mostly the plan's next, else a fault. */
void choose_write(const struct pair *pair, struct event *event);

/* Is there a plan that is to be gone through without a fault? */
bool is_calm(void);

/* For a device that is another: no command is begun. */
void forget_plan(void);

#endif
