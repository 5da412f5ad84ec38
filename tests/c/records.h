/* Records thrown by dice, of a kind that is asked for. */
#ifndef RECORDS_H
#define RECORDS_H

#include "pair.h"

/* Of that operation and command, in the one-time block or not; sound or not: the model will tell. */
struct model_record some_record(uint64_t part, enum model_operation operation, enum model_command command, bool entered);

/* The image of a sound one is the pair's, if one comes up soon. */
bool sound_image(struct pair *pair, enum model_operation operation, enum model_command command, bool entered);

#endif
