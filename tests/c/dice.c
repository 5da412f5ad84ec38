/* One row of numbers for all the files of a test. See dice.h. */
#include "dice.h"

uint64_t dice_seed = 1;
