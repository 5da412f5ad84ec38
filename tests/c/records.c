/* See records.h. */
#include "records.h"

#include "dice.h"

/* Two blocks of a bank, and one of them in hand. */
static struct model_erase some_erase(void)
{
    static const uint64_t times[] = { 1, 2, 5, 6, 49, 50, 499999, 500000, 699999, 700000 };
    static const uint64_t blocks[] = { 0, 20, 40, 110, 140, 210, 232, 258 }; /* two of each bank, with room above */
    uint64_t lowest = ONE_OF(blocks) + below(3);
    struct model_erase erase = { .hand = lowest, .left = ONE_OF(times), .recovery = 1 + below(20) };

    erase.dq6 = once_in(2);
    erase.dq2 = once_in(2);
    model_put(&erase.list, lowest, true);
    model_put(&erase.list, lowest + 2 + below(8), true);
    if (once_in(2))
        erase.hand = model_next(&erase.list, lowest + 1);
    return erase;
}

/* Often where the one-time block lies. */
static struct model_program some_program(uint64_t part)
{
    struct model_program program = { .left = 1 + below(6), .word = (uint16_t)dice() };

    program.at = below(once_in(2) ? model_words(part) : MODEL_ONE_TIME_WORDS);
    program.dq6 = once_in(2);
    return program;
}

struct model_record some_record(uint64_t part, enum model_operation operation, enum model_command command, bool entered)
{
    struct model_record record = model_fresh();

    record.clock = once_in(4) ? MODEL_CLOCK_LIMIT - below(3) : 1000000;
    record.charge = (once_in(4) ? MODEL_RUNNING_CURRENT : MODEL_RESTING_CURRENT) * record.clock;
    record.command = command;
    record.operation = operation;
    record.block = below(MODEL_BLOCKS);
    record.bank = below(MODEL_BANKS);
    record.erase = some_erase();
    record.program = some_program(part);
    if (once_in(2))
        model_put(&record.dyb, below(MODEL_BLOCKS), true);
    if (once_in(2))
        model_put(&record.ppb, below(MODEL_BLOCKS), true);
    record.lock = once_in(2);
    record.entered = entered;
    record.sealed = once_in(2);
    return record;
}

bool sound_image(struct pair *pair, enum model_operation operation, enum model_command command, bool entered)
{
    for (int tries = 0; tries < 200; tries++) {
        struct model_record record = some_record(pair->part, operation, command, entered);

        if (model_sound(pair->part, &record)) {
            image_encode(&record, pair->image);
            return true;
        }
    }
    return false;
}
