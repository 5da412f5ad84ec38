/* See twins.h. */
#include "twins.h"

#include "commands.h"
#include "plans.h"

#include <string.h>

static void align_records(struct twins *twins)
{
    memcpy(twins->other.image, twins->one.image, sizeof twins->one.image);
    memcpy(twins->other.otp - PAIR_GUARD, twins->one.otp - PAIR_GUARD, PAIR_OTP_ROOM * sizeof *twins->one.otp);
}

void twins_align(struct twins *twins)
{
    align_records(twins);
    memcpy(twins->other.cells - PAIR_GUARD, twins->one.cells - PAIR_GUARD, twins->one.room * sizeof *twins->one.cells);
}

struct twins twins_make(uint64_t part)
{
    struct twins twins = { .one = pair_make(part), .other = pair_make(part) };

    pair_fill(&twins.one, blank_or_random);
    twins_align(&twins);
    forget_plan();
    return twins;
}

void twins_free(struct twins *twins)
{
    pair_free(&twins->one);
    pair_free(&twins->other);
}

struct twins twins_lent_wrongly(const struct twins *twins)
{
    struct twins wrong = { .one = lent_wrongly(&twins->one), .other = twins->other };

    memcpy(wrong.other.image, wrong.one.image, sizeof wrong.one.image);
    wrong.other.length = wrong.one.length;
    wrong.other.otp_length = wrong.one.otp_length;
    return wrong;
}

/* Records and one-time words were the same before. */
void twins_between(struct twins *twins)
{
    if (something_befalls(&twins->one))
        align_records(twins);
}

bool twins_records(const struct twins *twins)
{
    bool same = same_images(twins->other.image, twins->one.image);

    return same & same_words("one-time word", twins->other.otp, twins->one.otp, -PAIR_GUARD, PAIR_OTP_ROOM - PAIR_GUARD);
}
