/* See plans.h. */
#include "plans.h"

#include "check.h"
#include "commands.h"
#include "dice.h"

static uint16_t debris[32768 + 2];

void throw_debris(void)
{
    for (size_t i = 0; i < sizeof debris / sizeof *debris; i++)
        debris[i] = (uint16_t)dice();
}

/* Sizes around all the times there are, and around what is left up to the next change; at times up to the clock's limit. */
static uint64_t some_wait(const struct pair *pair)
{
    static const uint64_t sizes[] = { 0, 1, 5, 6, 19, 20, 21, 49, 50, 51, 499999, 500000, 500001, 699999, 700000, 700001, 700050 };
    struct model_record record = now(pair);
    uint64_t change = model_until_change(pair->part, &record), left = change != MODEL_NONE ? change : 1;
    uint64_t room = MODEL_CLOCK_LIMIT - record.clock;

    if (once_in(500))
        return once_in(2) ? below(room + 1) : once_in(2) ? room + below(3) : dice();
    switch (below(8)) {
    case 0: return below(100);
    case 1: return below(once_in(2) ? 2000000 : 200000000);
    case 2: return left - 1 + below(3);
    case 3: case 4: return below(left);
    default: return ONE_OF(sizes);
    }
}

/* Debris as needed, or a word too short, or more. */
static size_t some_debris(const struct pair *pair)
{
    struct model_record record = now(pair);
    size_t needed = model_debris_needed(pair->part, &record);

    return once_in(3) && needed > 0 ? (once_in(2) ? needed - 1 : below(needed)) : needed + below(2);
}

/* Up to the end of an array and just past it, few, or any number. */
static uint64_t some_count(const struct pair *pair, uint64_t first)
{
    switch (below(5)) {
    case 0: return K5L_OTP_WORDS - first + below(2);
    case 1: return pair->length - first + below(2);
    case 2: return dice();
    default: return below(K5L_OTP_WORDS);
    }
}

/* What runs takes B0H at most; the one-time block is where ranges are taken. */
struct event some_event(const struct pair *pair)
{
    struct event event = { .kind = EVENT_READ, .debris = debris };
    struct model_record record = now(pair);
    bool runs = model_is_busy(&record);
    uint64_t writes = runs ? 30 : 60, reads = 20;
    uint64_t kind = is_calm() ? 0 : once_in(record.operation != MODEL_IDLE ? 40 : 200) ? 100 : below(100);

    if (kind == 100) {
        event.kind = EVENT_CUT;
        event.debris_length = some_debris(pair);
    } else if (kind < writes) {
        event.kind = EVENT_WRITE;
        choose_write(pair, &event);
    } else if (kind < writes + reads) {
        event.kind = once_in(record.entered ? 2 : 20) ? EVENT_RANGE : EVENT_READ;
        event.number = some_address(pair);
        event.count = some_count(pair, event.number);
    } else {
        event.kind = EVENT_WAIT;
        event.number = some_wait(pair);
    }
    if (runs && event.kind == EVENT_WRITE && !once_in(3))
        event.word = 0xB0;
    return event;
}

uint16_t blank_or_random(uint64_t address)
{
    (void)address;
    return once_in(4) ? 0xFFFF : (uint16_t)dice();
}

struct pair lent_wrongly(const struct pair *pair)
{
    struct pair wrong = *pair;
    uint64_t word = below(K5L_RECORD_WORDS);

    switch (below(4)) {
    case 0: wrong.length = once_in(2) ? wrong.length - 1 : below(wrong.length); break;
    case 1: wrong.otp_length = once_in(2) ? K5L_OTP_WORDS + 1 : below(K5L_OTP_WORDS); break;
    default: wrong.image[word] ^= (uint64_t)1 << (once_in(4) ? below(2) : below(64));
    }
    return wrong;
}

static void renew_one_time(struct pair *pair)
{
    for (unsigned i = 0; i < K5L_OTP_WORDS; i++)
        pair->otp[i] = pair->model_otp[i] = blank_or_random(i);
    pair->image[31] = 0;
}

bool something_befalls(struct pair *pair)
{
    bool suspended = pair->image[5] == MODEL_PROGRAM && pair->image[30] == 0 && once_in(20), renewed = once_in(1000), ended;

    if (suspended)
        pair->image[5] = MODEL_SUSPENDED_PROGRAM;
    if (renewed)
        renew_one_time(pair);
    ended = pair->image[1] > 99999999000000 && once_in(100);
    if (ended) {
        SAME(k5l_fresh(pair->image, pair->words), K5L_DONE);
        forget_plan();
    }
    return suspended || renewed || ended;
}
