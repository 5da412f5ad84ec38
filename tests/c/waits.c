/*
 * One wait or several: two devices get the same random events, but what is one wait for the one is divided for the other, with nothing
 * between. Answers, records in all words, clock and charge with them, and both arrays must be the same after every event; and a wait that
 * is refused is refused in pieces, too. The seed is the argument.
 *
 *     waits [SEED [EVENTS-ON-THE-SMALL-PART [EVENTS-ON-THE-FULL-PART]]]
 */
#include "check.h"
#include "commands.h"
#include "dice.h"
#include "plans.h"
#include "twins.h"

#include <inttypes.h>
#include <stdio.h>
#include <stdlib.h>
#include <string.h>

enum { REFUSALS = K5L_CLOCK + 1 };

/* How a wait in pieces went: the first refusal, if there was one, and the pieces taken before it. Was the operation, or the block in hand,
 * another already at the end of a piece that was not the last? */
struct course {
    uint64_t refusal, taken;
    bool moved;
};

/* Waits that were taken and divided, by the operation that they began in, and those of them where it moved between the pieces; the same of
 * programs inside the one-time block, by the array that the word is of. All waits by refusal; those refused of which pieces were taken,
 * and those that just reach the clock's limit. */
static unsigned long divided[MODEL_OPERATIONS], moved[MODEL_OPERATIONS], inside, inside_divided[2], inside_moved[2], refusals[REFUSALS];
static unsigned long refused_late, to_limit;

/* Nothing, all, up to the next change or a microsecond off, few, or any part of what is left. */
static uint64_t some_piece(const struct pair *pair, uint64_t rest)
{
    uint64_t change = k5l_until_change(pair->part, pair->image, pair->words), piece;

    switch (below(8)) {
    case 0: return 0;
    case 1: return once_in(4) ? rest : 0;
    case 2: case 3: piece = change != K5L_NONE ? change - 1 + below(3) : 1; break;
    case 4: piece = below(60); break;
    default: piece = below(rest + (rest == 0));
    }
    return piece < rest ? piece : rest;
}

/* The last piece is what is left; with the first refusal it ends. */
static struct course wait_in_pieces(struct pair *pair, uint64_t microseconds)
{
    struct event piece = { .kind = EVENT_WAIT };
    uint64_t operation = pair->image[5], hand = pair->image[11], rest = microseconds;
    struct course course = { .refusal = K5L_DONE };

    for (uint64_t more = once_in(20) ? 5 + below(30) : 1 + below(4); more > 0 && course.refusal == K5L_DONE; more--) {
        piece.number = some_piece(pair, rest);
        rest -= piece.number;
        course.refusal = pair_library(pair, &piece) >> 16;
        course.taken += course.refusal == K5L_DONE;
        course.moved |= pair->image[5] != operation || pair->image[11] != hand;
    }
    piece.number = rest;
    if (course.refusal == K5L_DONE)
        course.refusal = pair_library(pair, &piece) >> 16;
    return course;
}

static void tally(const struct model_record *record, bool has_moved)
{
    divided[record->operation]++;
    moved[record->operation] += has_moved;
    inside += record->entered;
    if (record->entered && model_program_runs(record)) {
        inside_divided[model_array_of(record, record->program.at)]++;
        inside_moved[model_array_of(record, record->program.at)] += has_moved;
    }
}

/* All pieces are taken of a wait that is. */
static bool divide(struct twins *twins, const struct model_record *before, uint64_t microseconds)
{
    struct course course = wait_in_pieces(&twins->other, microseconds);

    tally(before, course.moved);
    to_limit += microseconds > 0 && twins->one.image[1] == MODEL_CLOCK_LIMIT;
    return SAME(course.refusal, K5L_DONE);
}

/* What is refused is refused in pieces, too: by the clock once there is no room, and else at once. The one, where nothing has changed, is
 * what the other goes back to. */
static bool divide_refused(struct twins *twins, uint64_t refusal, uint64_t microseconds)
{
    struct course course = wait_in_pieces(&twins->other, microseconds);
    bool same = SAME(course.refusal, refusal);

    same &= HOLDS(course.taken == 0 || refusal == K5L_CLOCK);
    refused_late += course.taken > 0;
    twins_align(twins);
    return same;
}

/* All cells of the small part after every event; of the full one where they may have changed. */
static bool same_cells(const struct twins *twins, const struct event *event, const uint64_t *before)
{
    const struct pair *one = &twins->one, *other = &twins->other;

    return (one->part == K5L_FULL && !may_have_changed_cells(event, before, one->image))
        || same_words("cell", other->cells, one->cells, -PAIR_GUARD, (ptrdiff_t)one->room - PAIR_GUARD);
}

static void put(struct twins *twins, const struct event *event)
{
    struct model_record record = now(&twins->one);
    uint64_t before[PAIR_IMAGE_WORDS], answer;
    bool waits = event->kind == EVENT_WAIT, same;

    memcpy(before, twins->one.image, sizeof before);
    answer = pair_library(&twins->one, event);
    if (waits && HOLDS(answer >> 16 < REFUSALS))
        refusals[answer >> 16]++;
    if (waits && answer >> 16 == K5L_DONE)
        same = divide(twins, &record, event->number);
    else
        same = SAME(pair_library(&twins->other, event), answer);
    same &= twins_records(twins);
    same &= same_cells(twins, event, before);
    if (!same) {
        pair_tell(&twins->one, before, event);
        twins_align(twins);
    }
    if (waits && answer >> 16 != K5L_DONE && !divide_refused(twins, answer >> 16, event->number))
        pair_tell(&twins->one, before, event);
}

/* Often where the clock's limit is near, and else rarely, a wait is just up to it, one less or one more. */
static struct event some_event_or_limit(const struct pair *pair)
{
    struct event event = some_event(pair);
    uint64_t room = MODEL_CLOCK_LIMIT - pair->image[1];

    if (event.kind == EVENT_WAIT && once_in(room < 1000000 ? 3 : 500))
        event.number = room - (room > 0) + below(3);
    return event;
}

static void run(uint64_t part, unsigned long events)
{
    struct twins twins = twins_make(part);

    for (unsigned long i = 0; i < events; i++) {
        struct event event = some_event_or_limit(&twins.one);

        if (once_in(200)) {
            struct twins wrong = twins_lent_wrongly(&twins);

            put(&wrong, &event);
        }
        put(&twins, &event);
        twins_between(&twins);
    }
    same_words("cell", twins.other.cells, twins.one.cells, -PAIR_GUARD, (ptrdiff_t)twins.one.room - PAIR_GUARD);
    twins_free(&twins);
}

/* Waits were divided in every operation, and those that end by themselves, or go on to another block, did so between the pieces. */
static void report(void)
{
    printf("waits: divided in operation 0 to 7, and in a recovery, of these moved between the pieces:");
    for (int i = 0; i < MODEL_OPERATIONS; i++) {
        bool rests = i == MODEL_IDLE || i == MODEL_SUSPENDED_PROGRAM || i == MODEL_SUSPENDED_ERASE;

        printf(" %lu, %lu%s", divided[i], moved[i], i < MODEL_OPERATIONS - 1 ? ";" : "\n");
        HOLDS(divided[i] > 0);
        SAME(moved[i] > 0, !rests);
    }
    printf("waits: %lu in the one-time block: in a program of a cell %lu, %lu, of a one-time word %lu, %lu; answers 0 to 4:",
           inside, inside_divided[0], inside_moved[0], inside_divided[1], inside_moved[1]);
    HOLDS(inside_moved[0] > 0 && inside_moved[1] > 0);
    for (int i = 0; i < REFUSALS; i++) {
        printf(" %lu", refusals[i]);
        SAME(refusals[i] > 0, i != K5L_ADDRESS);
    }
    printf(", refused after some pieces: %lu, taken just up to the limit: %lu\n", refused_late, to_limit);
    HOLDS(refused_late > 0 && to_limit > 0);
}

int main(int count, char **arguments)
{
    unsigned long small = count > 2 ? strtoul(arguments[2], NULL, 0) : 600000;
    unsigned long full = count > 3 ? strtoul(arguments[3], NULL, 0) : 3000;

    dice_seed = count > 1 ? strtoull(arguments[1], NULL, 0) : 1;
    printf("waits: seed %" PRIu64 ", %lu events on the small part, %lu on the full one\n", dice_seed, small, full);
    throw_debris();
    run(K5L_SMALL, small);
    run(K5L_FULL, full);
    report();
    return check_report("waits");
}
