/*
 * A long random run, the library beside the model: after every event the answer, the record, the questions about it and the
 * words of both arrays must be the same. Commands are mostly entered as a driver would, with faults between (commands.h); now and then
 * a program comes as it was stored when B0H still suspended one, or a board whose one-time words are still to be written. The seed is the
 * argument.
 *
 *     compare [SEED [EVENTS-ON-THE-SMALL-PART [EVENTS-ON-THE-FULL-PART]]]
 */
#include "check.h"
#include "commands.h"
#include "dice.h"
#include "plans.h"

#include <inttypes.h>
#include <stdio.h>
#include <stdlib.h>
#include <string.h>

enum { REFUSALS = K5L_RAISE + 1 };

/* How often each answer was met; and the events by operation, outside the one-time block and inside, where a program is of either array. */
static unsigned long refusals[REFUSALS], operations[MODEL_OPERATIONS], inside, inside_programs[2], ranges[2];

static void tally(const struct model_record *record, const struct event *event, uint64_t answer)
{
    operations[record->operation]++;
    refusals[answer >> 16]++;
    inside += record->entered;
    if (record->entered && model_program_runs(record))
        inside_programs[model_array_of(record, record->program.at)]++;
    if (event->kind == EVENT_RANGE && answer >> 16 == K5L_DONE)
        ranges[model_array_of(record, event->number)]++;
}

/* No event suspends a program, and none takes a lock back. */
static void put(struct pair *pair, const struct event *event)
{
    struct model_record before = now(pair);

    tally(&before, event, pair_event(pair, event));
    pair_questions(pair);
    HOLDS(before.operation == MODEL_SUSPENDED_PROGRAM || now(pair).operation != MODEL_SUSPENDED_PROGRAM);
    HOLDS(!before.sealed || now(pair).sealed);
}

static void run(uint64_t part, unsigned long events)
{
    struct pair pair = pair_make(part);

    pair_fill(&pair, blank_or_random);
    forget_plan();
    for (unsigned long i = 0; i < events; i++) {
        struct event event = some_event(&pair);

        if (once_in(200)) {
            struct pair wrong = lent_wrongly(&pair);

            put(&wrong, &event);
        }
        put(&pair, &event);
        something_befalls(&pair);
    }
    pair_cells(&pair);
    pair_free(&pair);
}

/* Every operation, every answer but 12, and both arrays were met. */
static void report(void)
{
    printf("compare: events in operation 0 to 7, and in a recovery:");
    for (int i = 0; i < MODEL_OPERATIONS; i++) {
        printf(" %lu", operations[i]);
        HOLDS(operations[i] > 0);
    }
    printf("\ncompare: %lu events in the one-time block, %lu and %lu in a program of a cell and of a one-time word; ranges: %lu and %lu\n",
           inside, inside_programs[0], inside_programs[1], ranges[0], ranges[1]);
    for (int array = 0; array < 2; array++)
        HOLDS(inside_programs[array] > 0 && ranges[array] > 0);
    printf("compare: answers 0 to 14:");
    for (int i = 0; i < REFUSALS; i++) {
        printf(" %lu", refusals[i]);
        SAME(refusals[i] > 0, i != 12);
    }
    printf("\n");
}

int main(int count, char **arguments)
{
    unsigned long small = count > 2 ? strtoul(arguments[2], NULL, 0) : 400000;
    unsigned long full = count > 3 ? strtoul(arguments[3], NULL, 0) : 5000;

    dice_seed = count > 1 ? strtoull(arguments[1], NULL, 0) : 1;
    printf("compare: seed %" PRIu64 ", %lu events on the small part, %lu on the full one\n", dice_seed, small, full);
    throw_debris();
    run(K5L_SMALL, small);
    run(K5L_FULL, full);
    report();
    return check_report("compare");
}
