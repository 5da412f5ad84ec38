/*
 * Two devices of the small part that are alike but for the cells of one bank, over the same random events, none of them the data of a
 * program into that bank. All answers must be the same, but of reads that give a cell of the bank: each gives its own. So must the
 * records, clock and charge with them, the one-time words and the cells of the other banks, after every event. The seed is the argument.
 *
 *     banks [SEED [EVENTS]]
 */
#include "check.h"
#include "commands.h"
#include "dice.h"
#include "plans.h"
#include "twins.h"

#include <inttypes.h>
#include <stdio.h>
#include <stdlib.h>
#include <string.h>

enum { REFUSALS = K5L_RAISE + 1, HERE = 0, ELSEWHERE = 1 };

/* The bank whose cells are not the same, and its words. */
static struct { uint64_t number, from, end; } bank;

/* Cells for the model alone. */
static uint16_t zeros[K5L_SMALL_WORDS], ones[K5L_SMALL_WORDS];

/* How often each answer was met; the events by operation, in the bank or in another, and inside the one-time block. The reads that gave a
 * cell of the bank: the same word of both, or not. Data of programs: of one-time words that lie over the bank, and what was moved. */
static unsigned long refusals[REFUSALS], operations[2][MODEL_OPERATIONS], inside, read_cells[2], one_time_data, moved_data;

static bool is_in_bank(uint64_t address) { return bank.from <= address && address < bank.end; }

/* The bank that the operation is about, of a chip erase that of the block in hand; a program inside a suspended erase has its own. */
static uint64_t bank_of_operation(const struct model_record *record)
{
    if (model_has_program(record))
        return model_bank(model_block(K5L_SMALL, record->program.at));
    return model_has_erase(record) ? model_bank(record->erase.hand) : MODEL_NONE;
}

/* The devices are made the same but for that bank, whose cells the other gets anew. */
static void take_bank(struct twins *twins, uint64_t number)
{
    static const uint64_t first_blocks[MODEL_BANKS + 1] = { 0, 39, 135, 231, K5L_BLOCKS };

    bank.number = number;
    bank.from = k5l_first_word(K5L_SMALL, first_blocks[number]);
    bank.end = k5l_first_word(K5L_SMALL, first_blocks[number + 1]);
    twins_align(twins);
    for (uint64_t address = bank.from; address < bank.end; address++)
        twins->other.cells[address] = blank_or_random(address);
}

/* Any, and often the one where something is at work. */
static void choose_bank(struct twins *twins)
{
    struct model_record record = now(&twins->one);
    uint64_t at_work = bank_of_operation(&record);

    take_bank(twins, at_work != MODEL_NONE && once_in(2) ? at_work : below(MODEL_BANKS));
}

/* More often while a program is there: in the bank none can start, so one is there only if the bank is chosen meanwhile. */
static bool is_time_to_choose(const struct pair *pair)
{
    struct model_record record = now(pair);

    return once_in(model_has_program(&record) ? 30 : 300);
}

/* Is it the data of a program, at an address of the bank? */
static bool is_data_there(const struct pair *pair, const struct event *event)
{
    return event->kind == EVENT_WRITE && pair->image[3] == MODEL_PROGRAM_DATA && is_in_bank(event->number);
}

static bool is_one_time(const struct pair *pair, uint64_t address) { return pair->image[30] == 1 && address < K5L_OTP_WORDS; }

/* The data goes to another bank instead, and is mostly such as the cell can take; or power is lost. */
static void move_data(const struct pair *pair, struct event *event)
{
    uint64_t words = bank.end - bank.from, address = below(K5L_SMALL_WORDS - words);

    moved_data++;
    event->number = address < bank.from ? address : address + words;
    event->word = once_in(4) ? (uint16_t)dice() : pair->cells[event->number] & (uint16_t)dice();
    if (once_in(8)) {
        event->kind = EVENT_CUT;
        event->debris_length = K5L_SMALL_DEBRIS;
    }
}

/* Does a read give a cell? By the model: it does if other cells make it another word. */
static bool gives_cell(const struct pair *p, uint64_t address)
{
    struct model_record record, again;
    struct model_answer of_zeros, of_ones;

    if (!image_decode(p->image, p->words, &record))
        return false;
    again = record;
    of_zeros = model_read(p->part, &record, zeros, p->length, p->otp, p->otp_length, address);
    of_ones = model_read(p->part, &again, ones, p->length, p->otp, p->otp_length, address);
    return of_zeros.word != of_ones.word;
}

/* From one word to before another, but for those of the bank. */
static bool same_outside(const uint16_t *got, const uint16_t *expected, ptrdiff_t from, ptrdiff_t end)
{
    ptrdiff_t start = (ptrdiff_t)bank.from, stop = (ptrdiff_t)bank.end;
    bool same = same_words("cell", got, expected, from, end < start ? end : start);

    return same & same_words("cell", got, expected, from > stop ? from : stop, end);
}

/* What the range hands back, where each device has it. */
static bool same_range(const struct twins *twins, uint64_t answer, uint64_t count)
{
    const uint16_t *one = k5l_range_words(answer, twins->one.cells, twins->one.otp);
    const uint16_t *other = k5l_range_words(answer, twins->other.cells, twins->other.otp);
    ptrdiff_t first = (ptrdiff_t)k5l_range_first(answer), end = first + (ptrdiff_t)count;

    if (one == NULL || other == NULL)
        return HOLDS(one == other);
    if (k5l_range_array(answer) == K5L_ONE_TIME)
        return same_words("one-time word of the range", other - first, one - first, first, end);
    return same_outside(other - first, one - first, first, end);
}

/* Each gives its own cell if it gives one of the bank, else both the same. */
static bool same_answers(struct twins *twins, const struct event *event)
{
    struct pair *one = &twins->one, *other = &twins->other;
    bool own = event->kind == EVENT_READ && is_in_bank(event->number) && gives_cell(one, event->number), same;
    uint64_t answer = pair_library(one, event), others = pair_library(other, event);

    if (own) {
        read_cells[answer != others]++;
        same = SAME(answer, one->cells[event->number]);
        same &= SAME(others, other->cells[event->number]);
    } else {
        same = SAME(others, answer);
    }
    if (event->kind == EVENT_RANGE)
        same &= same_range(twins, answer, event->count);
    answer >>= event->kind == EVENT_RANGE ? 33 : 16;
    if (HOLDS(answer < REFUSALS))
        refusals[answer]++;
    return same;
}

static void tally(const struct pair *pair, const struct event *event)
{
    struct model_record record = now(pair);

    operations[bank_of_operation(&record) == bank.number ? HERE : ELSEWHERE][record.operation]++;
    inside += record.entered;
    one_time_data += is_data_there(pair, event);
}

static void put(struct twins *twins, const struct event *some)
{
    struct event event = *some;
    uint64_t before[PAIR_IMAGE_WORDS];
    bool same;

    if (is_data_there(&twins->one, &event) && !is_one_time(&twins->one, event.number))
        move_data(&twins->one, &event);
    tally(&twins->one, &event);
    memcpy(before, twins->one.image, sizeof before);
    same = same_answers(twins, &event);
    same &= twins_records(twins);
    same &= same_outside(twins->other.cells, twins->one.cells, -PAIR_GUARD, (ptrdiff_t)twins->one.room - PAIR_GUARD);
    if (!same) {
        check_note("  in bank %" PRIu64 " the cells are not the same\n", bank.number);
        pair_tell(&twins->one, before, &event);
        choose_bank(twins);
    }
}

/* A read of the bank besides, often in the readings of 90H, 58H and the lock. */
static void read_bank(struct twins *twins)
{
    struct event read = { .kind = EVENT_READ, .number = some_address(&twins->one) };

    if (!once_in(twins->one.image[3] >= MODEL_IDENTITY ? 2 : 10))
        return;
    if (!is_in_bank(read.number))
        read.number = bank.from + below(bank.end - bank.from);
    put(twins, &read);
}

static void run(unsigned long events)
{
    struct twins twins = twins_make(K5L_SMALL);

    choose_bank(&twins);
    for (unsigned long i = 0; i < events; i++) {
        struct event event = some_event(&twins.one);

        if (once_in(200)) {
            struct twins wrong = twins_lent_wrongly(&twins);

            put(&wrong, &event);
        }
        put(&twins, &event);
        read_bank(&twins);
        twins_between(&twins);
        if (is_time_to_choose(&twins.one))
            choose_bank(&twins);
    }
    twins_free(&twins);
}

/* Why the data of a program into the bank is left out: the one device takes it, and the other does not. */
static void data_tells_apart(uint64_t number)
{
    static const struct event command[] = { { .kind = EVENT_WRITE, .number = 0x555, .word = 0xAA },
                                            { .kind = EVENT_WRITE, .number = 0x2AA, .word = 0x55 },
                                            { .kind = EVENT_WRITE, .number = 0x555, .word = 0xA0 } };
    struct twins twins = twins_make(K5L_SMALL);
    struct event data = { .kind = EVENT_WRITE, .word = 0x1234 };

    take_bank(&twins, number);
    data.number = bank.from;
    twins.one.cells[data.number] = 0xFFFF;
    twins.other.cells[data.number] = 0;
    for (unsigned i = 0; i < sizeof command / sizeof *command; i++) {
        SAME(pair_library(&twins.one, &command[i]) >> 16, K5L_DONE);
        SAME(pair_library(&twins.other, &command[i]) >> 16, K5L_DONE);
    }
    twins_records(&twins);
    SAME(pair_library(&twins.one, &data) >> 16, K5L_DONE);
    SAME(pair_library(&twins.other, &data) >> 16, K5L_RAISE);
    twins_free(&twins);
}

/* Everything ran in the bank and elsewhere, in suspension, in a chip erase; and every answer was met but 12. */
static void report(void)
{
    for (int where = HERE; where <= ELSEWHERE; where++) {
        printf("banks: events in operation 0 to 7, and in a recovery, %s:", where == HERE ? "in the bank" : "elsewhere");
        for (int i = 0; i < MODEL_OPERATIONS; i++) {
            printf(" %lu", operations[where][i]);
            SAME(operations[where][i] > 0, i != MODEL_IDLE || where == ELSEWHERE);
        }
        printf("\n");
    }
    printf("banks: %lu in the one-time block; data: %lu of one-time words over the bank, %lu moved; reads of the bank's cells: %lu equal, "
           "%lu not\nbanks: answers 0 to 14:", inside, one_time_data, moved_data, read_cells[0], read_cells[1]);
    HOLDS(inside > 0 && one_time_data > 0 && moved_data > 0 && read_cells[0] > 0 && read_cells[1] > 0);
    for (int i = 0; i < REFUSALS; i++) {
        printf(" %lu", refusals[i]);
        SAME(refusals[i] > 0, i != 12);
    }
    printf("\n");
}

int main(int count, char **arguments)
{
    unsigned long events = count > 2 ? strtoul(arguments[2], NULL, 0) : 600000;

    dice_seed = count > 1 ? strtoull(arguments[1], NULL, 0) : 1;
    printf("banks: seed %" PRIu64 ", %lu events\n", dice_seed, events);
    memset(ones, 0xFF, sizeof ones);
    throw_debris();
    run(events);
    for (uint64_t number = 0; number < MODEL_BANKS; number++)
        data_tells_apart(number);
    report();
    return check_report("banks");
}
