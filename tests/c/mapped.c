/*
 * Reading the cells directly: a bank of which k5l_reads_cells said yes gives its cells up to the next write, through any reads,
 * waits and cuts; reads there change nothing, and no cell of it changes. Random runs on the small part, in the one-time block and
 * outside it: there, bank 1A never gives its cells.
 */
#include "dice.h"
#include "driver.h"

#include <string.h>

enum { BANKS = 4, RUNS = 200000 };

/* The first word of each bank, and the end. */
static uint64_t start[BANKS + 1];

static uint16_t cells_then[K5L_SMALL_WORDS], debris[K5L_SMALL_DEBRIS];

/* How often a wait or a cut ended an operation beside a bank that gave its cells, by the operation; a recovery counts by itself. */
enum { RECOVERING = CHIP_ERASE + 1 };
static unsigned long ended[RECOVERING + 1], cut_short[RECOVERING + 1], inside;

static uint64_t operation_now(void) { return record[RECOVERY] != 0 ? RECOVERING : record[OPERATION]; }

static uint64_t some_address(void) { return once_in(8) ? 0x1A : once_in(3) ? 64 + below(256) : below(length); }

/* Around the times there are; at times long enough for anything to end. */
static uint64_t some_wait(void)
{
    static const uint64_t sizes[] = { 0, 1, 5, 6, 19, 20, 21, 49, 50, 51, 500000, 699999, 700000, 700050, 2000000, 140000000 };

    return once_in(3) ? below(100) : ONE_OF(sizes);
}

/* No write: a read, a wait or, more rarely, a cut. */
static void pass_by(bool beside)
{
    uint64_t operation = operation_now(), chance = below(10);

    if (chance < 4)
        SAME(k5l_refusal_of(bus_read(some_address())), K5L_DONE);
    else if (chance < 9)
        SAME(pass(some_wait()), K5L_DONE);
    else
        SAME(cut(debris, K5L_SMALL_DEBRIS), K5L_DONE);
    if (beside && operation_now() != operation)
        (chance < 9 ? ended : cut_short)[operation]++;
}

/* A read in the bank gives the cell, and leaves the record. */
static void gives_cells(uint64_t bank)
{
    uint64_t at = start[bank] + below(start[bank + 1] - start[bank]), then[K5L_RECORD_WORDS];

    memcpy(then, record, sizeof record);
    HOLDS(reads_cells(bank));
    SAME(bus_read(at), cells[at]);
    SAME(memcmp(record, then, sizeof record), 0);
}

/* What was allowed after a write is allowed after all that is no write. */
static void stays_allowed(void)
{
    bool allowed[BANKS], any = false;

    inside += record[ENTERED];
    HOLDS(record[ENTERED] == 0 || !reads_cells(0));
    for (uint64_t bank = 0; bank < BANKS; bank++)
        any |= allowed[bank] = reads_cells(bank);
    memcpy(cells_then, cells, sizeof cells_then);
    for (uint64_t events = below(6); events > 0; events--) {
        pass_by(any);
        for (uint64_t bank = 0; bank < BANKS; bank++)
            if (allowed[bank])
                gives_cells(bank);
    }
    for (uint64_t bank = 0; bank < BANKS; bank++)
        if (allowed[bank])
            SAME(memcmp(cells + start[bank], cells_then + start[bank], (start[bank + 1] - start[bank]) * sizeof *cells), 0);
}

/* A command, often left half entered; whatever it is answered. */
static void some_command(void)
{
    static const uint16_t thirds[] = { 0xA0, 0xA0, 0x80, 0x80, 0x80, 0x90, 0x58, 0x48, 0x60, 0x88 };
    uint16_t third = ONE_OF(thirds);
    uint64_t at = some_address();
    struct { uint64_t at; uint16_t word; } writes[] = {
        { 0x555, 0xAA }, { 0x2AA, 0x55 }, { 0x555 | (at & 0x3800), third },
        { third == 0x80 ? 0x555 : at, third == 0x80 ? 0xAA : third == 0x60 ? (once_in(2) ? 0x68 : 0x48) : (uint16_t)dice() },
        { 0x2AA, 0x55 }, { once_in(8) ? 0x555 : at, 0x30 },
    };
    unsigned count = third == 0x80 ? 6 : third == 0x90 || third == 0x58 || third == 0x88 ? 3 : 4;

    if (writes[5].at == 0x555)
        writes[5].word = 0x10;
    for (unsigned i = 0; i < count && !once_in(20); i++) {
        bus_write(writes[i].at, writes[i].word);
        if (once_in(6) || i == count - 1)
            stays_allowed();
    }
}

/* One write alone: what suspends, resumes, resets, or adds a block. */
static void some_write(void)
{
    static const uint16_t words[] = { 0xB0, 0xB0, 0x30, 0xF0 };

    bus_write(some_address(), ONE_OF(words));
    if (record[OPERATION] == PROGRAM && record[ENTERED] == 0 && once_in(10))
        record[OPERATION] = SUSPENDED_PROGRAM; /* as an older device stored it */
    stays_allowed();
}

int main(void)
{
    static const uint64_t first_blocks[BANKS + 1] = { 0, 39, 135, 231, K5L_BLOCKS };

    take_part(K5L_SMALL);
    for (unsigned bank = 0; bank <= BANKS; bank++)
        start[bank] = k5l_first_word(part, first_blocks[bank]);
    for (unsigned i = 0; i < K5L_SMALL_DEBRIS; i++)
        debris[i] = (uint16_t)dice();
    for (unsigned i = 0; i < RUNS; i++) {
        if (once_in(1000))
            fresh();
        if (once_in(3))
            some_write();
        else
            some_command();
    }
    for (int operation = PROGRAM; operation <= RECOVERING; operation++) {
        if (operation == CHIP_ERASE)
            continue; /* beside it no bank gives its cells */
        HOLDS(operation == SUSPENDED_PROGRAM || operation == SUSPENDED_ERASE || ended[operation] > 50);
        HOLDS(cut_short[operation] > 50);
    }
    HOLDS(inside > 10000);
    return check_report("mapped");
}
