/*
 * What an event costs, and a question, through the header's functions or on the plain model of tests/c:
 *
 *     speed list                             the kinds of them, each with a number of events that takes some time
 *     speed KIND library|model N RUNS        nanoseconds for an event: the best of RUNS runs of N events each
 *     speed KIND library|model N             one run of N events, for who counts instructions
 *
 * All is done on the full part. Compiled with -DMODEL_TRUSTS the model does not judge the record.
 */
#define _POSIX_C_SOURCE 200809L

#include "sides.h"

#include <inttypes.h>
#include <stdio.h>
#include <stdlib.h>
#include <string.h>
#include <time.h>

/* Block 39 is the first of bank 1B's 96. */
enum { BLOCK_AT = 1048576, BANK_BLOCKS = 96, OTHER_BANK_AT = 100, BLANK_AT = 101 };

/* A one-time word that takes a program. */
enum { SERIAL_AT = 200 };

/* States that events are measured in. */
static void prepare_idle(const struct side *side) { (void)side; }

static void write_1(const struct side *side) { side->write(0x555, 0xAA); }
static void write_2(const struct side *side) { side->write(0x2AA, 0x55); }
static void write_3(const struct side *side) { side->write(0x555, 0xA0); }
static void write_4(const struct side *side) { side->write(BLANK_AT, 0x1234); }
static void write_4_raise(const struct side *side) { side->write(OTHER_BANK_AT, 0x1234); }

/* A program half entered: so many of its writes taken. */
static void prepare_1(const struct side *side) { write_1(side); }
static void prepare_2(const struct side *side) { write_1(side); write_2(side); }
static void prepare_3(const struct side *side) { prepare_2(side); write_3(side); }

static void write_program(const struct side *side)
{
    prepare_3(side);
    write_4(side);
}

static void prepare_program(const struct side *side)
{
    write_program(side);
    side->wait(3);
}

/* Inside the one-time block, at ground and with a program half entered. */
static void write_enter(const struct side *side) { side->write(0x555, 0x88); }
static void prepare_entered(const struct side *side) { prepare_2(side); write_enter(side); }
static void prepare_entered_3(const struct side *side) { prepare_entered(side); prepare_3(side); }

/* So many blocks of bank 1B listed, and the erase of the first begun. */
static void prepare_erase_of(const struct side *side, unsigned blocks)
{
    prepare_2(side);
    side->write(0x555, 0x80);
    prepare_2(side);
    for (uint64_t block = 0; block < blocks; block++)
        side->write(BLOCK_AT + block * BLOCK_WORDS, 0x30);
    side->wait(50 + 1000);
}

static void prepare_erase(const struct side *side) { prepare_erase_of(side, BANK_BLOCKS); }
static void prepare_short_erase(const struct side *side) { prepare_erase_of(side, 1); }
static void prepare_recovery(const struct side *side) { prepare_erase(side); side->write(OTHER_BANK_AT, 0xB0); } /* 20 us of it */

static void prepare_last_microsecond(const struct side *side)
{
    prepare_erase_of(side, 1);
    side->wait(700000 - 1000 - 1);
}

/* The events, besides the writes above. */
static void nothing(const struct side *side) { (void)side; }
static void read_other_bank(const struct side *side) { side->read(OTHER_BANK_AT); }
static void read_bank(const struct side *side) { side->read(BLOCK_AT); }
static void write_reset(const struct side *side) { side->write(OTHER_BANK_AT, 0xF0); }
static void write_suspend(const struct side *side) { side->write(OTHER_BANK_AT, 0xB0); }
static void write_out_of_turn(const struct side *side) { side->write(OTHER_BANK_AT, 0x1234); }
static void write_4_serial(const struct side *side) { side->write(SERIAL_AT, 0x1234); }
static void read_serial(const struct side *side) { side->read(SERIAL_AT); }
static void range_serial(const struct side *side) { side->range(SERIAL_AT, 4); }
static void wait_1(const struct side *side) { side->wait(1); }
static void wait_1000(const struct side *side) { side->wait(1000); }
static void wait_long(const struct side *side) { side->wait(10000000000000); }
static void fill_block(const struct side *side) { (void)side; memset(cells + BLOCK_AT, 0xFF, BLOCK_WORDS * sizeof *cells); }
static void cut_word(const struct side *side) { side->cut(1); }
static void cut_block(const struct side *side) { side->cut(BLOCK_WORDS); }

/* The questions. */
static void ask_sound(const struct side *side) { side->sound(); }
static void ask_reads_cells(const struct side *side) { side->reads_cells(0); }
static void ask_exposed_block(const struct side *side) { side->exposed_block(); }
static void ask_exposed_word(const struct side *side) { side->exposed_word(); }
static void ask_clock(const struct side *side) { side->clock(); }
static void ask_charge(const struct side *side) { side->charge(); }
static void ask_until_end(const struct side *side) { side->until_end(); }
static void ask_until_change(const struct side *side) { side->until_change(); }
static void ask_debris_needed(const struct side *side) { side->debris_needed(); }

/* `answer` is what the first event must be answered: what is measured is what is meant. */
static const struct kind {
    const char *name;
    unsigned long events;
    uint64_t answer;
    bool restored;
    void (*prepare)(const struct side *side);
    void (*event)(const struct side *side);
} kinds[] = {
    { "nothing", 300000, K5L_DONE, false, prepare_idle, nothing },
    { "nothing-record-restored", 300000, K5L_DONE, true, prepare_idle, nothing },
    { "array-read-idle", 300000, K5L_DONE, false, prepare_idle, read_other_bank },
    { "array-read-half-entered", 300000, K5L_DONE, false, prepare_1, read_other_bank },
    { "array-read-other-bank-erases", 300000, K5L_DONE, false, prepare_erase, read_other_bank },
    { "status-read-96-blocks", 300000, 0x4C, false, prepare_erase, read_bank },
    { "write-refused-sequence", 300000, K5L_SEQUENCE, false, prepare_idle, write_out_of_turn },
    { "write-refused-busy", 300000, K5L_BUSY, false, prepare_erase, write_reset },
    { "b0-in-program-busy-restored", 300000, K5L_BUSY, true, prepare_program, write_suspend },
    { "b0-in-erase-96-blocks-restored", 300000, K5L_DONE, true, prepare_erase, write_suspend },
    { "program-write-1-restored", 300000, K5L_DONE, true, prepare_idle, write_1 },
    { "program-write-2-restored", 300000, K5L_DONE, true, prepare_1, write_2 },
    { "program-write-3-restored", 300000, K5L_DONE, true, prepare_2, write_3 },
    { "program-write-4-restored", 300000, K5L_DONE, true, prepare_3, write_4 },
    { "program-write-4-raise-restored", 300000, K5L_RAISE, true, prepare_3, write_4_raise },
    { "program-four-writes-restored", 100000, K5L_DONE, true, prepare_idle, write_program },
    { "enter-third-write-restored", 300000, K5L_DONE, true, prepare_2, write_enter },
    { "one-time-read", 300000, 0xFFFF, false, prepare_entered, read_serial },
    { "one-time-program-write-4-restored", 300000, K5L_DONE, true, prepare_entered_3, write_4_serial },
    { "one-time-range", 300000, (uint64_t)K5L_ONE_TIME << 32 | SERIAL_AT, false, prepare_entered, range_serial },
    { "wait-1us-idle-restored", 300000, K5L_DONE, true, prepare_idle, wait_1 },
    { "wait-1e13us-idle-restored", 300000, K5L_DONE, true, prepare_idle, wait_long },
    { "wait-1us-96-blocks", 300000, K5L_DONE, false, prepare_erase, wait_1 },
    { "wait-over-recovery-restored", 300000, K5L_DONE, true, prepare_recovery, wait_1000 },
    { "erase-finish-64KiB-restored", 2000, K5L_DONE, true, prepare_last_microsecond, wait_1 },
    { "memset-64KiB", 2000, K5L_DONE, false, prepare_idle, fill_block },
    { "cut-begun-program-restored", 300000, K5L_DONE, true, prepare_program, cut_word },
    { "cut-begun-erase-64KiB-restored", 2000, K5L_DONE, true, prepare_short_erase, cut_block },
    { "ask-sound-idle", 300000, true, false, prepare_idle, ask_sound },
    { "ask-reads-cells-idle", 300000, true, false, prepare_idle, ask_reads_cells },
    { "ask-exposed-block-idle", 300000, UINT64_MAX, false, prepare_idle, ask_exposed_block },
    { "ask-exposed-word-idle", 300000, UINT64_MAX, false, prepare_idle, ask_exposed_word },
    { "ask-clock-idle", 300000, 0, false, prepare_idle, ask_clock },
    { "ask-charge-idle", 300000, 0, false, prepare_idle, ask_charge },
    { "ask-until-end-idle", 300000, 0, false, prepare_idle, ask_until_end },
    { "ask-until-change-idle", 300000, UINT64_MAX, false, prepare_idle, ask_until_change },
    { "ask-debris-needed-idle", 300000, 0, false, prepare_idle, ask_debris_needed },
    { "ask-sound-96-blocks", 300000, true, false, prepare_erase, ask_sound },
    { "ask-reads-cells-96-blocks", 300000, true, false, prepare_erase, ask_reads_cells },
    { "ask-exposed-block-96-blocks", 300000, 39, false, prepare_erase, ask_exposed_block },
    { "ask-exposed-word-96-blocks", 300000, UINT64_MAX, false, prepare_erase, ask_exposed_word },
    { "ask-clock-96-blocks", 300000, 50 + 1000, false, prepare_erase, ask_clock },
    { "ask-charge-96-blocks", 300000, 50 * 15 + 1000 * 17000, false, prepare_erase, ask_charge },
    { "ask-until-end-96-blocks", 300000, 96 * 700000 - 1000, false, prepare_erase, ask_until_end },
    { "ask-until-change-96-blocks", 300000, 700000 - 1000, false, prepare_erase, ask_until_change },
    { "ask-debris-needed-96-blocks", 300000, BLOCK_WORDS, false, prepare_erase, ask_debris_needed },
};
enum { KINDS = sizeof kinds / sizeof *kinds };

static double run(const struct kind *kind, const struct side *side, unsigned long events)
{
    struct timespec start, end;

    clock_gettime(CLOCK_MONOTONIC, &start);
    for (unsigned long i = 0; i < events; i++) {
        if (kind->restored)
            side->restore();
        kind->event(side);
    }
    clock_gettime(CLOCK_MONOTONIC, &end);
    return ((double)(end.tv_sec - start.tv_sec) * 1e9 + (double)(end.tv_nsec - start.tv_nsec)) / (double)events;
}

static int measure(const struct kind *kind, const struct side *side, unsigned long events, int runs)
{
    double best;

    if (events == 0 || !sides_fresh())
        return 2;
    cells[BLANK_AT] = otp[SERIAL_AT] = 0xFFFF; /* all others are 0, and take no program */
    kind->prepare(side);
    sides_keep();
    answer = K5L_DONE;
    kind->event(side);
    side->restore();
    if (answer != kind->answer) {
        fprintf(stderr, "speed: %s is answered %" PRIu64 " by the %s\n", kind->name, answer, side->name);
        return 1;
    }
    best = run(kind, side, events);
    for (int i = 1; i < runs; i++) {
        double taken = run(kind, side, events);

        best = taken < best ? taken : best;
    }
    if (runs > 0)
        printf("%.1f\n", best);
    free(cells);
    return 0;
}

int main(int count, char **arguments)
{
    if (count == 2 && strcmp(arguments[1], "list") == 0) {
        for (int i = 0; i < KINDS; i++)
            printf("%s %lu\n", kinds[i].name, kinds[i].events);
        return 0;
    }
    for (int i = 0; count >= 4 && i < KINDS; i++)
        for (int j = 0; j < SIDES; j++)
            if (strcmp(arguments[1], kinds[i].name) == 0 && strcmp(arguments[2], sides[j].name) == 0)
                return measure(&kinds[i], &sides[j], strtoul(arguments[3], NULL, 0), count > 4 ? atoi(arguments[4]) : 0);
    fprintf(stderr, "speed list | speed KIND library|model N [RUNS]\n");
    return 2;
}
