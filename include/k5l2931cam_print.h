/*
 * A record printed in words, for debugging: every field of layout 3, as k5l2931cam.h has it, of sound records and of others.
 *
 *     k5l_print_record(stderr, part, record, K5L_RECORD_WORDS);
 */
#ifndef K5L2931CAM_PRINT_H
#define K5L2931CAM_PRINT_H

#include "k5l2931cam.h"

#include <inttypes.h>
#include <stdio.h>

/* The name that a number has in a table, and what is beside it. */
static inline void k5l_print_name(FILE *out, const char *field, const char *const *names, size_t count, uint64_t number)
{
    if (number < count)
        fprintf(out, "  %-10s %s", field, names[number]);
    else
        fprintf(out, "  %-10s %" PRIu64 ", which is none", field, number);
}

/* Blocks as ranges: "8, 10-12". Past the last block there are bits, too, and none of a sound record is 1. */
static inline void k5l_print_blocks(FILE *out, const char *field, const uint64_t *set)
{
    const unsigned bits = 5 * 64;
    const char *before = "";

    fprintf(out, "  %-10s ", field);
    for (unsigned block = 0; block < bits; block++) {
        unsigned first = block;

        while (block < bits && (set[block / 64] >> block % 64 & 1))
            block++;
        if (block == first)
            continue;
        fprintf(out, "%s%u", before, first);
        if (block > first + 1)
            fprintf(out, "-%u", block - 1);
        before = ", ";
    }
    fprintf(out, "%s\n", *before == '\0' ? "none" : "");
}

/* Words that the record does not use, where they are not 0: no sound record has any. */
static inline void k5l_print_strays(FILE *out, const uint64_t *record, unsigned from, unsigned end)
{
    for (unsigned i = from; i < end; i++)
        if (record[i] != 0)
            fprintf(out, "  word %-5u %" PRIX64 "H, and it is not in use\n", i, record[i]);
}

static inline void k5l_print_command(FILE *out, const uint64_t *record)
{
    static const char *const names[] = {
        "ground", "first unlock write taken", "both unlock writes taken", "A0H taken, a program's address and data are next",
        "80H taken", "80H and the first unlock write taken", "80H and both unlock writes taken", "48H taken, a DYB's value is next",
        "60H taken", "60H and 68H taken", "60H and 60H taken", "identity reading (90H)", "58H reading",
        "60H and 68H of the OTP lock taken", "reading of the OTP lock (60H, 48H)"
    };

    k5l_print_name(out, "command", names, sizeof names / sizeof *names, record[3]);
    if (record[3] == 9)
        fprintf(out, ", block %" PRIu64, record[4]);
    if (record[3] == 11)
        fprintf(out, ", bank %" PRIu64, record[4]);
    fprintf(out, "\n");
    if (record[3] != 9 && record[3] != 11)
        k5l_print_strays(out, record, 4, 5);
}

static inline void k5l_print_erase(FILE *out, const uint64_t *record)
{
    k5l_print_blocks(out, "listed", record + 6);
    fprintf(out, "  in hand    %" PRIu64 ", %" PRIu64 " us left%s\n", record[11], record[12],
            record[5] == 3 ? " of the window" : "");
    if (record[5] == 4 && record[29] != 0)
        fprintf(out, "  recovery   %" PRIu64 " us left%s\n", record[29], record[29] > 20 ? ", where 20 are the most" : "");
    fprintf(out, "  toggles    DQ6 %u, DQ2 %u\n", (unsigned)(record[13] & 1), (unsigned)(record[13] >> 1 & 1));
    if (record[13] > 3)
        fprintf(out, "  word 13    %" PRIX64 "H, where 3 is the most\n", record[13]);
}

static inline void k5l_print_program(FILE *out, const uint64_t *record)
{
    fprintf(out, "  program    %04" PRIX64 "H at %s%" PRIu64 ", %" PRIu64 " us left, DQ6 %" PRIu64 "\n", record[15],
            record[30] == 1 && record[14] < K5L_OTP_WORDS ? "one-time word " : "", record[14], record[16], record[17]);
}

static inline void k5l_print_one_time(FILE *out, const uint64_t *record)
{
    static const char *const names[] = { "not entered", "entered" };

    k5l_print_name(out, "OTP block", names, sizeof names / sizeof *names, record[30]);
    fprintf(out, "\n  OTP lock   %" PRIu64 "\n", record[31]);
}

static inline void k5l_print_operation(FILE *out, const uint64_t *record)
{
    static const char *const names[] = {
        "none", "program", "suspended program", "block erase in its window", "block erase", "suspended erase",
        "suspended erase with a program running inside", "chip erase"
    };
    uint64_t operation = record[5];

    k5l_print_name(out, "operation", names, sizeof names / sizeof *names, operation);
    fprintf(out, "\n");
    if (operation >= 3 && operation <= 7)
        k5l_print_erase(out, record);
    else
        k5l_print_strays(out, record, 6, 14);
    if (operation == 1 || operation == 2 || operation == 6)
        k5l_print_program(out, record);
    else
        k5l_print_strays(out, record, 14, 18);
}

static inline void k5l_print_record(FILE *out, uint64_t part, const uint64_t *record, size_t words)
{
    fprintf(out, "record of part %" PRIu64 " (%s), %s\n", part,
            part == K5L_SMALL ? "small" : part == K5L_FULL ? "full" : "which is none",
            k5l_sound(part, record, words) ? "sound" : "not sound: every event is STATE");
    if (words != K5L_RECORD_WORDS) {
        fprintf(out, "  %zu words, where a record has %d\n", words, K5L_RECORD_WORDS);
        if ((words == 29 && record[0] == 1) || (words == 30 && record[0] == 2))
            fprintf(out, "  layout     %" PRIu64 ": k5l_carry makes a record of it\n", record[0]);
        return;
    }
    if (record[0] != K5L_LAYOUT)
        fprintf(out, "  layout     %" PRIu64 ", where %d is known\n", record[0], K5L_LAYOUT);
    fprintf(out, "  clock      %" PRIu64 " us\n  charge     %" PRIu64 " pC\n", record[1], record[2]);
    k5l_print_command(out, record);
    k5l_print_operation(out, record);
    k5l_print_blocks(out, "DYB 1", record + 18);
    k5l_print_blocks(out, "PPB 1", record + 23);
    fprintf(out, "  PPB lock   %" PRIu64 "\n", record[28]);
    if (record[5] != 4)
        k5l_print_strays(out, record, 29, 30);
    k5l_print_one_time(out, record);
}

#endif
