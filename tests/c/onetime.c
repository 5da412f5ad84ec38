/*
 * The one-time block (document 02, request 4), over the header and on both parts, with what is to come written out by hand: entering and
 * leaving it, what reads and programs are about there, what is refused, and cuts. (Its lock is in onetime_lock.c, ranges are in
 * onetime_range.c, and which records are sound in onetime_sound.c.)
 */
#include "driver.h"

#include <string.h>

/* All that Enter changes is word 30, and neither time nor charge is in it. */
static void entering(void)
{
    fresh();
    save();
    SAME(enter(0xFF88), K5L_DONE);
    SAME(record[ENTERED], 1);
    record[ENTERED] = 0;
    HOLDS(is_saved());
    fresh_inside();
    save();
    SAME(enter(0x88), K5L_DONE);
    HOLDS(is_saved());
    fresh();
    SAME(bus_write(0x555, 0xAA), K5L_DONE);
    SAME(bus_write(0x2AA, 0x55), K5L_DONE);
    SAME(bus_write(0x554, 0x88), K5L_SEQUENCE);
    SAME(record[ENTERED] | record[COMMAND], 0);
}

/* Addresses 0 to 255 are one-time words while it is entered, and cells before and after; all others are cells. */
static void reads(void)
{
    fresh();
    for (unsigned i = 0; i < 512; i++)
        cells[i] = (uint16_t)(0xC000 + i);
    for (unsigned i = 0; i < K5L_OTP_WORDS; i++)
        otp[i] = (uint16_t)(0x1000 + i);
    cells[length - 1] = 0xBEEF;
    for (int inside = 0; inside < 2; inside++) {
        for (unsigned i = 0; i < 512; i++)
            SAME(bus_read(i), inside && i < 256 ? 0x1000 + i : 0xC000 + i);
        SAME(bus_read(length - 1), 0xBEEF);
        SAME(reads_cells(0), !inside);
        HOLDS(reads_cells(1) && reads_cells(2) && reads_cells(3) && !reads_cells(4));
        SAME(enter(0x88), K5L_DONE);
    }
    CHANGES_NOTHING(bus_read(200), 0x10C8);
    CHANGES_NOTHING(bus_read(256), 0xC100);
    CHANGES_NOTHING(bus_read(length), (uint64_t)K5L_ADDRESS << 16);
    SAME(leave_otp(), K5L_DONE);
    SAME(bus_read(200), 0xC0C8);
    HOLDS(reads_cells(0));
}

/* Every reading comes before the one-time words. */
static void readings(void)
{
    fresh_inside();
    otp[0] = otp[2] = 0x1234;
    SAME(set_ppb(2), K5L_DONE);
    SAME(set_dyb(0, 1), K5L_DONE);
    SAME(enter(0x90), K5L_DONE);
    SAME(bus_read(0), 0xEC);
    SAME(bus_read(2), 1);
    SAME(bus_read(3), 0);
    SAME(bus_read(k5l_first_word(part, 39)), 0xFFFF);
    SAME(bus_write(0, 0x01), K5L_SEQUENCE);
    SAME(record[COMMAND], GROUND);
    SAME(record[ENTERED], 1);
    SAME(bus_write(0x555, 0xAA), K5L_DONE);
    SAME(bus_write(0x2AA, 0x55), K5L_DONE);
    SAME(bus_write(k5l_first_word(part, 39) | 0x555, 0x90), K5L_DONE);
    SAME(bus_read(0), 0x1234);
    SAME(bus_read(k5l_first_word(part, 64)), part == K5L_SMALL ? 0 : 0xEC);
    SAME(bus_write(0, 0x55), K5L_SEQUENCE);
    SAME(enter(0x58), K5L_DONE);
    SAME(bus_read(0), 1);
    SAME(bus_write(0, 0x00), K5L_SEQUENCE);
    SAME(record[ENTERED], 1);
    SAME(bus_read(0), 0x1234);
}

/* Exit: 00H in the low 8 bits, at any address, after 90H in any bank; outside it is nothing. */
static void exits(void)
{
    static const uint64_t blocks[] = { 0, 38, 39, 135, 231, 269 };

    for (unsigned i = 0; i < sizeof blocks / sizeof *blocks; i++) {
        uint64_t first = k5l_first_word(part, blocks[i]);

        fresh_inside();
        SAME(bus_write(0x555, 0xAA), K5L_DONE);
        SAME(bus_write(0x2AA, 0x55), K5L_DONE);
        SAME(bus_write((first & ~(uint64_t)0x7FF) | 0x555, 0x90), K5L_DONE);
        SAME(bus_write(i % 2 ? first : length - 1, (uint16_t)(i << 8)), K5L_DONE);
        SAME(record[ENTERED] | record[COMMAND] | clock_now() | charge_now(), 0);
        SAME(enter(0x90), K5L_DONE);
        SAME(bus_write(0, 0x00), K5L_SEQUENCE);
    }
}

/* An F0H that is taken leaves, from ground and from each command that is half entered. */
static void resets(void)
{
    static const struct { unsigned count; struct { uint64_t at; uint16_t word; } writes[4]; } begun[] = {
        { 0, { { 0, 0 } } },
        { 1, { { 0x555, 0xAA } } },
        { 2, { { 0x555, 0xAA }, { 0x2AA, 0x55 } } },
        { 3, { { 0x555, 0xAA }, { 0x2AA, 0x55 }, { 0x555, 0x60 } } },
        { 4, { { 0x555, 0xAA }, { 0x2AA, 0x55 }, { 0x555, 0x60 }, { 300, 0x68 } } },
        { 4, { { 0x555, 0xAA }, { 0x2AA, 0x55 }, { 0x555, 0x60 }, { 300, 0x60 } } },
        { 4, { { 0x555, 0xAA }, { 0x2AA, 0x55 }, { 0x555, 0x60 }, { 0x1A, 0x68 } } },
        { 4, { { 0x555, 0xAA }, { 0x2AA, 0x55 }, { 0x555, 0x60 }, { 0x1A, 0x48 } } },
        { 3, { { 0x555, 0xAA }, { 0x2AA, 0x55 }, { 0x555, 0x90 } } },
        { 3, { { 0x555, 0xAA }, { 0x2AA, 0x55 }, { 0x555, 0x58 } } },
    };

    for (unsigned i = 0; i < sizeof begun / sizeof *begun; i++) {
        fresh_inside();
        for (unsigned j = 0; j < begun[i].count; j++)
            SAME(bus_write(begun[i].writes[j].at, begun[i].writes[j].word), K5L_DONE);
        CHANGES_NOTHING(bus_write(length, 0xF0), K5L_ADDRESS);
        SAME(record[ENTERED], 1);
        SAME(bus_write(i, 0x12F0), K5L_DONE);
        SAME(record[ENTERED] | record[COMMAND] | record[OTP_LOCK] | record[PPBS], 0);
    }
}

/* An F0H that is data stays, and so does one that what runs does not take. */
static void no_resets(void)
{
    fresh_inside();
    SAME(set_dyb(0, 0xF0), K5L_DONE);
    SAME(record[ENTERED], 1);
    SAME(program(128, 0x12F0), K5L_DONE);
    CHANGES_NOTHING(bus_write(128, 0xF0), K5L_BUSY);
    SAME(record[ENTERED], 1);
    SAME(pass(6), K5L_DONE);
    SAME(otp[128], 0x12F0);
    SAME(program(127, 0xF0), K5L_OTPLOCKED);
    SAME(record[ENTERED], 1);
}

/* Microsecond by microsecond: a one-time word is programmed as any word is, with its status in bank 1A. */
static void program_of_a_word(uint64_t at)
{
    fresh_inside();
    cells[at] = 0x5A5A;
    SAME(program(at, 0x1234), K5L_DONE);
    for (uint64_t left = 6; left > 0; left--) {
        SAME(record[PROGRAM_LEFT], left);
        SAME(until_end() & until_change(), left);
        SAME(changing_word(), at);
        SAME(changing_array(), K5L_ONE_TIME);
        SAME(exposed_word(), left < 6 ? at : K5L_NONE);
        SAME(exposed_array(), left < 6 ? K5L_ONE_TIME : K5L_NONE);
        SAME(debris_needed(), left < 6);
        SAME(bus_read(at), left % 2 == 0 ? 0xC4 : 0x84);
        SAME(bus_read(k5l_first_word(part, 39)), 0xFFFF);
        HOLDS(!reads_cells(0) && reads_cells(1) && reads_cells(2) && reads_cells(3));
        for (unsigned data = 0; data < 0x100; data++)
            SAME(bus_write(at, (uint16_t)data), K5L_BUSY);
        SAME(bus_write(0x555, 0xB0), K5L_BUSY);
        SAME(otp[at], 0xFFFF);
        SAME(pass(1), K5L_DONE);
    }
    SAME(otp[at], 0x1234);
    SAME(cells[at], 0x5A5A);
    SAME(bus_read(at), 0x1234);
    SAME(record[OPERATION] | record[COMMAND], 0);
    SAME(record[ENTERED], 1);
    SAME(charge_now(), 6 * 17000);
    SAME(changing_array() & exposed_array(), K5L_NONE);
}

/* From 256 on it is a cell's program, with protection and all. */
static void program_of_a_cell(void)
{
    uint64_t kept = k5l_first_word(part, 39);

    fresh_inside();
    SAME(program(256, 0x1234), K5L_DONE);
    SAME(changing_word(), 256);
    SAME(changing_array(), K5L_MAIN);
    SAME(bus_read(0), 0xC4);
    SAME(pass(1), K5L_DONE);
    SAME(exposed_array(), K5L_MAIN);
    CHANGES_NOTHING(bus_write(0, 0xB0), K5L_BUSY);
    SAME(pass(5), K5L_DONE);
    SAME(cells[256], 0x1234);
    SAME(program(256, 0x00FF), K5L_RAISE);
    SAME(set_dyb(kept, 1), K5L_DONE);
    SAME(program(kept, 0), K5L_PROTECTED);
    SAME(record[ENTERED], 1);
    for (unsigned i = 0; i < K5L_OTP_WORDS; i++)
        SAME(otp[i], 0xFFFF);
}

/* Words 0 to 127 are the factory's; OTPLOCKED comes before RAISE, which is judged by the one-time word; no block's protection counts. */
static void refusals(void)
{
    fresh_inside();
    SAME(set_ppb(128), K5L_DONE);
    SAME(set_dyb(200, 1), K5L_DONE);
    for (uint64_t at = 0; at < K5L_OTP_WORDS; at++) {
        cells[at] = at % 2 ? 0 : 0xFFFF;
        otp[at] = 0x0FF0;
        SAME(enter(0xA0), K5L_DONE);
        save();
        SAME(bus_write(at, 0x1000), at < 128 ? K5L_OTPLOCKED : K5L_RAISE);
        SAME(record[COMMAND], GROUND);
        record[COMMAND] = AFTER_A0;
        HOLDS(is_saved());
        record[COMMAND] = GROUND;
        SAME(program(at, 0x00F0), at < 128 ? K5L_OTPLOCKED : K5L_DONE);
        SAME(pass(6), K5L_DONE);
        SAME(otp[at], at < 128 ? 0x0FF0 : 0x00F0);
        SAME(cells[at], at % 2 ? 0 : 0xFFFF);
    }
    SAME(leave_otp(), K5L_DONE);
    SAME(program(200, 0), K5L_PROTECTED);
}

/* There is no erase inside; and Enter, where something is suspended or runs. */
static void no_erases(void)
{
    uint64_t listed = k5l_first_word(part, 39);

    fresh_inside();
    SAME(enter(0x80), K5L_SEQUENCE);
    SAME(record[COMMAND], GROUND);
    SAME(record[ENTERED], 1);
    SAME(bus_write(0, 0x30), K5L_SEQUENCE);
    SAME(bus_write(0, 0xB0), K5L_SEQUENCE);
    SAME(record[ENTERED], 1);
    fresh();
    SAME(erase(listed, 0x30), K5L_DONE);
    SAME(pass(60), K5L_DONE);
    CHANGES_NOTHING(bus_write(0x555, 0xAA), K5L_BUSY);
    suspend();
    save();
    SAME(enter(0x88), K5L_SUSPENDED);
    HOLDS(is_saved());
    SAME(range(0, 1), (uint64_t)K5L_BUSY << 33);
    SAME(bus_write(0, 0x30), K5L_DONE);
    fresh();
    record[OPERATION] = SUSPENDED_PROGRAM; /* as an older device stored it */
    record[PROGRAM_LEFT] = 3;
    save();
    SAME(enter(0x88), K5L_SUSPENDED);
    HOLDS(is_saved());
}

/* A cut leaves the block; the word of a begun program in it becomes old AND (data OR debris). */
static void cuts(void)
{
    static const uint16_t debris[] = { 0xFF00, 0x1111 };

    for (uint64_t at = 255; at <= 256; at++)
        for (uint64_t passed = 0; passed <= 6; passed++) {
            bool begun = passed > 0 && passed < 6;
            uint16_t left = passed == 0 ? 0xFFFF : begun ? 0xFF34 : 0x1234;

            fresh_inside();
            SAME(program(at, 0x1234), K5L_DONE);
            SAME(pass(passed), K5L_DONE);
            SAME(debris_needed(), begun);
            if (begun)
                CHANGES_NOTHING(cut(debris, 0), K5L_DEBRIS);
            SAME(cut(debris, begun ? 2 : 0), K5L_DONE);
            SAME(otp[255], at == 255 ? left : 0xFFFF);
            SAME(cells[256], at == 256 ? left : 0xFFFF);
            SAME(cells[255], 0xFFFF);
            SAME(record[ENTERED] | record[OPERATION] | record[OTP_LOCK], 0);
            SAME(bus_read(255), 0xFFFF);
        }
}

int main(void)
{
    for (uint64_t which = K5L_SMALL; which <= K5L_FULL; which++) {
        take_part(which);
        entering();
        reads();
        readings();
        exits();
        resets();
        no_resets();
        program_of_a_word(128);
        program_of_a_word(255);
        program_of_a_cell();
        refusals();
        no_erases();
        cuts();
    }
    return check_report("onetime");
}
