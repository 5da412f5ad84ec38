/*
 * B0H in a running block erase starts 20 microseconds of recovery (document 02, request 1): each of its rules over the header, on both
 * parts, with the figures written out by hand.
 */
#include "driver.h"

#include <string.h>

enum { RUNNING_CURRENT = 17000, RESTING_CURRENT = 15 };

/* Of bank 1B: the first words of two listed blocks, and of one between them that is not. */
static uint64_t listed, beside, listed_later;

/* An erase of blocks 39 and 41, past its window by so much; every cell of theirs is 0. */
static void erase_for(uint64_t progress)
{
    fresh();
    listed = k5l_first_word(part, 39);
    beside = k5l_first_word(part, 40);
    listed_later = k5l_first_word(part, 41);
    memset(cells + listed, 0, k5l_block_words(part, 39) * sizeof *cells);
    memset(cells + listed_later, 0, k5l_block_words(part, 41) * sizeof *cells);
    SAME(erase(listed_later, 0x30), K5L_DONE);
    SAME(bus_write(listed, 0x30), K5L_DONE);
    SAME(pass(50 + progress), K5L_DONE);
}

/* B0H is taken, and word 29 is all that it changes. */
static void recover(uint64_t address, uint16_t word)
{
    save();
    SAME(record[OPERATION], BLOCK_ERASE);
    SAME(bus_write(address, word), K5L_DONE);
    SAME(record[RECOVERY], 20);
    record[RECOVERY] = 0;
    HOLDS(is_saved());
    record[RECOVERY] = 20;
}

/* No write is taken, whatever its low byte; an address outside the part is told first. */
static void takes_no_write(void)
{
    uint64_t then[K5L_RECORD_WORDS];

    memcpy(then, record, sizeof record);
    for (unsigned data = 0; data < 0x100; data++) {
        SAME(bus_write(listed, (uint16_t)data), K5L_BUSY);
        SAME(bus_write(0x555, (uint16_t)(0x1200 | data)), K5L_BUSY);
        SAME(bus_write(length - 1, (uint16_t)data), K5L_BUSY);
        SAME(bus_write(length, (uint16_t)data), K5L_ADDRESS);
    }
    SAME(memcmp(record, then, sizeof record), 0);
}

/* Microsecond by microsecond: what is foretold, what is taken, who reads cells, and the block that waits. */
static void every_microsecond(void)
{
    erase_for(1000);
    recover(length - 1, 0x12B0);
    for (uint64_t left = 20; left > 0; left--) {
        SAME(record[RECOVERY], left);
        SAME(record[OPERATION], BLOCK_ERASE);
        SAME(record[LEFT], 699000);
        SAME(until_end(), left);
        SAME(until_change(), left);
        SAME(changing_block() & changing_word(), K5L_NONE);
        SAME(exposed_block(), 39);
        SAME(debris_needed(), k5l_block_words(part, 39));
        HOLDS(reads_cells(0) && !reads_cells(1) && reads_cells(2) && reads_cells(3));
        takes_no_write();
        SAME(pass(1), K5L_DONE);
    }
    SAME(record[RECOVERY], 0);
    SAME(record[OPERATION], SUSPENDED_ERASE);
    SAME(record[LEFT], 699000);
    SAME(until_end(), 0);
    HOLDS(reads_cells(0) && !reads_cells(1) && reads_cells(2) && reads_cells(3));
    SAME(clock_now(), 1070);
    SAME(charge_now(), 17340750);
    SAME(cells[listed], 0);
}

/* The erase's status in its bank, DQ3 1; DQ2 flips in listed blocks alone; the toggles stay through suspension. */
static void status(void)
{
    erase_for(1000);
    recover(0, 0xB0);
    SAME(bus_read(listed), 0x4C);
    SAME(bus_read(listed_later), 0x08);
    SAME(bus_read(beside), 0x48);
    cells[0] = 0xBEEF;
    cells[k5l_first_word(part, 135)] = 0xCAFE;
    CHANGES_NOTHING(bus_read(0), 0xBEEF);
    CHANGES_NOTHING(bus_read(k5l_first_word(part, 135)), 0xCAFE);
    CHANGES_NOTHING(bus_read(length), (uint64_t)K5L_ADDRESS << 16);
    SAME(pass(19), K5L_DONE);
    SAME(bus_read(listed), 0x0C);
    SAME(pass(1), K5L_DONE);
    SAME(bus_read(listed), 0xC0);
    SAME(bus_read(listed_later), 0xC4);
    CHANGES_NOTHING(bus_read(beside), 0xFFFF);
    SAME(bus_write(0, 0x30), K5L_DONE);
    SAME(bus_read(beside), 0x4C);
}

/* One wait or two: what is left of the recovery draws as if the erase ran, the rest as in any suspension. */
static void waits(void)
{
    static const uint64_t more[] = { 0, 1, 19, 20, 21, 1000000 };
    uint64_t then[K5L_RECORD_WORDS], whole[K5L_RECORD_WORDS];

    erase_for(1);
    recover(0, 0xB0);
    memcpy(then, record, sizeof record);
    for (uint64_t first = 0; first <= 22; first++)
        for (unsigned i = 0; i < sizeof more / sizeof *more; i++) {
            uint64_t sum = first + more[i], recovered = sum < 20 ? sum : 20;

            memcpy(record, then, sizeof record);
            SAME(pass(sum), K5L_DONE);
            SAME(charge_now(), then[CHARGE] + recovered * RUNNING_CURRENT + (sum - recovered) * RESTING_CURRENT);
            SAME(record[RECOVERY], 20 - recovered);
            SAME(record[OPERATION], recovered < 20 ? BLOCK_ERASE : SUSPENDED_ERASE);
            memcpy(whole, record, sizeof record);
            memcpy(record, then, sizeof record);
            SAME(pass(first), K5L_DONE);
            SAME(pass(more[i]), K5L_DONE);
            SAME(memcmp(record, whole, sizeof record), 0);
        }
    memcpy(record, then, sizeof record);
    record[CLOCK] = CLOCK_LIMIT - 3;
    CHANGES_NOTHING(pass(20), K5L_CLOCK);
    SAME(pass(3), K5L_DONE);
    SAME(record[RECOVERY], 17);
}

/* With a microsecond to go the block is not finished by the recovery, but by that microsecond; B0H may come again and again. */
static void last_microsecond(void)
{
    erase_for(699999);
    for (int times = 0; times < 3; times++) {
        recover(0, 0xB0);
        SAME(pass(20 + 1000000), K5L_DONE);
        SAME(record[LEFT], 1);
        SAME(cells[listed], 0);
        SAME(bus_write(0, 0x30), K5L_DONE);
    }
    SAME(pass(1), K5L_DONE);
    SAME(cells[listed], 0xFFFF);
    SAME(record[HAND], 41);
    SAME(charge_now(), 50 * 15 + (uint64_t)(700000 + 3 * 20) * 17000 + (uint64_t)3 * 1000000 * 15);
}

/* A cut after so much of the recovery: it asks for the words of a begun block, and for none else. */
static void cut_after(uint64_t passed, bool begun)
{
    static uint16_t debris[K5L_FULL_DEBRIS];
    uint64_t words = k5l_block_words(part, 39);

    for (uint64_t i = 0; i < words; i++)
        debris[i] = (uint16_t)(i * 7 + 1);
    SAME(pass(passed), K5L_DONE);
    SAME(exposed_block(), begun ? 39 : K5L_NONE);
    SAME(exposed_word(), K5L_NONE);
    SAME(debris_needed(), begun ? words : 0);
    if (begun)
        CHANGES_NOTHING(cut(debris, words - 1), K5L_DEBRIS);
    SAME(cut(debris, begun ? words : 0), K5L_DONE);
    SAME(memcmp(cells + listed, debris, words * sizeof *debris) == 0, begun);
    SAME(cells[listed_later] | record[OPERATION] | record[RECOVERY], 0);
    SAME(until_change(), K5L_NONE);
}

static void cuts(void)
{
    static const uint64_t passed[] = { 0, 1, 19, 20, 1000 };

    for (unsigned i = 0; i < sizeof passed / sizeof *passed; i++) {
        erase_for(0);
        recover(0, 0xB0);
        cut_after(passed[i], false);
        erase_for(1);
        recover(0, 0xB0);
        cut_after(passed[i], true);
        erase_for(700000);
        SAME(record[HAND], 41);
        recover(0, 0xB0);
        SAME(pass(passed[i]), K5L_DONE);
        SAME(cut(NULL, 0), K5L_DONE);
        SAME(cells[listed], 0xFFFF);
        SAME(cells[listed_later], 0);
    }
}

/* In the window B0H suspends at once, at the resting current; what is resumed is past its window. */
static void window(void)
{
    fresh();
    SAME(erase(k5l_first_word(part, 39), 0x30), K5L_DONE);
    SAME(pass(49), K5L_DONE);
    SAME(bus_write(0, 0xB0), K5L_DONE);
    SAME(record[OPERATION], SUSPENDED_ERASE);
    SAME(record[RECOVERY], 0);
    SAME(bus_read(k5l_first_word(part, 39)), 0xC4);
    SAME(pass(20), K5L_DONE);
    SAME(charge_now(), 69 * 15);
    SAME(bus_write(0, 0x30), K5L_DONE);
    recover(0, 0xB0);
    SAME(record[LEFT], 700000);
    SAME(pass(20), K5L_DONE);
    SAME(charge_now(), 69 * 15 + 20 * 17000);
    SAME(debris_needed(), 0);
}

/* Nothing else recovers: a program, alone or inside, a chip erase. */
static void others(void)
{
    fresh();
    SAME(program(100, 0), K5L_DONE);
    CHANGES_NOTHING(bus_write(0, 0xB0), K5L_BUSY);
    SAME(pass(6), K5L_DONE);
    SAME(erase(0x555, 0x10), K5L_DONE);
    SAME(pass(1000), K5L_DONE);
    CHANGES_NOTHING(bus_write(0, 0xB0), K5L_BUSY);
    erase_for(1);
    suspend();
    SAME(program(0, 0), K5L_DONE);
    CHANGES_NOTHING(bus_write(0, 0xB0), K5L_BUSY);
    SAME(pass(6), K5L_DONE);
    SAME(record[OPERATION], SUSPENDED_ERASE);
}

/* Which records with such a word are sound. */
static bool is_sound_with(uint64_t word, uint64_t value)
{
    uint64_t kept = record[word];
    bool sound;

    record[word] = value;
    sound = k5l_sound(part, record, K5L_RECORD_WORDS);
    if (!sound)
        CHANGES_NOTHING(pass(1), K5L_STATE);
    record[word] = kept;
    return sound;
}

static void soundness(void)
{
    static const uint64_t longer[] = { 21, 22, 50, 256 + 20, 65536 + 1, 4294967296 + 20, (uint64_t)1 << 63, UINT64_MAX };

    erase_for(1000);
    recover(0, 0xB0);
    for (uint64_t left = 0; left <= 20; left++)
        HOLDS(is_sound_with(RECOVERY, left));
    for (unsigned i = 0; i < sizeof longer / sizeof *longer; i++)
        HOLDS(!is_sound_with(RECOVERY, longer[i]));
    for (uint64_t command = 1; command <= 15; command++)
        HOLDS(!is_sound_with(COMMAND, command));
    for (uint64_t operation = 0; operation <= 8; operation++)
        SAME(is_sound_with(OPERATION, operation), operation == BLOCK_ERASE);
    HOLDS(is_sound_with(LEFT, 1) && is_sound_with(LEFT, 700000) && !is_sound_with(LEFT, 0) && !is_sound_with(LEFT, 700001));
    HOLDS(!is_sound_with(HAND, 40) && !is_sound_with(LIST, 1) && !is_sound_with(DYBS, (uint64_t)1 << 39));
    HOLDS(!is_sound_with(ENTERED, 1) && is_sound_with(OTP_LOCK, 1));
    HOLDS(!is_sound_with(0, 1) && !is_sound_with(0, 2) && !is_sound_with(0, 4));
}

int main(void)
{
    for (uint64_t which = K5L_SMALL; which <= K5L_FULL; which++) {
        take_part(which);
        every_microsecond();
        status();
        waits();
        last_microsecond();
        cuts();
        window();
        others();
        soundness();
    }
    return check_report("recovery");
}
