/*
 * Records that were stored in layout 1, 29 words, or layout 2, 30 words, one in each operation: as they are, every event is STATE;
 * k5l_carry makes records of layout 3 of them, and the device goes on where it was. On both parts, with what then comes written out by
 * hand. What is of no layout is not carried, and nothing is touched.
 */
#include "dice.h"
#include "driver.h"

#include <string.h>

enum { FIRST_WORDS = 29, SECOND_WORDS = 30, ROOM = 36 };

/* The layout of what is stored, and how many words it has. */
static uint64_t layout;
static size_t stored_words;

/* A0H is taken; a program is at word 5, in block 0 of either part; blocks 8 and 9 are listed, in the chip erase 268 and 269. The DYB of
 * block 20, the PPB of block 64 and the lock bit are 1. Words 0 to 5, then of an erase, of a program, and the protection bits. Layout 2
 * has a word more, 0 but in a recovery. */
static const uint64_t first[CHIP_ERASE + 1][FIRST_WORDS] = {
    { 1, 900, 13500, 3, 0, 0, 0, 0, 0, 0, 0, 0, 0, 0, 0, 0, 0, 0, 1 << 20, 0, 0, 0, 0, 0, 1, 0, 0, 0, 1 },
    { 1, 900, 34000, 0, 0, 1, 0, 0, 0, 0, 0, 0, 0, 0, 5, 0x1234, 4, 1, 1 << 20, 0, 0, 0, 0, 0, 1, 0, 0, 0, 1 },
    { 1, 900, 34000, 11, 2, 2, 0, 0, 0, 0, 0, 0, 0, 0, 5, 0x1234, 2, 1, 1 << 20, 0, 0, 0, 0, 0, 1, 0, 0, 0, 1 },
    { 1, 900, 13500, 0, 0, 3, 0x300, 0, 0, 0, 0, 8, 7, 1, 0, 0, 0, 0, 1 << 20, 0, 0, 0, 0, 0, 1, 0, 0, 0, 1 },
    { 1, 900, 15000, 0, 0, 4, 0x300, 0, 0, 0, 0, 9, 5, 2, 0, 0, 0, 0, 1 << 20, 0, 0, 0, 0, 0, 1, 0, 0, 0, 1 },
    { 1, 900, 15000, 12, 0, 5, 0x300, 0, 0, 0, 0, 9, 5, 2, 0, 0, 0, 0, 1 << 20, 0, 0, 0, 0, 0, 1, 0, 0, 0, 1 },
    { 1, 900, 15000, 0, 0, 6, 0x300, 0, 0, 0, 0, 9, 5, 3, 5, 0x1234, 1, 0, 1 << 20, 0, 0, 0, 0, 0, 1, 0, 0, 0, 1 },
    { 1, 900, 15000, 0, 0, 7, 0, 0, 0, 0, 0x3000, 268, 3, 0, 0, 0, 0, 0, 1 << 20, 0, 0, 0, 0, 0, 1, 0, 0, 0, 1 },
};

/* What is stored of the operation, with 0 behind it. */
static void store(int operation, uint64_t *stored)
{
    memset(stored, 0, K5L_RECORD_WORDS * sizeof *stored);
    memcpy(stored, first[operation], sizeof first[operation]);
    stored[0] = layout;
}

/* Lent as it was stored, with 0 behind it or not, every event is STATE and nothing changes. */
static void not_taken(int operation)
{
    for (size_t words = FIRST_WORDS; words <= K5L_RECORD_WORDS; words++) {
        uint64_t lent[K5L_RECORD_WORDS], before[K5L_RECORD_WORDS];

        store(operation, lent);
        store(operation, before);
        HOLDS(!k5l_sound(part, lent, words));
        SAME(k5l_clock(part, lent, words) & k5l_until_end(part, lent, words), K5L_NONE);
        SAME(k5l_read(part, lent, words, cells, length, otp, otp_length, 0), (uint64_t)K5L_STATE << 16);
        SAME(k5l_write(part, lent, words, cells, length, otp, otp_length, 0, 0xF0), K5L_STATE);
        SAME(k5l_wait(part, lent, words, cells, length, otp, otp_length, 1), K5L_STATE);
        SAME(k5l_cut(part, lent, words, cells, length, otp, otp_length, NULL, 0), K5L_STATE);
        SAME(k5l_range(part, lent, words, cells, length, otp, otp_length, 0, 1), (uint64_t)K5L_STATE << 33);
        SAME(memcmp(lent, before, sizeof lent), 0);
    }
}

/* Layout 3: the same words, 0 at the end, and the number; a record as good as any. */
static void bring_back(int operation)
{
    uint64_t stored[K5L_RECORD_WORDS];

    fresh();
    store(operation, stored);
    memset(record, 0xA5, sizeof record);
    SAME(k5l_carry(stored, stored_words, record, K5L_RECORD_WORDS), K5L_DONE);
    SAME(record[0], 3);
    SAME(memcmp(record + 1, stored + 1, (K5L_RECORD_WORDS - 1) * sizeof *record), 0);
    SAME(record[RECOVERY] | record[ENTERED] | record[OTP_LOCK], 0);
    HOLDS(k5l_sound(part, record, K5L_RECORD_WORDS));
    SAME(clock_now(), stored[CLOCK]);
    SAME(charge_now(), stored[CHARGE]);
}

/* Word 29 belongs to a block erase past its window alone. */
static void recovers_or_not(int operation)
{
    bring_back(operation);
    for (record[RECOVERY] = 1; record[RECOVERY] <= 21; record[RECOVERY]++) {
        SAME(k5l_sound(part, record, K5L_RECORD_WORDS), operation == BLOCK_ERASE && record[RECOVERY] <= 20);
        SAME(until_end(), operation == BLOCK_ERASE && record[RECOVERY] <= 20 ? record[RECOVERY] : K5L_NONE);
    }
}

/* Word 30 goes with no erase and no suspension, nor with a program of one of the factory's words, as word 5 is then; word 31 with all. */
static void enters_or_not(int operation)
{
    bring_back(operation);
    for (record[ENTERED] = 0; record[ENTERED] <= 2; record[ENTERED]++)
        for (record[OTP_LOCK] = 0; record[OTP_LOCK] <= 2; record[OTP_LOCK]++)
            SAME(k5l_sound(part, record, K5L_RECORD_WORDS),
                 record[OTP_LOCK] <= 1 && (record[ENTERED] == 0 || (record[ENTERED] == 1 && operation == NO_OPERATION)));
}

/* Is the block all so? */
static bool is_all(uint64_t block, uint16_t word)
{
    const uint16_t *first = cells + k5l_first_word(part, block);
    uint64_t words = k5l_block_words(part, block);

    for (uint64_t i = 0; i < words; i++)
        if (first[i] != word)
            return false;
    return true;
}

static void fill(uint64_t block) { memset(cells + k5l_first_word(part, block), 0, k5l_block_words(part, block) * sizeof *cells); }

static void none_and_programs(void)
{
    bring_back(NO_OPERATION);
    SAME(bus_write(5, 0x1234), K5L_DONE);
    SAME(pass(6), K5L_DONE);
    SAME(cells[5], 0x1234);
    SAME(charge_now(), 13500 + 6 * 17000);
    bring_back(PROGRAM);
    SAME(bus_read(5), 0x84);
    CHANGES_NOTHING(bus_write(0, 0xB0), K5L_BUSY);
    SAME(pass(3), K5L_DONE);
    SAME(cells[5], 0xFFFF);
    SAME(pass(1), K5L_DONE);
    SAME(cells[5], 0x1234);
    SAME(charge_now(), 34000 + 4 * 17000);
    SAME(program(k5l_first_word(part, 20), 0), K5L_PROTECTED);
    SAME(program(k5l_first_word(part, 64), 0), K5L_PROTECTED);
    SAME(set_ppb(5), K5L_LOCKED);
    bring_back(SUSPENDED_PROGRAM);
    SAME(bus_read(5), 0xC4);
    SAME(bus_read(k5l_first_word(part, 135)), 0xEC);
    SAME(bus_write(0, 0xF0), K5L_DONE);
    SAME(bus_write(0, 0x30), K5L_DONE);
    SAME(pass(2), K5L_DONE);
    SAME(cells[5], 0x1234);
    SAME(record[OPERATION], NO_OPERATION);
    SAME(charge_now(), 34000 + 2 * 17000);
}

/* A stored window ends in its time; a stored erase is finished, or recovers after B0H and is finished later. */
static void running_erases(void)
{
    uint64_t eighth = k5l_first_word(part, 8);

    bring_back(WINDOW);
    SAME(bus_read(eighth), 0x04);
    SAME(pass(7), K5L_DONE);
    SAME(record[OPERATION], BLOCK_ERASE);
    SAME(charge_now(), 13500 + 7 * 15);
    SAME(bus_read(eighth), 0x48);
    SAME(until_end(), 2 * 700000);
    bring_back(BLOCK_ERASE);
    fill(8);
    fill(9);
    SAME(pass(5), K5L_DONE);
    HOLDS(is_all(8, 0) && is_all(9, 0xFFFF));
    SAME(record[OPERATION], NO_OPERATION);
    bring_back(BLOCK_ERASE);
    fill(9);
    SAME(bus_write(0, 0xB0), K5L_DONE);
    SAME(record[RECOVERY], 20);
    SAME(bus_read(eighth), 0x48);
    CHANGES_NOTHING(bus_write(0, 0x30), K5L_BUSY);
    SAME(pass(100), K5L_DONE);
    SAME(record[OPERATION], SUSPENDED_ERASE);
    SAME(charge_now(), 15000 + 20 * 17000 + 80 * 15);
    HOLDS(is_all(9, 0));
    SAME(bus_write(0, 0x30), K5L_DONE);
    SAME(pass(5), K5L_DONE);
    HOLDS(is_all(9, 0xFFFF));
    SAME(record[OPERATION], NO_OPERATION);
}

/* A stored suspension stands, has no recovery, and is resumed; a chip erase goes on from block to block. */
static void other_erases(void)
{
    uint64_t eighth = k5l_first_word(part, 8);

    bring_back(SUSPENDED_ERASE);
    SAME(bus_read(k5l_first_word(part, 20)), 3);
    SAME(bus_write(0, 0xF0), K5L_DONE);
    SAME(bus_read(eighth), 0xC0);
    SAME(until_end(), 0);
    SAME(bus_write(0, 0x30), K5L_DONE);
    SAME(pass(5), K5L_DONE);
    SAME(record[OPERATION], NO_OPERATION);
    bring_back(PROGRAM_INSIDE);
    SAME(pass(1), K5L_DONE);
    SAME(cells[5], 0x1234);
    SAME(record[OPERATION], SUSPENDED_ERASE);
    SAME(bus_read(eighth), 0xC0);
    SAME(exposed_block(), 9);
    SAME(debris_needed(), k5l_block_words(part, 9));
    bring_back(CHIP_ERASE);
    fill(268);
    SAME(pass(3), K5L_DONE);
    HOLDS(is_all(268, 0xFFFF));
    SAME(record[HAND], 269);
    CHANGES_NOTHING(bus_write(0, 0xB0), K5L_BUSY);
    SAME(pass(500000), K5L_DONE);
    SAME(record[OPERATION], NO_OPERATION);
    SAME(charge_now(), 15000 + (uint64_t)500003 * 17000);
}

/* A recovery that was stored in layout 2 goes on. */
static void recovering(void)
{
    uint64_t stored[K5L_RECORD_WORDS];

    store(BLOCK_ERASE, stored);
    stored[RECOVERY] = 13;
    fresh();
    SAME(k5l_carry(stored, SECOND_WORDS, record, K5L_RECORD_WORDS), K5L_DONE);
    SAME(until_end(), 13);
    CHANGES_NOTHING(bus_write(0, 0x30), K5L_BUSY);
    SAME(pass(13), K5L_DONE);
    SAME(record[OPERATION], SUSPENDED_ERASE);
}

/* A record of layout 3 is copied, its last words included. */
static void copied(void)
{
    uint64_t copy[K5L_RECORD_WORDS] = { 0 };

    fresh();
    SAME(enter(0x88), K5L_DONE);
    SAME(lock_otp(), K5L_DONE);
    SAME(record[ENTERED] & record[OTP_LOCK], 1);
    SAME(k5l_carry(record, K5L_RECORD_WORDS, copy, K5L_RECORD_WORDS), K5L_DONE);
    SAME(memcmp(copy, record, sizeof copy), 0);
}

/* One call, whatever is lent: what comes of it is told by word 0 and both lengths alone, so that what is not sound is carried, too. */
static void carry(const uint64_t *old, size_t old_words, size_t words)
{
    uint64_t into[ROOM], expected[ROOM];
    bool known = (old_words == 29 && old[0] == 1) || (old_words == 30 && old[0] == 2) || (old_words == 32 && old[0] == 3);

    memset(into, 0xA5, sizeof into);
    memset(expected, 0xA5, sizeof expected);
    if (known && words == 32) {
        memset(expected, 0, 32 * sizeof *expected);
        memcpy(expected, old, old_words * sizeof *old);
        expected[0] = 3;
    }
    SAME(k5l_carry(old, old_words, into, words), known && words == 32 ? K5L_DONE : K5L_STATE);
    SAME(memcmp(into, expected, sizeof into), 0);
}

/* All lengths up to some more than there are, for layouts that there are and that there are not. */
static void other_layouts(void)
{
    static const uint64_t layouts[] = { 0, 1, 2, 3, 4, 29, 30, 32, 4294967297, 4294967298, 4294967299, (uint64_t)1 << 63, UINT64_MAX };
    uint64_t old[ROOM], before[ROOM];

    for (unsigned i = 0; i < sizeof layouts / sizeof *layouts; i++) {
        for (int word = 1; word < ROOM; word++)
            old[word] = dice();
        old[0] = layouts[i];
        memcpy(before, old, sizeof old);
        for (size_t old_words = 0; old_words <= ROOM; old_words++)
            for (size_t words = 0; words <= ROOM; words++)
                carry(old, old_words, words);
        SAME(memcmp(old, before, sizeof old), 0);
    }
    SAME(k5l_carry(NULL, 0, before, K5L_RECORD_WORDS), K5L_STATE);
    SAME(k5l_carry(first[0], FIRST_WORDS, NULL, 0), K5L_STATE);
    SAME(memcmp(old, before, sizeof old), 0);
}

int main(void)
{
    for (int round = 0; round < 4; round++) {
        take_part(round < 2 ? K5L_SMALL : K5L_FULL);
        layout = 1 + round % 2;
        stored_words = layout == 1 ? FIRST_WORDS : SECOND_WORDS;
        for (int operation = NO_OPERATION; operation <= CHIP_ERASE; operation++) {
            not_taken(operation);
            recovers_or_not(operation);
            enters_or_not(operation);
        }
        none_and_programs();
        running_erases();
        other_erases();
        if (layout == 2)
            recovering();
        copied();
    }
    other_layouts();
    return check_report("carried");
}
