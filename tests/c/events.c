/*
 * The functions of the header, with what document 01 says of each written out by hand: each refusal with what it leaves behind,
 * the readings, windows, suspensions and cuts, and every block's first and last word on both parts. (What they foretell is in
 * foreseen.c, the 20 us before a suspension in recovery.c.)
 */
#include "driver.h"

#include <string.h>

/* Document 01, Events: clock 0, charge 0, no operation, no protection; the header adds the layout's number. */
static void a_fresh_record(void)
{
    uint64_t expected[K5L_RECORD_WORDS] = { K5L_LAYOUT };

    memset(record, 0xA5, sizeof record);
    SAME(k5l_fresh(record, K5L_RECORD_WORDS), K5L_DONE);
    SAME(memcmp(record, expected, sizeof record), 0);
    HOLDS(k5l_sound(K5L_SMALL, record, K5L_RECORD_WORDS));
    HOLDS(k5l_sound(K5L_FULL, record, K5L_RECORD_WORDS));
    for (uint64_t bank = 0; bank < 4; bank++)
        HOLDS(reads_cells(bank));
}

/* Document 01, Refusals by number: the checks before the command register is looked at. */
static void early_refusals(void)
{
    fresh();
    record[CLOCK] = CLOCK_LIMIT + 1;
    CHANGES_NOTHING(bus_read(0), (uint64_t)K5L_STATE << 16);
    CHANGES_NOTHING(bus_write(0, 0xF0), K5L_STATE);
    CHANGES_NOTHING(pass(0), K5L_STATE);
    CHANGES_NOTHING(cut(NULL, 0), K5L_STATE);
    SAME(range(0, 0), (uint64_t)K5L_STATE << 33);
    SAME(clock_now() & charge_now() & exposed_block() & exposed_word() & exposed_array() & changing_array(), K5L_NONE);
    HOLDS(!k5l_sound(part, record, K5L_RECORD_WORDS) && !reads_cells(0));
    fresh();
    SAME(enter(0xA0), K5L_DONE);
    CHANGES_NOTHING(bus_read(length), (uint64_t)K5L_ADDRESS << 16);
    CHANGES_NOTHING(bus_write(length, 0x1234), K5L_ADDRESS);
    SAME(record[COMMAND], AFTER_A0);
    length--;
    CHANGES_NOTHING(bus_read(0), (uint64_t)K5L_CELLS << 16);
    CHANGES_NOTHING(bus_write(0, 0), K5L_CELLS);
    CHANGES_NOTHING(pass(1), K5L_CELLS);
    CHANGES_NOTHING(cut(NULL, 0), K5L_CELLS);
    SAME(range(0, 0), (uint64_t)K5L_CELLS << 33);
    length++;
    SAME(bus_write(100, 0x1234), K5L_DONE);
    CHANGES_NOTHING(bus_write(100, 0xF0), K5L_BUSY);
}

/* What is refused in suspension, and what works there. */
static void suspensions(void)
{
    static const uint16_t forbidden[] = { 0x80, 0x48, 0x78, 0x60 };

    fresh();
    SAME(erase(64, 0x30), K5L_DONE);
    SAME(pass(60), K5L_DONE);
    CHANGES_NOTHING(bus_write(64, 0x30), K5L_BUSY);
    SAME(bus_write(16383, 0xB0), K5L_DONE);
    SAME(pass(20), K5L_DONE);
    SAME(bus_read(64), 0xC4);
    SAME(bus_read(64), 0xC0);
    HOLDS(!reads_cells(0) && reads_cells(1));
    for (int i = 0; i < 4; i++)
        SAME(enter(forbidden[i]), K5L_SUSPENDED);
    SAME(program(64, 0), K5L_SUSPENDED);
    SAME(bus_write(0, 0xB0), K5L_SEQUENCE);
    SAME(record[OPERATION], SUSPENDED_ERASE);
    SAME(program(128, 0x0080), K5L_DONE);
    CHANGES_NOTHING(bus_write(128, 0xB0), K5L_BUSY);
    SAME(bus_read(64), 0x44);
    SAME(pass(1000), K5L_DONE);
    SAME(cells[128], 0x0080);
    SAME(charge_now(), 50 * 15 + (10 + 20 + 6) * 17000 + 994 * 15);
    SAME(bus_write(2048, 0x30), K5L_DONE);
    SAME(bus_write(0, 0xF0), K5L_BUSY);
    SAME(pass(699990), K5L_DONE);
    SAME(record[OPERATION], NO_OPERATION);
    SAME(program(100, 0x1234), K5L_DONE);
    CHANGES_NOTHING(bus_write(0, 0xB0), K5L_BUSY);
}

/* SEQUENCE, LOCKED and the readings of 90H and 58H. */
static void commands(void)
{
    fresh();
    CHANGES_NOTHING(bus_write(0x555, 0x55), K5L_SEQUENCE);
    SAME(bus_write(0x555, 0xAA), K5L_DONE);
    SAME(bus_write(0x555, 0xAA), K5L_SEQUENCE);
    SAME(record[COMMAND], GROUND);
    SAME(erase(64, 0x30), K5L_DONE);
    SAME(bus_write(64, 0xF0), K5L_SEQUENCE);
    SAME(record[OPERATION], NO_OPERATION);
    SAME(set_ppb(0), K5L_DONE);
    SAME(set_dyb(64, 0xFF1), K5L_DONE);
    SAME(enter(0x78), K5L_DONE);
    SAME(set_ppb(64), K5L_LOCKED);
    SAME(record[PPBS], 1);
    SAME(enter(0x90), K5L_DONE);
    SAME(bus_read(0), 0xEC);
    SAME(bus_read(2), 1);
    SAME(bus_read(2048), 0xFFFF);
    HOLDS(!reads_cells(0) && reads_cells(1) && record[COMMAND] == IDENTITY);
    SAME(bus_write(0, 0x90), K5L_SEQUENCE);
    SAME(enter(0x58), K5L_DONE);
    SAME(bus_read(64), 3);
    SAME(bus_read(0), 2);
    SAME(cut(NULL, 0), K5L_DONE);
    SAME(record[DYBS] | record[LOCK], 0);
    SAME(enter(0x60), K5L_DONE);
    SAME(bus_write(9, 0x60), K5L_DONE);
    SAME(bus_write(9, 0x40), K5L_DONE);
    SAME(record[PPBS], 0);
}

/* Document 01, Time, charge and the cells: the 50 microseconds in which blocks of one bank are added. */
static void window(void)
{
    fresh();
    SAME(erase(192, 0x30), K5L_DONE);
    SAME(pass(49), K5L_DONE);
    HOLDS(!reads_cells(0) && reads_cells(1));
    SAME(bus_read(0), 0x40);
    SAME(bus_write(64, 0x1230), K5L_DONE);
    SAME(bus_write(192, 0x30), K5L_DONE);
    SAME(record[LIST], 1 << 8 | 1 << 10);
    SAME(record[HAND], 8);
    SAME(pass(49), K5L_DONE);
    SAME(bus_write(0, 0xB0), K5L_DONE);
    SAME(cut(NULL, 0), K5L_DONE);
    SAME(erase(192, 0x30), K5L_DONE);
    SAME(bus_write(64, 0x30), K5L_DONE);
    SAME(bus_write(0, 0xB0), K5L_DONE);
    SAME(record[LEFT], 700000);
    SAME(bus_write(16383, 0x30), K5L_DONE);
    SAME(bus_read(64), 0x4C);
    cells[64] = cells[192] = cells[128] = 0;
    SAME(pass(700000), K5L_DONE);
    SAME(cells[64], 0xFFFF);
    SAME(cells[192], 0);
    SAME(record[HAND], 10);
    SAME(exposed_block(), K5L_NONE);
    SAME(pass(700000), K5L_DONE);
    SAME(cells[192], 0xFFFF);
    SAME(cells[128], 0);
    SAME(record[OPERATION], NO_OPERATION);
}

/* All blocks but a protected one, in rising number; B0H does not stop it. */
static void chip_erase(void)
{
    uint64_t kept = k5l_first_word(part, 100), beyond = k5l_first_word(part, 101);

    fresh();
    memset(cells, 0, length * sizeof *cells);
    SAME(set_ppb(kept), K5L_DONE);
    SAME(erase(0x555, 0x10), K5L_DONE);
    CHANGES_NOTHING(bus_write(0, 0xB0), K5L_BUSY);
    SAME(bus_read(0), 0x4C);
    SAME(bus_read(kept), 0x0C);
    HOLDS(!reads_cells(0) && !reads_cells(1) && !reads_cells(2) && !reads_cells(3));
    SAME(pass(50000001), K5L_DONE);
    SAME(record[HAND], 101);
    SAME(exposed_block(), 101);
    SAME(cells[kept - 1], 0xFFFF);
    SAME(cells[kept] | cells[beyond - 1] | cells[beyond], 0);
    SAME(pass(269 * 500000), K5L_DONE);
    SAME(record[OPERATION], NO_OPERATION);
    SAME(cells[kept] | cells[beyond - 1], 0);
    SAME(cells[0] & cells[beyond] & cells[length - 1], 0xFFFF);
    SAME(charge_now(), (uint64_t)269 * 500000 * 17000 + 50000001 * 15);
}

/* Document 01, The cut, with a begun program inside a begun erase that is suspended: the block's words, then one. */
static void cuts(void)
{
    static uint16_t debris[32768 + 2];
    uint64_t first = k5l_first_word(part, 39), words = k5l_block_words(part, 39);

    for (size_t i = 0; i < sizeof debris / sizeof *debris; i++)
        debris[i] = (uint16_t)(i * 7 + 0x0100);
    fresh();
    SAME(set_ppb(0), K5L_DONE);
    SAME(set_dyb(8, 1), K5L_DONE);
    SAME(enter(0x78), K5L_DONE);
    SAME(erase(first, 0x30), K5L_DONE);
    SAME(pass(51), K5L_DONE);
    suspend();
    cells[first - 1] = 0x0FF0;
    SAME(program(first - 1, 0x00F0), K5L_DONE);
    SAME(exposed_word(), K5L_NONE);
    SAME(pass(1), K5L_DONE);
    SAME(exposed_word(), first - 1);
    SAME(exposed_block(), 39);
    CHANGES_NOTHING(cut(debris, words), K5L_DEBRIS);
    SAME(cut(debris, words + 2), K5L_DONE);
    SAME(memcmp(cells + first, debris, words * sizeof *debris), 0);
    SAME(cells[first - 1], 0x0FF0 & (0x00F0 | debris[words]));
    SAME(cells[first + words], 0xFFFF);
    SAME(record[COMMAND] | record[OPERATION] | record[DYBS] | record[LOCK], 0);
    SAME(record[PPBS], 1);
    SAME(clock_now(), 72);
    SAME(charge_now(), 50 * 15 + (1 + 20 + 1) * 17000);
}

/* Programs and waits; two answers in one. */
static uint64_t programmed(uint64_t address, uint16_t word)
{
    uint64_t answer = program(address, word);

    return answer | pass(6);
}

static uint64_t erased(uint64_t address)
{
    uint64_t answer = erase(address, 0x30);

    return answer | pass(700050);
}

/* Programs each block's first and last word and erases the block below it: the words beyond stay. */
static void blocks(void)
{
    uint64_t first = 0;

    fresh();
    for (uint64_t block = 0; block < K5L_BLOCKS; block++) {
        uint64_t last = first + k5l_block_words(part, block) - 1;

        SAME(k5l_first_word(part, block), first);
        SAME(programmed(first, 0x1111), K5L_DONE);
        SAME(programmed(last, 0x2222), K5L_DONE);
        SAME(cells[first], 0x1111);
        SAME(cells[last], 0x2222);
        if (block > 0) {
            SAME(erased(first - 1), K5L_DONE);
            SAME(cells[first - 1], 0xFFFF);
            SAME(cells[first], 0x1111);
        }
        first = last + 1;
    }
    SAME(first, length);
    SAME(k5l_first_word(part, K5L_BLOCKS), length);
    SAME(k5l_block_words(part, K5L_BLOCKS), 0);
    SAME(clock_now(), 540 * 6 + 269 * 700050);
    SAME(charge_now(), (540 * 6 + (uint64_t)269 * 700000) * 17000 + 269 * 50 * 15);
}

/* There are two parts. */
static void no_such_part(void)
{
    SAME(k5l_first_word(2, 8), 0);
    SAME(k5l_block_words(2, 8), 0);
    SAME(k5l_first_word(UINT64_MAX, 8), 0);
    SAME(k5l_block_words(UINT64_MAX, 8), 0);
}

int main(void)
{
    take_part(K5L_SMALL);
    a_fresh_record();
    early_refusals();
    suspensions();
    commands();
    window();
    chip_erase();
    cuts();
    blocks();
    take_part(K5L_FULL);
    chip_erase();
    cuts();
    blocks();
    no_such_part();
    return check_report("events");
}
