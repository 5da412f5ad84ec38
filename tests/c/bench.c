/* The rows b to l of document 01's bench table, over the library as C calls it (row a is in lookups.c). */
#include "driver.h"

#include <string.h>

/* Rows b to d: a program, and its cuts; row c as document 02, request 6, has it. */
static void programs(void)
{
    static const uint16_t debris[] = { 0xFF00, 0x0000 }, left[] = { 0xFF34, 0x1234 };

    fresh();
    SAME(program(100, 0x1234), K5L_DONE);
    SAME(pass(5), K5L_DONE);
    SAME(cells[100], 0xFFFF);
    SAME(bus_read(100), 0xC4);
    SAME(bus_read(100), 0x84);
    SAME(bus_read(3000), 0xFFFF);
    SAME(pass(1), K5L_DONE);
    SAME(bus_read(100), 0x1234);
    SAME(enter(0xA0), K5L_DONE);
    SAME(bus_write(100, 0x00FF), K5L_RAISE);
    SAME(bus_read(100), 0x1234);
    SAME(program(100, 0x0034), K5L_DONE);
    SAME(pass(6), K5L_DONE);
    SAME(bus_read(100), 0x0034);
    for (int i = 0; i < 2; i++) {
        fresh();
        SAME(program(100, 0x1234), K5L_DONE);
        SAME(exposed_word(), K5L_NONE);
        SAME(pass(5), K5L_DONE);
        SAME(exposed_word(), 100);
        CHANGES_NOTHING(cut(debris, 0), K5L_DEBRIS);
        SAME(cut(debris + i, 1), K5L_DONE);
        SAME(cells[100], left[i]);
        SAME(clock_now(), 5);
        SAME(charge_now(), 85000);
    }
    fresh();
    SAME(program(100, 0x1234), K5L_DONE);
    SAME(cut(NULL, 0), K5L_DONE);
    SAME(cells[100], 0xFFFF);
    SAME(record[OPERATION], NO_OPERATION);
}

/* Rows e to h: a block erase, its charge, and the clock. */
static void erases_and_clock(void)
{
    fresh();
    SAME(erase(64, 0x30), K5L_DONE);
    SAME(bus_read(64), 0x44);
    SAME(pass(50), K5L_DONE);
    SAME(bus_read(64), 0x08);
    SAME(bus_read(64), 0x4C);
    fresh();
    cells[64] = cells[127] = cells[63] = cells[128] = 0x5A5A;
    SAME(erase(64, 0x30), K5L_DONE);
    SAME(pass(700050), K5L_DONE);
    SAME(charge_now(), 11900000750);
    SAME(cells[64], 0xFFFF);
    SAME(cells[127], 0xFFFF);
    SAME(cells[63], 0x5A5A);
    SAME(cells[128], 0x5A5A);
    fresh();
    SAME(pass(4294967296), K5L_DONE);
    SAME(clock_now(), 4294967296);
    SAME(charge_now(), 64424509440);
    fresh();
    CHANGES_NOTHING(pass(CLOCK_LIMIT + 1), K5L_CLOCK);
    CHANGES_NOTHING(pass(UINT64_MAX), K5L_CLOCK);
    SAME(pass(CLOCK_LIMIT), K5L_DONE);
    CHANGES_NOTHING(pass(0), K5L_DONE);
    CHANGES_NOTHING(pass(1), K5L_CLOCK);
}

/* Rows i, j and l: data cycles, debris for a block, and the order of BANK and PROTECTED. */
static void protections_and_debris(void)
{
    static const uint16_t debris[8] = { 1, 2, 3, 4, 5, 6, 7, 8 };

    fresh();
    SAME(set_dyb(64, 1), K5L_DONE);
    SAME(program(64, 0), K5L_PROTECTED);
    SAME(set_dyb(64, 0xF0), K5L_DONE);
    SAME(program(64, 0xF0), K5L_DONE);
    SAME(pass(6), K5L_DONE);
    SAME(cells[64], 0x00F0);
    fresh();
    SAME(erase(7, 0x30), K5L_DONE);
    SAME(pass(50), K5L_DONE);
    SAME(exposed_block(), K5L_NONE);
    SAME(pass(1), K5L_DONE);
    SAME(exposed_block(), 0);
    CHANGES_NOTHING(cut(debris, 7), K5L_DEBRIS);
    SAME(cut(debris, 8), K5L_DONE);
    SAME(memcmp(cells, debris, sizeof debris), 0);
    SAME(cells[8], 0xFFFF);
    fresh();
    SAME(set_dyb(2048, 1), K5L_DONE);
    SAME(set_dyb(128, 1), K5L_DONE);
    SAME(erase(64, 0x30), K5L_DONE);
    SAME(pass(49), K5L_DONE);
    CHANGES_NOTHING(bus_write(2048, 0x30), K5L_BANK);
    CHANGES_NOTHING(bus_write(128, 0x30), K5L_PROTECTED);
    SAME(bus_write(0, 0x30), K5L_DONE);
    SAME(record[HAND], 0);
    SAME(record[LEFT], 50);
    SAME(record[LIST], 0x101);
}

/* Row k: a chip erase with one block unprotected, and with none. */
static void chip_erase_of(uint64_t lone)
{
    uint64_t first = k5l_first_word(part, lone), last = first + k5l_block_words(part, lone) - 1;

    fresh();
    for (uint64_t block = 0; block < K5L_BLOCKS; block++) {
        uint64_t at = k5l_first_word(part, block);

        if (block != lone)
            SAME(block % 2 ? set_dyb(at, 1) : set_ppb(at), K5L_DONE);
    }
    memset(cells, 0, length * sizeof *cells);
    SAME(erase(0x555, 0x10), K5L_DONE);
    SAME(record[HAND], lone);
    SAME(pass(499999), K5L_DONE);
    SAME(record[OPERATION], CHIP_ERASE);
    SAME(bus_read(last), 0x4C);
    SAME(bus_read(first ^ 8192), 0x0C);
    SAME(pass(1), K5L_DONE);
    SAME(record[OPERATION], NO_OPERATION);
    SAME(charge_now(), (uint64_t)500000 * 17000);
    for (uint64_t at = 0; at < length; at++)
        SAME(cells[at], at >= first && at <= last ? 0xFFFF : 0);
    SAME(set_dyb(first, 1), K5L_DONE);
    SAME(erase(0x555, 0x10), K5L_PROTECTED);
    SAME(record[COMMAND], GROUND);
}

int main(void)
{
    static const uint64_t lone[] = { 0, 8, 63, 64, 134, 135, 255, 256, 269 };

    take_part(K5L_SMALL);
    programs();
    erases_and_clock();
    protections_and_debris();
    for (unsigned i = 0; i < sizeof lone / sizeof *lone; i++)
        chip_erase_of(lone[i]);
    return check_report("bench");
}
