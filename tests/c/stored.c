/*
 * B0H suspends no program (document 02, request 9); a record that was stored with a suspended one is read, identified, resumed
 * with 30H and cut by the old rules. On both parts, with what the papers say of each written out by hand.
 */
#include "driver.h"

enum { BLOCK = 8, STORED_CLOCK = 10, STORED_CHARGE = 2 * 17000 + 8 * 15 };

static uint64_t first, last, at; /* the block's first and last word, and the program's between them */

/* 1234H in block 8, suspended with so many of its 6 microseconds left: words that layout 1 had (carried.c has it whole). */
static void bring_back(uint64_t left)
{
    fresh();
    first = k5l_first_word(part, BLOCK);
    last = first + k5l_block_words(part, BLOCK) - 1;
    at = first + 36;
    record[CLOCK] = STORED_CLOCK;
    record[CHARGE] = STORED_CHARGE;
    record[OPERATION] = SUSPENDED_PROGRAM;
    record[ADDRESS] = at;
    record[DATA] = 0x1234;
    record[PROGRAM_LEFT] = left;
}

/* It is sound, asked and read as ever: its block shows DQ7 (data bit 7 inverted), DQ6 and DQ2, and no bit flips. */
static void read_back(void)
{
    bring_back(4);
    HOLDS(k5l_sound(part, record, K5L_RECORD_WORDS));
    SAME(clock_now(), STORED_CLOCK);
    SAME(charge_now(), STORED_CHARGE);
    SAME(exposed_word(), at);
    SAME(exposed_block(), K5L_NONE);
    SAME(debris_needed(), 1);
    SAME(until_end(), 0);
    SAME(until_change() & changing_word() & changing_block(), K5L_NONE);
    HOLDS(!reads_cells(0) && reads_cells(1) && reads_cells(2) && reads_cells(3));
    for (record[PROGRAM_DQ6] = 0; record[PROGRAM_DQ6] < 2; record[PROGRAM_DQ6]++) {
        CHANGES_NOTHING(bus_read(at), 0xC4);
        CHANGES_NOTHING(bus_read(first), 0xC4);
        CHANGES_NOTHING(bus_read(last), 0xC4);
        CHANGES_NOTHING(bus_read(first - 1), 0xFFFF);
        CHANGES_NOTHING(bus_read(last + 1), 0xFFFF);
    }
    bring_back(4);
    record[DATA] = 0x12B4;
    CHANGES_NOTHING(bus_read(at), 0x44);
    for (uint64_t left = 1; left <= 6; left++) {
        bring_back(left);
        CHANGES_NOTHING(bus_read(first), 0xC4);
        SAME(exposed_word(), left < 6 ? at : K5L_NONE);
    }
    bring_back(7);
    CHANGES_NOTHING(bus_read(at), (uint64_t)K5L_STATE << 16);
    bring_back(0);
    CHANGES_NOTHING(bus_read(at), (uint64_t)K5L_STATE << 16);
}

/* 90H, 58H and F0H work. */
static void identified(void)
{
    bring_back(4);
    record[PPBS] = 1;
    record[DYBS] = 2;
    SAME(enter(0x90), K5L_DONE);
    CHANGES_NOTHING(bus_read(first & ~(uint64_t)0xFF), 0xEC);
    CHANGES_NOTHING(bus_read(2), 1);
    CHANGES_NOTHING(bus_read(at), 0);
    CHANGES_NOTHING(bus_read(length - 1), 0xFFFF);
    SAME(bus_write(0, 0xF0), K5L_DONE);
    SAME(enter(0x58), K5L_DONE);
    CHANGES_NOTHING(bus_read(k5l_first_word(part, 1)), 1);
    CHANGES_NOTHING(bus_read(at), 0);
    SAME(bus_write(0, 0xF0), K5L_DONE);
    SAME(record[OPERATION], SUSPENDED_PROGRAM);
    CHANGES_NOTHING(bus_read(at), 0xC4);
}

/* Time passes it by; 30H at any address resumes it; then it is like any program, and B0H is BUSY. */
static void resumed(void)
{
    bring_back(4);
    SAME(pass(1000), K5L_DONE);
    SAME(charge_now(), STORED_CHARGE + 1000 * 15);
    SAME(record[PROGRAM_LEFT], 4);
    SAME(bus_write(length - 1, 0x30), K5L_DONE);
    SAME(record[OPERATION], PROGRAM);
    SAME(until_end(), 4);
    SAME(until_change(), 4);
    SAME(changing_word(), at);
    SAME(bus_read(at), 0xC4);
    SAME(bus_read(at), 0x84);
    CHANGES_NOTHING(bus_write(at, 0xB0), K5L_BUSY);
    SAME(pass(3), K5L_DONE);
    SAME(cells[at], 0xFFFF);
    CHANGES_NOTHING(bus_write(at, 0x12B0), K5L_BUSY);
    SAME(pass(1), K5L_DONE);
    SAME(cells[at], 0x1234);
    SAME(record[OPERATION], NO_OPERATION);
    SAME(clock_now(), STORED_CLOCK + 1004);
    SAME(charge_now(), STORED_CHARGE + 1000 * 15 + 4 * 17000);
    SAME(bus_write(at, 0xB0), K5L_SEQUENCE);
}

/* A cut needs one word of debris if it had begun, and none if not. */
static void cut_off(void)
{
    static const uint16_t debris[] = { 0xFF00, 0x0000 };

    bring_back(4);
    CHANGES_NOTHING(cut(debris, 0), K5L_DEBRIS);
    SAME(cut(debris, 2), K5L_DONE);
    SAME(cells[at], 0xFF34);
    SAME(cells[at - 1] & cells[at + 1], 0xFFFF);
    SAME(record[OPERATION], NO_OPERATION);
    SAME(clock_now(), STORED_CLOCK);
    SAME(charge_now(), STORED_CHARGE);
    bring_back(6);
    SAME(cut(NULL, 0), K5L_DONE);
    SAME(cells[at], 0xFFFF);
    SAME(record[OPERATION], NO_OPERATION);
}

/* What suspension does not allow, and B0H: the register falls to ground, and the program stays suspended. */
static void turned_down(void)
{
    static const uint16_t forbidden[] = { 0xA0, 0x80, 0x48, 0x78, 0x60 };

    bring_back(4);
    save();
    for (unsigned i = 0; i < sizeof forbidden / sizeof *forbidden; i++) {
        SAME(enter(forbidden[i]), K5L_SUSPENDED);
        HOLDS(is_saved());
    }
    SAME(bus_write(at, 0xB0), K5L_SEQUENCE);
    HOLDS(is_saved());
    SAME(bus_write(at, 0xF0), K5L_DONE);
    HOLDS(is_saved());
}

/* B0H in every microsecond of a program, alone and inside a suspended erase. */
static void not_suspended(void)
{
    uint64_t elsewhere = k5l_first_word(part, 100);

    for (int inside = 0; inside < 2; inside++) {
        fresh();
        if (inside) {
            SAME(erase(elsewhere, 0x30), K5L_DONE);
            SAME(bus_write(0, 0xB0), K5L_DONE);
        }
        SAME(program(at, 0x1234), K5L_DONE);
        for (int passed = 0; passed < 6; passed++) {
            CHANGES_NOTHING(bus_write(at, 0xB0), K5L_BUSY);
            SAME(pass(1), K5L_DONE);
        }
        SAME(cells[at], 0x1234);
        SAME(record[OPERATION], inside ? SUSPENDED_ERASE : NO_OPERATION);
    }
}

int main(void)
{
    for (uint64_t which = K5L_SMALL; which <= K5L_FULL; which++) {
        take_part(which);
        read_back();
        identified();
        resumed();
        cut_off();
        turned_down();
        not_suspended();
    }
    return check_report("stored");
}
