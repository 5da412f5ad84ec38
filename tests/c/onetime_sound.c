/*
 * Which records are sound in the one-time block (document 02, request 4), word by word over the header and on both parts; every event on
 * the others is STATE and changes nothing.
 */
#include "driver.h"

/* Is it sound? If not, no event is taken. */
static bool is_sound(void)
{
    bool sound = k5l_sound(part, record, K5L_RECORD_WORDS);

    if (sound) {
        SAME(pass(0), K5L_DONE);
        return true;
    }
    save();
    SAME(bus_read(0), (uint64_t)K5L_STATE << 16);
    SAME(bus_write(0, 0xF0), K5L_STATE);
    SAME(range(0, 1), (uint64_t)K5L_STATE << 33);
    SAME(pass(0), K5L_STATE);
    SAME(cut(NULL, 0), K5L_STATE);
    HOLDS(is_saved());
    SAME(changing_array() & exposed_array(), K5L_NONE);
    return false;
}

/* 0 or 1, and nothing that looks like one of them in fewer bits. */
static void numbers(void)
{
    static const uint64_t values[] = { 0, 1, 2, 3, 255, 256, 257, 65536, 65537, 4294967296, 4294967297, (uint64_t)1 << 63, UINT64_MAX };

    for (unsigned i = 0; i < sizeof values / sizeof *values; i++) {
        fresh();
        record[ENTERED] = values[i];
        SAME(is_sound(), values[i] <= 1);
        fresh();
        record[OTP_LOCK] = values[i];
        SAME(is_sound(), values[i] <= 1);
    }
}

/* Inside none is half entered past 80H (4 to 6); outside none of the lock's (13, 14); there are no others. */
static void commands(void)
{
    for (uint64_t lock = 0; lock < 2; lock++)
        for (uint64_t command = 0; command <= 20; command++) {
            fresh();
            record[COMMAND] = command;
            record[OTP_LOCK] = lock;
            SAME(is_sound(), command <= 12);
            record[ENTERED] = 1;
            SAME(is_sound(), command <= 14 && !(command >= 4 && command <= 6));
            if (command >= 13) {
                record[4] = 1; /* 13 and 14 name no block and no bank */
                HOLDS(!is_sound());
            }
        }
}

/* A record of the operation, sound outside: a program at 300, or blocks 39 and 41 with the first in hand. */
static void of_operation(uint64_t operation)
{
    fresh();
    record[CLOCK] = 1000;
    record[OPERATION] = operation;
    if (operation == PROGRAM || operation == SUSPENDED_PROGRAM || operation == PROGRAM_INSIDE) {
        record[ADDRESS] = 300;
        record[PROGRAM_LEFT] = 3;
    }
    if (operation >= WINDOW) {
        record[LIST] = (uint64_t)5 << 39;
        record[HAND] = 39;
        record[LEFT] = 10;
    }
}

/* Inside nothing runs but a program, and then no command is half entered; nothing is suspended. */
static void operations(void)
{
    for (uint64_t operation = NO_OPERATION; operation <= CHIP_ERASE; operation++)
        for (uint64_t lock = 0; lock < 2; lock++) {
            of_operation(operation);
            record[OTP_LOCK] = lock;
            HOLDS(is_sound());
            record[ENTERED] = 1;
            SAME(is_sound(), operation <= PROGRAM);
        }
    for (uint64_t command = 1; command <= 14; command++) {
        of_operation(PROGRAM);
        record[ENTERED] = 1;
        record[COMMAND] = command;
        HOLDS(!is_sound());
    }
    of_operation(BLOCK_ERASE);
    record[RECOVERY] = 7;
    HOLDS(is_sound());
    record[ENTERED] = 1;
    HOLDS(!is_sound());
}

/* A running program: inside, below 256, it is of a customer's word that is not locked, whatever protects the block that lies there;
 * every other is in a block that nothing protects. */
static void programs(void)
{
    static const uint64_t places[] = { 0, 1, 127, 128, 129, 200, 255, 256, 257, 300 };

    for (unsigned i = 0; i < sizeof places / sizeof *places; i++)
        for (unsigned bits = 0; bits < 16; bits++) {
            bool inside = bits & 1, locked = bits & 2, dyb = bits & 4, ppb = bits & 8, one_time = inside && places[i] < 256;
            uint64_t block = (uint64_t)1 << k5l_block_of(part, places[i]);

            of_operation(PROGRAM);
            record[ADDRESS] = places[i];
            record[ENTERED] = inside;
            record[OTP_LOCK] = locked;
            record[DYBS] = dyb ? block : 0;
            record[PPBS] = ppb ? block : 0;
            SAME(is_sound(), one_time ? places[i] >= 128 && !locked : !dyb && !ppb);
        }
    of_operation(PROGRAM);
    record[ENTERED] = 1;
    record[ADDRESS] = length;
    HOLDS(!is_sound());
    record[ADDRESS] = 200;
    for (record[PROGRAM_LEFT] = 0; record[PROGRAM_LEFT] <= 7; record[PROGRAM_LEFT]++)
        SAME(is_sound(), record[PROGRAM_LEFT] >= 1 && record[PROGRAM_LEFT] <= 6);
}

int main(void)
{
    for (uint64_t which = K5L_SMALL; which <= K5L_FULL; which++) {
        take_part(which);
        numbers();
        commands();
        operations();
        programs();
    }
    return check_report("onetime_sound");
}
