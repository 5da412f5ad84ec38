/*
 * Ranges handed back where they lie (document 02, request 4), over the header and on both parts: which words, which refusal comes first,
 * and that a range is in nobody's way and changes nothing.
 */
#include "driver.h"

static const uint64_t ADDRESS_REFUSED = (uint64_t)K5L_ADDRESS << 33, BUSY_REFUSED = (uint64_t)K5L_BUSY << 33;

/* The range is handed back from that array, at that word; and nothing changes. */
static void handed_back(uint64_t first, uint64_t count, const uint16_t *expected)
{
    uint64_t answer;

    save();
    answer = range(first, count);
    HOLDS(is_saved());
    SAME(k5l_range_refusal(answer), K5L_DONE);
    SAME(k5l_range_array(answer), expected == otp + first ? K5L_ONE_TIME : K5L_MAIN);
    SAME(k5l_range_first(answer), first);
    HOLDS(k5l_range_words(answer, cells, otp) == expected);
}

static void refused(uint64_t first, uint64_t count, uint64_t answer)
{
    save();
    SAME(range(first, count), answer);
    HOLDS(is_saved());
    HOLDS(k5l_range_words(answer, cells, otp) == NULL);
}

/* By the first address: one-time words below 256, cells from there on. */
static void which_words(void)
{
    fresh_inside();
    handed_back(0, 256, otp);
    handed_back(0, 1, otp);
    handed_back(127, 2, otp + 127);
    handed_back(200, 56, otp + 200);
    handed_back(255, 1, otp + 255);
    handed_back(255, 0, otp + 255);
    handed_back(256, 1, cells + 256);
    handed_back(256, length - 256, cells + 256);
    handed_back(length - 1, 1, cells + length - 1);
    handed_back(length - 1, 0, cells + length - 1);
    handed_back(k5l_first_word(part, 100), 5, cells + k5l_first_word(part, 100));
}

/* It leaves its array, or begins outside: no sum wraps. */
static void which_are_none(void)
{
    static const uint64_t far[] = { 1, 255, 16384, (uint64_t)1 << 32, (uint64_t)1 << 63 };

    fresh_inside();
    refused(0, 257, ADDRESS_REFUSED);
    refused(200, 57, ADDRESS_REFUSED);
    refused(255, 2, ADDRESS_REFUSED);
    refused(0, length, ADDRESS_REFUSED);
    refused(256, length - 255, ADDRESS_REFUSED);
    refused(length - 1, 2, ADDRESS_REFUSED);
    refused(length, 0, ADDRESS_REFUSED);
    refused(length, 1, ADDRESS_REFUSED);
    refused(UINT64_MAX, 0, ADDRESS_REFUSED);
    for (unsigned i = 0; i < sizeof far / sizeof *far; i++) {
        refused(255, UINT64_MAX - far[i], ADDRESS_REFUSED);
        refused(256, UINT64_MAX - far[i], ADDRESS_REFUSED);
        refused(UINT64_MAX - far[i], far[i] + 1, ADDRESS_REFUSED);
        refused(UINT64_MAX - far[i], far[i] + 2, ADDRESS_REFUSED);
        refused(far[i] << 1 | 1, UINT64_MAX, ADDRESS_REFUSED);
    }
}

/* Not entered, all is of the cells: ADDRESS where it leaves them, else BUSY; and so in a suspension. */
static void outside(void)
{
    for (int suspended = 0; suspended < 2; suspended++) {
        fresh();
        if (suspended) {
            SAME(erase(k5l_first_word(part, 39), 0x30), K5L_DONE);
            refused(0, 1, BUSY_REFUSED);
            SAME(bus_write(0, 0xB0), K5L_DONE);
        }
        refused(0, 1, BUSY_REFUSED);
        refused(0, 0, BUSY_REFUSED);
        refused(0, 257, BUSY_REFUSED);
        refused(0, length, BUSY_REFUSED);
        refused(0, length + 1, ADDRESS_REFUSED);
        refused(length - 1, 1, BUSY_REFUSED);
        refused(length - 1, 2, ADDRESS_REFUSED);
        refused(length, 0, ADDRESS_REFUSED);
        refused(1, UINT64_MAX, ADDRESS_REFUSED);
    }
}

/* Entered and a program runs, of either array: ADDRESS goes by the array, then it is BUSY; and it is back when the program ends. */
static void while_it_runs(void)
{
    for (uint64_t at = 255; at <= 256; at++) {
        fresh_inside();
        SAME(program(at, 0), K5L_DONE);
        for (int passed = 0; passed < 6; passed++) {
            refused(0, 256, BUSY_REFUSED);
            refused(0, 257, ADDRESS_REFUSED);
            refused(256, 1, BUSY_REFUSED);
            refused(length, 0, ADDRESS_REFUSED);
            SAME(pass(1), K5L_DONE);
        }
        handed_back(0, 256, otp);
        SAME(leave_otp(), K5L_DONE);
        refused(0, 256, BUSY_REFUSED);
    }
}

/* Commands that are half entered, and readings, do not hinder it and are not hindered. */
static void between_writes(void)
{
    static const uint16_t thirds[] = { 0xA0, 0x48, 0x60, 0x90, 0x58 };

    for (unsigned i = 0; i < sizeof thirds / sizeof *thirds; i++) {
        fresh_inside();
        SAME(bus_write(0x555, 0xAA), K5L_DONE);
        handed_back(128, 8, otp + 128);
        SAME(bus_write(0x2AA, 0x55), K5L_DONE);
        handed_back(300, 8, cells + 300);
        SAME(bus_write(0x555, thirds[i]), K5L_DONE);
        handed_back(0, 256, otp);
        refused(0, 257, ADDRESS_REFUSED);
    }
    fresh_inside();
    SAME(enter(0x60), K5L_DONE);
    SAME(bus_write(0x1A, 0x68), K5L_DONE);
    handed_back(0, 256, otp);
    SAME(bus_write(0x1A, 0x48), K5L_DONE);
    SAME(record[OTP_LOCK], 1);
    SAME(enter(0x60), K5L_DONE);
    SAME(bus_write(0x1A, 0x48), K5L_DONE);
    handed_back(256, 1, cells + 256);
    SAME(bus_read(0), 1);
}

/* In place: what a later program changes is changed there. */
static void in_place(void)
{
    const uint16_t *serial;

    fresh_inside();
    serial = k5l_range_words(range(K5L_OTP_CUSTOMER, 4), cells, otp);
    HOLDS(serial == otp + 128);
    SAME(program(130, 0x1234), K5L_DONE);
    SAME(serial[2], 0xFFFF);
    SAME(pass(6), K5L_DONE);
    SAME(serial[2], 0x1234);
    SAME(cut(NULL, 0), K5L_DONE);
    SAME(serial[2], 0x1234);
}

/* STATE, then CELLS, of the cells and of the one-time words alike, before all else. */
static void lent_wrongly(void)
{
    static const size_t lengths[] = { 0, 1, 128, 255, 257, OTP_ROOM };

    fresh_inside();
    for (unsigned i = 0; i < sizeof lengths / sizeof *lengths; i++) {
        otp_length = lengths[i];
        refused(0, 1, (uint64_t)K5L_CELLS << 33);
        refused(UINT64_MAX, UINT64_MAX, (uint64_t)K5L_CELLS << 33);
        CHANGES_NOTHING(bus_read(0), (uint64_t)K5L_CELLS << 16);
        CHANGES_NOTHING(bus_read(length), (uint64_t)K5L_CELLS << 16);
        CHANGES_NOTHING(bus_write(0, 0xF0), K5L_CELLS);
        CHANGES_NOTHING(pass(UINT64_MAX), K5L_CELLS);
        CHANGES_NOTHING(cut(NULL, 0), K5L_CELLS);
        record[OTP_LOCK] = 2;
        refused(0, 1, (uint64_t)K5L_STATE << 33);
        CHANGES_NOTHING(pass(0), K5L_STATE);
        record[OTP_LOCK] = 0;
    }
    otp_length = K5L_OTP_WORDS;
    length--;
    refused(0, 1, (uint64_t)K5L_CELLS << 33);
    length++;
    handed_back(0, 1, otp);
}

int main(void)
{
    for (uint64_t which = K5L_SMALL; which <= K5L_FULL; which++) {
        take_part(which);
        which_words();
        which_are_none();
        outside();
        while_it_runs();
        between_writes();
        in_place();
        lent_wrongly();
    }
    return check_report("onetime_range");
}
