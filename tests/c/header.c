/*
 * What the header has besides the library's functions: the refusals' names, the version, numbers that the compiler knows, and the
 * device in one piece, each of whose calls is held to the function that it stands for.
 */
#include "check.h"
#include "k5l2931cam.h"

#include <stdio.h>
#include <string.h>

#if K5L_NONE != 18446744073709551615u || K5L_VERSION_MAJOR < 3
#error "K5L_NONE and the version are no numbers here"
#endif

static const char *block_or_none(uint64_t block)
{
    switch (block) {
    case K5L_NONE: return "none";
    default: return "a block";
    }
}

static void numbers(void)
{
    char version[32];

    snprintf(version, sizeof version, "%d.%d.%d", K5L_VERSION_MAJOR, K5L_VERSION_MINOR, K5L_VERSION_PATCH);
    SAME(strcmp(version, K5L_VERSION), 0);
    SAME(strcmp(block_or_none(K5L_NONE), "none"), 0);
    SAME(strcmp(block_or_none(269), "a block"), 0);
    SAME(K5L_SMALL_DEBRIS, k5l_block_words(K5L_SMALL, 8) + 1);
    SAME(K5L_FULL_DEBRIS, k5l_block_words(K5L_FULL, 8) + 1);
    SAME(K5L_OTP_WORDS, 256);
    SAME(K5L_OTP_CUSTOMER, 128);
    SAME(K5L_MAIN, 0);
    SAME(K5L_ONE_TIME, 1);
}

static void names(void)
{
    static const char *const expected[] = { "DONE", "STATE", "CELLS", "ADDRESS", "CLOCK", "DEBRIS", "BUSY", "SEQUENCE", "BANK",
                                            "PROTECTED", "SUSPENDED", "LOCKED", "?", "OTPLOCKED", "RAISE", "?" };

    for (unsigned i = 0; i < sizeof expected / sizeof *expected; i++)
        SAME(strcmp(k5l_refusal_name(i), expected[i]), 0);
    SAME(strcmp(k5l_refusal_name(K5L_NONE), "?"), 0);
    SAME(strcmp(k5l_refusal_name((uint64_t)1 << 32), "?"), 0);
}

/* The answer of a range taken apart: the refusal above bit 33, the array in bit 32, the first word below. */
static void parts_of_a_range(void)
{
    static const uint16_t cells[2], otp[2];
    static const uint64_t refused[] = { K5L_STATE, K5L_CELLS, K5L_ADDRESS, K5L_BUSY, K5L_RAISE };
    const uint64_t last = K5L_FULL_WORDS - 1;

    SAME(k5l_range_refusal((uint64_t)1 << 32 | 255) | k5l_range_refusal(last), K5L_DONE);
    SAME(k5l_range_array((uint64_t)1 << 32 | 255), K5L_ONE_TIME);
    SAME(k5l_range_array(last), K5L_MAIN);
    SAME(k5l_range_first((uint64_t)1 << 32 | 255), 255);
    SAME(k5l_range_first(last), last);
    HOLDS(k5l_range_words(1, cells, otp) == cells + 1);
    HOLDS(k5l_range_words((uint64_t)1 << 32 | 1, cells, otp) == otp + 1);
    for (unsigned i = 0; i < sizeof refused / sizeof *refused; i++) {
        SAME(k5l_range_refusal(refused[i] << 33), refused[i]);
        SAME(k5l_range_array(refused[i] << 33) | k5l_range_first(refused[i] << 33), 0);
        HOLDS(k5l_range_words(refused[i] << 33, cells, otp) == NULL);
    }
}

/* The device in one piece, and one in pieces. */
static struct k5l_device whole;
static uint16_t whole_cells[K5L_SMALL_WORDS], cells[K5L_SMALL_WORDS], whole_otp[K5L_OTP_WORDS], otp[K5L_OTP_WORDS];
static uint64_t record[K5L_RECORD_WORDS];

#define ASK(question) SAME(k5l_device_##question(&whole), k5l_##question(K5L_SMALL, record, K5L_RECORD_WORDS))

static void same_devices(void)
{
    SAME(memcmp(whole.record, record, sizeof record), 0);
    SAME(memcmp(whole_cells, cells, sizeof cells), 0);
    SAME(memcmp(whole_otp, otp, sizeof otp), 0);
    ASK(sound);
    ASK(clock);
    ASK(charge);
    ASK(exposed_block);
    ASK(exposed_word);
    ASK(exposed_array);
    ASK(debris_needed);
    ASK(until_end);
    ASK(until_change);
    ASK(changing_block);
    ASK(changing_word);
    ASK(changing_array);
    for (uint64_t bank = 0; bank < 5; bank++)
        SAME(k5l_device_reads_cells(&whole, bank), k5l_reads_cells(K5L_SMALL, record, K5L_RECORD_WORDS, bank));
}

static void read_both(uint64_t address)
{
    SAME(k5l_device_read(&whole, address),
         k5l_read(K5L_SMALL, record, K5L_RECORD_WORDS, cells, K5L_SMALL_WORDS, otp, K5L_OTP_WORDS, address));
    same_devices();
}

static void write_both(uint64_t address, uint16_t word)
{
    SAME(k5l_device_write(&whole, address, word),
         k5l_write(K5L_SMALL, record, K5L_RECORD_WORDS, cells, K5L_SMALL_WORDS, otp, K5L_OTP_WORDS, address, word));
    same_devices();
}

static void wait_both(uint64_t microseconds)
{
    SAME(k5l_device_wait(&whole, microseconds),
         k5l_wait(K5L_SMALL, record, K5L_RECORD_WORDS, cells, K5L_SMALL_WORDS, otp, K5L_OTP_WORDS, microseconds));
    same_devices();
}

static void cut_both(size_t words)
{
    static const uint16_t debris[K5L_SMALL_DEBRIS] = { 1, 2, 3 };

    SAME(k5l_device_cut(&whole, debris, words),
         k5l_cut(K5L_SMALL, record, K5L_RECORD_WORDS, cells, K5L_SMALL_WORDS, otp, K5L_OTP_WORDS, debris, words));
    same_devices();
}

static void range_both(uint64_t first, uint64_t count)
{
    SAME(k5l_device_range(&whole, first, count),
         k5l_range(K5L_SMALL, record, K5L_RECORD_WORDS, cells, K5L_SMALL_WORDS, otp, K5L_OTP_WORDS, first, count));
    same_devices();
}

static void command_both(uint16_t third)
{
    write_both(0x555, 0xAA);
    write_both(0x2AA, 0x55);
    write_both(0x555, third);
}

/* A program that cannot work; an erase, its recovery, a program inside its suspension, and a cut: every question has an answer that is
 * not none, and one that is. */
static void in_one_piece(void)
{
    SAME(k5l_device_fresh(&whole, K5L_SMALL, whole_cells, K5L_SMALL_WORDS, whole_otp, K5L_OTP_WORDS), K5L_DONE);
    SAME(k5l_fresh(record, K5L_RECORD_WORDS), K5L_DONE);
    cells[2048] = whole_cells[2048] = 0xFFFF;
    same_devices();
    command_both(0xA0);
    write_both(2049, 0x1234);
    command_both(0x80);
    write_both(0x555, 0xAA);
    write_both(0x2AA, 0x55);
    write_both(64, 0x30);
    read_both(64);
    wait_both(1000);
    read_both(64);
    write_both(64, 0xB0);
    read_both(64);
    wait_both(13);
    write_both(64, 0x30);
    wait_both(7);
    command_both(0xA0);
    write_both(2048, 0x1234);
    wait_both(3);
    read_both(K5L_SMALL_WORDS);
    wait_both(UINT64_MAX);
    cut_both(K5L_SMALL_DEBRIS - 1);
    HOLDS(k5l_device_debris_needed(&whole) == K5L_SMALL_DEBRIS && k5l_device_exposed_word(&whole) == 2048);
    cut_both(K5L_SMALL_DEBRIS);
    read_both(65);
    SAME(cells[65], 2);
}

/* A range that is BUSY and two that are not, a one-time word programmed, another cut, and the lock. */
static void one_time_in_one_piece(void)
{
    otp[129] = whole_otp[129] = otp[200] = whole_otp[200] = 0xFFFF;
    range_both(128, 2);
    command_both(0x88);
    range_both(128, 2);
    range_both(256, 2);
    command_both(0xA0);
    write_both(129, 0x1234);
    HOLDS(k5l_device_changing_array(&whole) == K5L_ONE_TIME && k5l_device_exposed_array(&whole) == K5L_NONE);
    wait_both(6);
    read_both(129);
    SAME(whole_otp[129], 0x1234);
    HOLDS(k5l_range_words(k5l_device_range(&whole, 129, 1), whole.cells, whole.otp) == whole_otp + 129);
    command_both(0xA0);
    write_both(200, 0x5678);
    wait_both(1);
    HOLDS(k5l_device_exposed_array(&whole) == K5L_ONE_TIME && k5l_device_exposed_word(&whole) == 200);
    cut_both(1);
    SAME(whole_otp[200], 0x5679);
    command_both(0x88);
    command_both(0x60);
    write_both(0x1A, 0x68);
    write_both(0x1A, 0x48);
    command_both(0xA0);
    write_both(129, 0);
}

/* What is lent wrongly is said at once. */
static void lent_wrongly(void)
{
    SAME(k5l_device_fresh(&whole, 2, whole_cells, K5L_SMALL_WORDS, whole_otp, K5L_OTP_WORDS), K5L_STATE);
    SAME(k5l_device_fresh(&whole, K5L_SMALL, whole_cells, K5L_SMALL_WORDS - 1, whole_otp, K5L_OTP_WORDS), K5L_CELLS);
    SAME(k5l_device_fresh(&whole, K5L_FULL, whole_cells, K5L_SMALL_WORDS, whole_otp, K5L_OTP_WORDS), K5L_CELLS);
    SAME(k5l_device_fresh(&whole, K5L_SMALL, whole_cells, K5L_SMALL_WORDS, whole_otp, K5L_OTP_WORDS - 1), K5L_CELLS);
    SAME(k5l_device_fresh(&whole, K5L_SMALL, whole_cells, K5L_SMALL_WORDS, NULL, 0), K5L_CELLS);
}

int main(void)
{
    numbers();
    names();
    parts_of_a_range();
    in_one_piece();
    one_time_in_one_piece();
    lent_wrongly();
    return check_report("header");
}
