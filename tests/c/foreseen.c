/*
 * What the header foretells, held to what then comes: up to the microsecond told nothing changes, at it just what is told, and at
 * the end nothing runs. Figures are written out by hand from document 01, Time, charge and the cells, and The cut.
 */
#include "driver.h"

#include <string.h>

/* What is foretold at a moment. */
struct ahead { uint64_t end, change, block, word; };

static struct ahead ask(void) { return (struct ahead){ until_end(), until_change(), changing_block(), changing_word() }; }

static void expect(uint64_t end, uint64_t change, uint64_t block, uint64_t word)
{
    SAME(until_end(), end);
    SAME(until_change(), change);
    SAME(changing_block(), block);
    SAME(changing_word(), word);
}

static void expect_nothing(void) { expect(0, K5L_NONE, K5L_NONE, K5L_NONE); }

static bool runs(void)
{
    return record[OPERATION] != NO_OPERATION && record[OPERATION] != SUSPENDED_PROGRAM && record[OPERATION] != SUSPENDED_ERASE;
}

/* A moment that can be come back to. */
static uint64_t record_then[K5L_RECORD_WORDS];
static uint16_t cells_then[K5L_SMALL_WORDS];

static void keep(void)
{
    memcpy(record_then, record, sizeof record);
    memcpy(cells_then, cells, sizeof cells_then);
}

static void back(void)
{
    memcpy(record, record_then, sizeof record);
    memcpy(cells, cells_then, sizeof cells_then);
}

/* A fresh device none of whose cells is erased, or without a bit to clear. */
static void used(void)
{
    fresh();
    for (uint64_t at = 0; at < length; at++)
        cells[at] = (uint16_t)((at * 40503 & 0x7FFE) | 1);
}

/* Two reads in each block, and what they give. */
static void look(uint64_t words[2 * K5L_BLOCKS])
{
    for (unsigned i = 0; i < 2 * K5L_BLOCKS; i++)
        words[i] = bus_read(k5l_first_word(part, i / 2) + i % 2);
}

/* So long before the change: no cell is another, reads give what they gave, and what is foretold is nearer by so much. */
static void nothing_yet(struct ahead then, uint64_t passed)
{
    uint64_t words_then[2 * K5L_BLOCKS], words[2 * K5L_BLOCKS];

    back();
    look(words_then);
    back();
    SAME(pass(passed), K5L_DONE);
    expect(then.end - passed, then.change - passed, then.block, then.word);
    HOLDS(runs());
    SAME(memcmp(cells, cells_then, sizeof cells_then), 0);
    SAME(record[OPERATION], record_then[OPERATION]);
    SAME(record[HAND], record_then[HAND]);
    look(words);
    SAME(memcmp(words, words_then, sizeof words), 0);
}

/* At the change: the block told is erased, or the word told programmed, and no other cell is touched. */
static void just_that(struct ahead then)
{
    uint64_t first = then.block != K5L_NONE ? k5l_first_word(part, then.block) : length;
    uint64_t words = then.block != K5L_NONE ? k5l_block_words(part, then.block) : 0;

    back();
    SAME(pass(then.change), K5L_DONE);
    HOLDS(record[OPERATION] != record_then[OPERATION] || record[HAND] != record_then[HAND]);
    for (uint64_t at = 0; at < length; at++)
        SAME(cells[at], at - first < words   ? 0xFFFF
                        : at == then.word    ? cells_then[at] & record_then[DATA]
                                             : cells_then[at]);
    HOLDS(then.word == K5L_NONE || cells[then.word] != cells_then[then.word]);
    SAME(until_end(), then.end - then.change);
}

/* Up to the end the device runs, and not a microsecond longer. */
static void just_so_long(struct ahead then)
{
    back();
    SAME(pass(then.end - 1), K5L_DONE);
    HOLDS(runs());
    SAME(until_end(), 1);
    SAME(pass(1), K5L_DONE);
    HOLDS(!runs());
    expect_nothing();
}

/* From change to change up to the end; each of a short time's microseconds, and some of a long one's. */
static void follow(void)
{
    for (struct ahead then = ask(); then.change != K5L_NONE; then = ask()) {
        uint64_t some[] = { 0, then.change / 2, then.change - 1 };

        if (!HOLDS(runs() && then.change >= 1 && then.change <= then.end))
            return;
        HOLDS(then.block == K5L_NONE || then.word == K5L_NONE);
        keep();
        for (uint64_t passed = 0; passed < then.change && then.change <= 50; passed++)
            nothing_yet(then, passed);
        for (unsigned i = 0; i < sizeof some / sizeof *some; i++)
            nothing_yet(then, some[i]);
        just_so_long(then);
        just_that(then);
    }
    HOLDS(!runs());
    expect_nothing();
}

/* What can run, on the small part: the questions at its start, then all that comes of it. */
static void programs(void)
{
    used();
    expect_nothing();
    SAME(program(100, cells[100] & 0x00F0), K5L_DONE);
    expect(6, 6, K5L_NONE, 100);
    follow();
    used();
    SAME(erase(64, 0x30), K5L_DONE);
    SAME(pass(60), K5L_DONE);
    SAME(bus_write(0, 0xB0), K5L_DONE);
    expect(20, 20, K5L_NONE, K5L_NONE);
    follow();
    SAME(program(2048, cells[2048] & 0x0F0E), K5L_DONE);
    expect(6, 6, K5L_NONE, 2048);
    follow();
    SAME(record[OPERATION], SUSPENDED_ERASE);
}

static void block_erases(void)
{
    used();
    SAME(erase(192, 0x30), K5L_DONE);
    expect(700050, 50, K5L_NONE, K5L_NONE);
    SAME(pass(20), K5L_DONE);
    expect(700030, 30, K5L_NONE, K5L_NONE);
    SAME(bus_write(64, 0x30), K5L_DONE);
    SAME(bus_write(7, 0x30), K5L_DONE);
    expect(3 * 700000 + 50, 50, K5L_NONE, K5L_NONE);
    follow();
    used();
    SAME(erase(64, 0x30), K5L_DONE);
    SAME(bus_write(128, 0x30), K5L_DONE);
    SAME(pass(50 + 700000 + 100000), K5L_DONE);
    expect(600000, 600000, 9, K5L_NONE);
    SAME(bus_write(0, 0xB0), K5L_DONE);
    SAME(pass(13), K5L_DONE);
    expect(7, 7, K5L_NONE, K5L_NONE);
    SAME(pass(1000000), K5L_DONE);
    expect_nothing();
    SAME(bus_write(0, 0x30), K5L_DONE);
    expect(600000, 600000, 9, K5L_NONE);
    follow();
}

/* Of three blocks, in three banks. */
static void chip_erase(void)
{
    used();
    for (uint64_t block = 0; block < K5L_BLOCKS; block++)
        if (block != 7 && block != 135 && block != 269)
            SAME(set_dyb(k5l_first_word(part, block), 1), K5L_DONE);
    SAME(erase(0x555, 0x10), K5L_DONE);
    expect(1500000, 500000, 7, K5L_NONE);
    follow();
}

/* A whole block erase, microsecond by microsecond. */
static void every_microsecond(void)
{
    used();
    SAME(erase(64, 0x30), K5L_DONE);
    for (uint64_t passed = 0; passed < 700050; passed++) {
        expect(700050 - passed, passed < 50 ? 50 - passed : 700050 - passed, passed < 50 ? K5L_NONE : 8, K5L_NONE);
        SAME(cells[64] == 0xFFFF, 0);
        SAME(pass(1), K5L_DONE);
    }
    SAME(cells[64], 0xFFFF);
    expect_nothing();
}

struct moment { uint64_t passed, end, change, block; };

static void expect_moments(const struct moment *moments, size_t count)
{
    uint64_t start = clock_now();

    for (size_t i = 0; i < count; i++) {
        SAME(pass(start + moments[i].passed - clock_now()), K5L_DONE);
        expect(moments[i].end, moments[i].change, moments[i].block, K5L_NONE);
    }
}

#define EXPECT_MOMENTS(moments) expect_moments((moments), sizeof(moments) / sizeof *(moments))

/* All 270 blocks, then the 96 of bank 1B, past 2^32 microseconds of clock. */
static void long_erases(void)
{
    static const struct moment chip[] = {
        { 0, 135000000, 500000, 0 },       { 1, 134999999, 499999, 0 },    { 499999, 134500001, 1, 0 },
        { 500000, 134500000, 500000, 1 },  { 67250000, 67750000, 250000, 134 }, { 134500000, 500000, 500000, 269 },
        { 134999999, 1, 1, 269 },          { 135000000, 0, K5L_NONE, K5L_NONE },
    };
    static const struct moment bank[] = {
        { 0, 67200050, 50, K5L_NONE },     { 49, 67200001, 1, K5L_NONE },  { 50, 67200000, 700000, 39 },
        { 33600050, 33600000, 700000, 87 }, { 67200049, 1, 1, 134 },       { 67200050, 0, K5L_NONE, K5L_NONE },
    };

    fresh();
    SAME(pass(4294967296 + 5), K5L_DONE);
    SAME(erase(0x555, 0x10), K5L_DONE);
    EXPECT_MOMENTS(chip);
    SAME(erase(k5l_first_word(part, 39), 0x30), K5L_DONE);
    for (uint64_t block = 40; block <= 134; block++)
        SAME(bus_write(k5l_first_word(part, block), 0x30), K5L_DONE);
    EXPECT_MOMENTS(bank);
    SAME(clock_now(), 4294967296 + 5 + 135000000 + 67200050);
}

/* Before the clock's limit a program is foretold like any other, and the wait for it is refused. */
static void at_the_limit(void)
{
    fresh();
    SAME(pass(CLOCK_LIMIT - 3), K5L_DONE);
    SAME(program(100, 0), K5L_DONE);
    expect(6, 6, K5L_NONE, 100);
    CHANGES_NOTHING(pass(6), K5L_CLOCK);
    SAME(pass(3), K5L_DONE);
    expect(3, 3, K5L_NONE, 100);
    record[CLOCK]++;
    expect(K5L_NONE, K5L_NONE, K5L_NONE, K5L_NONE);
    SAME(debris_needed(), K5L_NONE);
}

/* A cut with a word less than is needed is refused, one with as many taken. */
static void needs(uint64_t words)
{
    static const uint16_t debris[K5L_FULL_DEBRIS];

    SAME(debris_needed(), words);
    if (words > 0)
        CHANGES_NOTHING(cut(debris, words - 1), K5L_DEBRIS);
    SAME(cut(debris, words), K5L_DONE);
    SAME(debris_needed(), 0);
}

/* A block in hand, its recovery, then a program inside its suspension: the most that can be needed is a large block and a word. */
static void debris_of(uint64_t block, uint64_t most)
{
    for (int what = 0; what < 7; what++) {
        fresh();
        SAME(debris_needed(), 0);
        SAME(erase(k5l_first_word(part, block), 0x30), K5L_DONE);
        SAME(pass(what == 0 ? 49 : what == 1 ? 50 : 51), K5L_DONE);
        if (what > 2)
            SAME(bus_write(0, 0xB0), K5L_DONE);
        SAME(pass(what > 3 ? 20 : 0), K5L_DONE);
        if (what > 4)
            SAME(program(k5l_first_word(part, 100), 0), K5L_DONE);
        SAME(pass(what > 5 ? 1 : 0), K5L_DONE);
        needs(what < 2 ? 0 : what < 6 ? most - 1 : most);
    }
}

int main(void)
{
    take_part(K5L_SMALL);
    programs();
    block_erases();
    chip_erase();
    every_microsecond();
    at_the_limit();
    long_erases();
    debris_of(8, K5L_SMALL_DEBRIS);
    debris_of(269, 9);
    take_part(K5L_FULL);
    long_erases();
    debris_of(8, K5L_FULL_DEBRIS);
    debris_of(0, 4097);
    return check_report("foreseen");
}
