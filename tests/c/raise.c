/*
 * Programs that cannot work (document 02, request 6), over the header: a 1 is asked for where the word has a 0. Each rule by hand on
 * both parts; and a long random run, all along which every word whose program was taken and finished, and that nothing has
 * befallen since, holds that program's data.
 */
#include "dice.h"
#include "driver.h"

#include <string.h>

/* A program into the word is refused so, the register is at ground, and all else is as it was. */
static void refused(uint64_t address, uint16_t word, uint64_t refusal)
{
    SAME(enter(0xA0), K5L_DONE);
    save();
    SAME(bus_write(address, word), refusal);
    SAME(record[COMMAND], GROUND);
    record[COMMAND] = AFTER_A0;
    HOLDS(is_saved());
    record[COMMAND] = GROUND;
}

static void finished(uint64_t address, uint16_t word)
{
    uint64_t clock = clock_now(), charge = charge_now();

    SAME(program(address, word), K5L_DONE);
    SAME(pass(6), K5L_DONE);
    SAME(cells[address], word);
    SAME(clock_now(), clock + 6);
    SAME(charge_now(), charge + 6 * 17000);
}

/* Each bit by itself, both ways round; what the word holds already; FFFFH. */
static void bits(void)
{
    fresh();
    for (unsigned bit = 0; bit < 16; bit++) {
        uint16_t one = (uint16_t)(1u << bit), rest = (uint16_t)~one;

        cells[100] = rest;
        refused(100, one, K5L_RAISE);
        refused(100, 0xFFFF, K5L_RAISE);
        finished(100, rest);
        cells[100] = one;
        refused(100, rest, K5L_RAISE);
        finished(100, one);
        finished(100, 0);
        refused(100, one, K5L_RAISE);
    }
    finished(101, 0xFFFF);
}

/* PROTECTED and SUSPENDED come first, and a suspension stands. */
static void order(void)
{
    uint64_t listed = k5l_first_word(part, 8), free_word = k5l_first_word(part, 9), kept = k5l_first_word(part, 10);

    fresh();
    cells[listed] = cells[free_word] = cells[kept] = 0;
    SAME(set_dyb(kept, 1), K5L_DONE);
    refused(kept, 0x1234, K5L_PROTECTED);
    SAME(erase(listed, 0x30), K5L_DONE);
    SAME(pass(1050), K5L_DONE);
    suspend();
    refused(kept, 0x1234, K5L_PROTECTED);
    refused(listed, 0x1234, K5L_SUSPENDED);
    refused(free_word, 0x1234, K5L_RAISE);
    SAME(record[OPERATION], SUSPENDED_ERASE);
    SAME(bus_read(free_word), 0);
    SAME(bus_write(0, 0x30), K5L_DONE);
    SAME(pass(699000), K5L_DONE);
    SAME(cells[listed], 0xFFFF);
    SAME(record[OPERATION], NO_OPERATION);
    finished(listed, 0x1234);
    refused(listed, 0x1235, K5L_RAISE);
    SAME(erase(listed, 0x30), K5L_DONE);
    SAME(pass(700050), K5L_DONE);
    finished(listed, 0x1235);
}

/* It is judged at the data write alone: what the emulator does to the cells meanwhile ends as old AND data, and so does a program that
 * was stored; a cut goes by what they hold then. */
static void once(void)
{
    static const uint16_t debris[] = { 0xFF00 };

    fresh();
    SAME(program(100, 0x00FF), K5L_DONE);
    SAME(pass(5), K5L_DONE);
    cells[100] = 0x1234;
    SAME(pass(1), K5L_DONE);
    SAME(cells[100], 0x0034);
    fresh();
    SAME(program(100, 0x00FF), K5L_DONE);
    SAME(pass(1), K5L_DONE);
    cells[100] = 0x1234;
    SAME(cut(debris, 1), K5L_DONE);
    SAME(cells[100], 0x1234 & (0x00FF | 0xFF00));
    fresh();
    cells[100] = 0x1234;
    SAME(enter(0xA0), K5L_DONE);
    cells[100] = 0xFFFF;
    SAME(bus_write(100, 0x00FF), K5L_DONE);
}

/* What each word must hold, where a finished program tells. */
static uint16_t told[K5L_SMALL_WORDS];
static bool is_told[K5L_SMALL_WORDS];

static void remember(uint64_t address, uint16_t word)
{
    told[address] = word;
    is_told[address] = true;
}

static void forget(uint64_t block)
{
    memset(is_told + k5l_first_word(part, block), 0, k5l_block_words(part, block) * sizeof *is_told);
}

static void keeps_told(void)
{
    for (size_t i = 0; i < length; i++)
        if (is_told[i])
            SAME(cells[i], told[i]);
}

/* One program, which may be refused, cut off at any of its microseconds, or finished; and a cut that hits nothing. */
static void try_program(uint64_t address, uint16_t word)
{
    uint16_t debris = (uint16_t)dice();
    bool works = (cells[address] & word) == word;

    SAME(program(address, word), works ? K5L_DONE : K5L_RAISE);
    SAME(pass(below(7)), K5L_DONE);
    if (!once_in(20))
        SAME(pass(6), K5L_DONE);
    if (works && record[OPERATION] == NO_OPERATION)
        remember(address, word);
    if (exposed_word() != K5L_NONE)
        is_told[exposed_word()] = false;
    if (record[OPERATION] != NO_OPERATION || once_in(20))
        SAME(cut(&debris, 1), K5L_DONE);
}

static void long_run(void)
{
    fresh();
    memset(is_told, 0, sizeof is_told);
    for (unsigned step = 0; step < 20000; step++) {
        uint64_t address = below(256) * 64 + below(4);

        if (once_in(10)) {
            SAME(erase(address, 0x30), K5L_DONE);
            SAME(pass(700050), K5L_DONE);
            forget(k5l_block_of(part, address));
        } else
            try_program(address, once_in(4) ? (uint16_t)dice() : (uint16_t)(cells[address] & dice()));
        if (step % 50 == 0)
            keeps_told();
    }
    keeps_told();
}

int main(void)
{
    take_part(K5L_SMALL);
    bits();
    order();
    once();
    long_run();
    take_part(K5L_FULL);
    bits();
    order();
    once();
    return check_report("raise");
}
