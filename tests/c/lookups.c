/*
 * The lookups of both parts, by each part's own functions and by its number: every block's first and last word, the addresses
 * of bench row a, the edges of the banks, the word count and the largest number. What is expected is worked out here from the
 * paper's table of six runs (document 01, "The die and its small twin"), not from the code.
 */
#include "k5l2931cam.h"

#include <inttypes.h>
#include <stdio.h>

struct run { uint64_t first, last, bank, words, word; };

/* The paper's table, for the die. */
static const struct run table[6] = {
    { 0, 7, 0, 4096, 0 },
    { 8, 38, 0, 32768, 32768 },
    { 39, 134, 1, 32768, 1048576 },
    { 135, 230, 2, 32768, 4194304 },
    { 231, 261, 3, 32768, 7340032 },
    { 262, 269, 3, 4096, 8355840 },
};

struct part {
    const char *name;
    uint64_t number, divisor, words;
    uint64_t (*refusal)(uint64_t), (*block)(uint64_t), (*bank)(uint64_t);
};

static unsigned long asked, wrong;

/* By the part's number there is no refusal: K5L_NONE stands for it. */
static void expect_by_number(uint64_t part, uint64_t address, uint64_t block, uint64_t bank)
{
    uint64_t b = k5l_block_of(part, address), k = k5l_bank_of(part, address);

    asked++;
    if (b == block && k == bank)
        return;
    wrong++;
    printf("part %" PRIu64 ": address %" PRIu64 ": block %" PRIu64 ", bank %" PRIu64 "; expected %" PRIu64 ", %" PRIu64 "\n",
           part, address, b, k, block, bank);
}

static void expect(const struct part *p, uint64_t address, uint64_t refusal, uint64_t block, uint64_t bank)
{
    uint64_t r = p->refusal(address), b = p->block(address), k = p->bank(address);

    expect_by_number(p->number, address, refusal == K5L_DONE ? block : K5L_NONE, refusal == K5L_DONE ? bank : K5L_NONE);
    asked++;
    if (r == refusal && b == block && k == bank)
        return;
    wrong++;
    printf("%s: address %" PRIu64 ": refusal %" PRIu64 ", block %" PRIu64 ", bank %" PRIu64 "; expected %" PRIu64
           ", %" PRIu64 ", %" PRIu64 "\n",
           p->name, address, r, b, k, refusal, block, bank);
}

/* Every block's first, second, last but one and last word; the blocks must fill the part. */
static void blocks(const struct part *p)
{
    uint64_t next = 0;

    for (int i = 0; i < 6; i++) {
        uint64_t size = table[i].words / p->divisor;

        if (next != table[i].word / p->divisor) {
            wrong++;
            printf("%s: run %d starts at %" PRIu64 "\n", p->name, i, next);
        }
        for (uint64_t b = table[i].first; b <= table[i].last; b++) {
            expect(p, next, K5L_DONE, b, table[i].bank);
            expect(p, next + 1, K5L_DONE, b, table[i].bank);
            expect(p, next + size - 2, K5L_DONE, b, table[i].bank);
            expect(p, next + size - 1, K5L_DONE, b, table[i].bank);
            next += size;
        }
    }
    if (next != p->words) {
        wrong++;
        printf("%s: the blocks end at %" PRIu64 "\n", p->name, next);
    }
}

/* Past the part, up to the largest number. */
static void outside(const struct part *p)
{
    static const uint64_t far[] = { 0, 1, 7, 8, 4095, 1000000 };

    for (unsigned i = 0; i < sizeof far / sizeof *far; i++)
        expect(p, p->words + far[i], K5L_ADDRESS, 0, 0);
    for (int bit = 24; bit < 64; bit++)
        expect(p, (uint64_t)1 << bit, K5L_ADDRESS, 0, 0);
    expect(p, UINT64_MAX, K5L_ADDRESS, 0, 0);
}

/* Bench row a, on the small part. */
static void row_a(const struct part *p)
{
    static const uint64_t at[] = { 7, 8, 63, 64, 2047, 2048, 8191, 8192, 16319, 16320, 16383 };
    static const uint64_t block[] = { 0, 1, 7, 8, 38, 39, 134, 135, 261, 262, 269 };
    static const uint64_t bank[] = { 0, 0, 0, 0, 0, 1, 1, 2, 3, 3, 3 };

    for (unsigned i = 0; i < sizeof at / sizeof *at; i++)
        expect(p, at[i], K5L_DONE, block[i], bank[i]);
    expect(p, 16384, K5L_ADDRESS, 0, 0);
}

/* There are two parts. */
static void no_such_part(void)
{
    static const uint64_t none[] = { 2, 3, 4294967296, 4294967297, (uint64_t)1 << 63, UINT64_MAX };
    static const uint64_t at[] = { 0, 8, 16383, 16384, UINT64_MAX };

    for (unsigned i = 0; i < sizeof none / sizeof *none; i++)
        for (unsigned k = 0; k < sizeof at / sizeof *at; k++)
            expect_by_number(none[i], at[k], K5L_NONE, K5L_NONE);
}

int main(void)
{
    const struct part small = { "small", K5L_SMALL, 512, K5L_SMALL_WORDS, k5l_small_refusal, k5l_small_block, k5l_small_bank };
    const struct part full = { "full", K5L_FULL, 1, K5L_FULL_WORDS, k5l_full_refusal, k5l_full_block, k5l_full_bank };

    blocks(&small);
    outside(&small);
    row_a(&small);
    blocks(&full);
    outside(&full);
    no_such_part();
    printf("lookups: %lu addresses asked, %lu wrong\n", asked, wrong);
    return wrong != 0;
}
