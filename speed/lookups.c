/*
 * One lookup of the full part, many times over, for who counts instructions:
 *
 *     lookups list            the addresses, one in each of the paper's six runs and one past the part
 *     lookups ASKED PLACE N   N lookups of an address, by its place in that list; ASKED: nothing, refusal, block or bank
 */
#include "k5l2931cam.h"

#include <inttypes.h>
#include <stdio.h>
#include <stdlib.h>
#include <string.h>

/* `answers` are those of `lookups`, in their order: what is measured is what is meant. */
static const struct place {
    uint64_t address, answers[4];
} places[] = {
    { 0x000000, { 0, K5L_DONE, 0, 0 } },
    { 0x008000, { 0, K5L_DONE, 8, 0 } },
    { 0x100000, { 0, K5L_DONE, 39, 1 } },
    { 0x400000, { 0, K5L_DONE, 135, 2 } },
    { 0x700000, { 0, K5L_DONE, 231, 3 } },
    { 0x7FFFFF, { 0, K5L_DONE, 269, 3 } },
    { 0x800000, { 0, K5L_ADDRESS, 0, 0 } },
};
enum { PLACES = sizeof places / sizeof *places };

static uint64_t nothing(uint64_t address)
{
    (void)address;
    return 0;
}

static const struct lookup {
    const char *asked;
    uint64_t (*answer)(uint64_t address);
} lookups[] = {
    { "nothing", nothing },
    { "refusal", k5l_full_refusal },
    { "block", k5l_full_block },
    { "bank", k5l_full_bank },
};
enum { LOOKUPS = sizeof lookups / sizeof *lookups };

/* The answers go here, so that no call is left out. */
static volatile uint64_t answer;

int main(int count, char **arguments)
{
    unsigned long place = count == 4 ? strtoul(arguments[2], NULL, 0) : PLACES;

    if (count == 2 && strcmp(arguments[1], "list") == 0) {
        for (int i = 0; i < PLACES; i++)
            printf("%d %06" PRIX64 "\n", i, places[i].address);
        return 0;
    }
    for (int i = 0; i < LOOKUPS && place < PLACES; i++) {
        if (strcmp(arguments[1], lookups[i].asked) != 0)
            continue;
        for (unsigned long n = strtoul(arguments[3], NULL, 0); n > 0; n--)
            answer = lookups[i].answer(places[place].address);
        if (answer == places[place].answers[i])
            return 0;
        fprintf(stderr, "lookups: the %s of %06" PRIX64 " is answered %" PRIu64 "\n", lookups[i].asked, places[place].address, answer);
        return 1;
    }
    fprintf(stderr, "lookups list | lookups nothing|refusal|block|bank PLACE N\n");
    return 2;
}
