/*
 * The two sides that are measured, the library through the header and the plain model of tests/c: the events of both, for the
 * preparations and for the loops, and the questions.
 */
#ifndef SIDES_H
#define SIDES_H

#include "k5l2931cam.h"

enum { BLOCK_WORDS = 32768 };

struct side {
    const char *name;
    void (*restore)(void);
    void (*read)(uint64_t address);
    void (*write)(uint64_t address, uint16_t word);
    void (*wait)(uint64_t microseconds);
    void (*cut)(size_t debris_length);
    void (*range)(uint64_t first, uint64_t count);
    void (*sound)(void);
    void (*reads_cells)(uint64_t bank);
    void (*exposed_block)(void);
    void (*exposed_word)(void);
    void (*clock)(void);
    void (*charge)(void);
    void (*until_end)(void);
    void (*until_change)(void);
    void (*debris_needed)(void);
};

enum { SIDES = 2 };
extern const struct side sides[SIDES];

/* What is lent to both, on the full part. */
extern uint16_t *cells, otp[K5L_OTP_WORDS];

/* The answers go here, so that no call is left out. */
extern volatile uint64_t answer;

/* Fresh devices on both sides; false if there is no memory for cells. All words are 0. */
bool sides_fresh(void);

/* Each side's record as it is now is what `restore` brings back. */
void sides_keep(void);

#endif
