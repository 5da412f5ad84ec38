/* The device that a test has at hand, and the command sequences of document 01 on it. */
#ifndef DRIVER_H
#define DRIVER_H

#include "check.h"
#include "k5l2931cam.h"

/* Words of the record, and some of their values, by the header's table. */
enum { CLOCK = 1, CHARGE = 2, COMMAND = 3, OPERATION = 5, LIST = 6, HAND = 11, LEFT = 12, ADDRESS = 14, DATA = 15,
       PROGRAM_LEFT = 16, PROGRAM_DQ6 = 17, DYBS = 18, PPBS = 23, LOCK = 28, RECOVERY = 29, ENTERED = 30, OTP_LOCK = 31 };
enum { GROUND = 0, AFTER_A0 = 3, AFTER_60 = 8, IDENTITY = 11, HALF_LOCK = 13, LOCK_READING = 14 };
enum { NO_OPERATION = 0, PROGRAM = 1, SUSPENDED_PROGRAM = 2, WINDOW = 3, BLOCK_ERASE = 4, SUSPENDED_ERASE = 5, PROGRAM_INSIDE = 6,
       CHIP_ERASE = 7 };

static const uint64_t CLOCK_LIMIT = 100000000000000;

extern uint64_t part, record[K5L_RECORD_WORDS];
/* There is room behind the one-time words, so that more of them can be lent than there are. */
enum { OTP_ROOM = K5L_OTP_WORDS + 64 };
extern uint16_t *cells, otp[OTP_ROOM];
extern size_t length, otp_length;

/* A fresh device of that part, its cells and one-time words all FFFFH; a test without memory ends. */
void take_part(uint64_t which);

/* The same device as new. */
void fresh(void);

/* The events. */
uint64_t bus_read(uint64_t address);
uint64_t bus_write(uint64_t address, uint16_t word);
uint64_t pass(uint64_t microseconds);
uint64_t cut(const uint16_t *debris, size_t debris_length);
uint64_t range(uint64_t first, uint64_t count);

/* Whole commands: every write but the last is checked to be taken, and the answer is the last one's. */
uint64_t enter(uint16_t third);
uint64_t program(uint64_t address, uint16_t word);
uint64_t erase(uint64_t address, uint16_t last);
uint64_t set_dyb(uint64_t address, uint16_t value);
uint64_t set_ppb(uint64_t address);
uint64_t leave_otp(void);
uint64_t lock_otp(void);

/* A fresh device in the one-time block. */
void fresh_inside(void);

/* B0H in a running block erase, and the 20 us until it is suspended. */
void suspend(void);

uint64_t clock_now(void);
uint64_t charge_now(void);
uint64_t exposed_block(void);
uint64_t exposed_word(void);
uint64_t exposed_array(void);
uint64_t debris_needed(void);
uint64_t until_end(void);
uint64_t until_change(void);
uint64_t changing_block(void);
uint64_t changing_word(void);
uint64_t changing_array(void);
bool reads_cells(uint64_t bank);

/* Has anything changed in record, cells or one-time words since the last save? */
void save(void);
bool is_saved(void);

#define CHANGES_NOTHING(event, refusal) (save(), SAME(event, refusal), HOLDS(is_saved()))

#endif
