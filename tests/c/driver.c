/* See driver.h. */
#include "driver.h"

#include <stdio.h>
#include <stdlib.h>
#include <string.h>

uint64_t part, record[K5L_RECORD_WORDS];
uint16_t *cells, otp[OTP_ROOM];
size_t length, otp_length;

static uint64_t saved_record[K5L_RECORD_WORDS];
static uint16_t *saved_cells, saved_otp[OTP_ROOM];

void take_part(uint64_t which)
{
    part = which;
    length = which == K5L_FULL ? K5L_FULL_WORDS : K5L_SMALL_WORDS;
    otp_length = K5L_OTP_WORDS;
    cells = realloc(cells, length * sizeof *cells);
    saved_cells = realloc(saved_cells, length * sizeof *saved_cells);
    if (cells == NULL || saved_cells == NULL) {
        fprintf(stderr, "no memory for %zu cells\n", length);
        exit(2);
    }
    fresh();
}

void fresh(void)
{
    SAME(k5l_fresh(record, K5L_RECORD_WORDS), K5L_DONE);
    memset(cells, 0xFF, length * sizeof *cells);
    memset(otp, 0xFF, sizeof otp);
}

uint64_t bus_read(uint64_t address)
{
    return k5l_read(part, record, K5L_RECORD_WORDS, cells, length, otp, otp_length, address);
}

uint64_t bus_write(uint64_t address, uint16_t word)
{
    return k5l_write(part, record, K5L_RECORD_WORDS, cells, length, otp, otp_length, address, word);
}

uint64_t pass(uint64_t microseconds)
{
    return k5l_wait(part, record, K5L_RECORD_WORDS, cells, length, otp, otp_length, microseconds);
}

uint64_t cut(const uint16_t *debris, size_t debris_length)
{
    return k5l_cut(part, record, K5L_RECORD_WORDS, cells, length, otp, otp_length, debris, debris_length);
}

uint64_t range(uint64_t first, uint64_t count)
{
    return k5l_range(part, record, K5L_RECORD_WORDS, cells, length, otp, otp_length, first, count);
}

uint64_t enter(uint16_t third)
{
    SAME(bus_write(0x555, 0xAA), K5L_DONE);
    SAME(bus_write(0x2AA, 0x55), K5L_DONE);
    return bus_write(0x555, third);
}

uint64_t program(uint64_t address, uint16_t word)
{
    SAME(enter(0xA0), K5L_DONE);
    return bus_write(address, word);
}

uint64_t erase(uint64_t address, uint16_t last)
{
    SAME(enter(0x80), K5L_DONE);
    SAME(bus_write(0x555, 0xAA), K5L_DONE);
    SAME(bus_write(0x2AA, 0x55), K5L_DONE);
    return bus_write(address, last);
}

uint64_t set_dyb(uint64_t address, uint16_t value)
{
    SAME(enter(0x48), K5L_DONE);
    return bus_write(address, value);
}

uint64_t set_ppb(uint64_t address)
{
    SAME(enter(0x60), K5L_DONE);
    SAME(bus_write(address, 0x68), K5L_DONE);
    return bus_write(address, 0x48);
}

void fresh_inside(void)
{
    fresh();
    SAME(enter(0x88), K5L_DONE);
    SAME(record[ENTERED], 1);
}

uint64_t leave_otp(void)
{
    SAME(enter(0x90), K5L_DONE);
    return bus_write(0, 0x00);
}

uint64_t lock_otp(void)
{
    SAME(enter(0x60), K5L_DONE);
    SAME(bus_write(0x1A, 0x68), K5L_DONE);
    return bus_write(0x1A, 0x48);
}

void suspend(void)
{
    SAME(bus_write(0, 0xB0), K5L_DONE);
    SAME(pass(20), K5L_DONE);
    SAME(record[OPERATION], SUSPENDED_ERASE);
}

uint64_t clock_now(void) { return k5l_clock(part, record, K5L_RECORD_WORDS); }
uint64_t charge_now(void) { return k5l_charge(part, record, K5L_RECORD_WORDS); }
uint64_t exposed_block(void) { return k5l_exposed_block(part, record, K5L_RECORD_WORDS); }
uint64_t exposed_word(void) { return k5l_exposed_word(part, record, K5L_RECORD_WORDS); }
uint64_t exposed_array(void) { return k5l_exposed_array(part, record, K5L_RECORD_WORDS); }
uint64_t debris_needed(void) { return k5l_debris_needed(part, record, K5L_RECORD_WORDS); }
uint64_t until_end(void) { return k5l_until_end(part, record, K5L_RECORD_WORDS); }
uint64_t until_change(void) { return k5l_until_change(part, record, K5L_RECORD_WORDS); }
uint64_t changing_block(void) { return k5l_changing_block(part, record, K5L_RECORD_WORDS); }
uint64_t changing_word(void) { return k5l_changing_word(part, record, K5L_RECORD_WORDS); }
uint64_t changing_array(void) { return k5l_changing_array(part, record, K5L_RECORD_WORDS); }
bool reads_cells(uint64_t bank) { return k5l_reads_cells(part, record, K5L_RECORD_WORDS, bank); }

void save(void)
{
    memcpy(saved_record, record, sizeof record);
    memcpy(saved_cells, cells, length * sizeof *cells);
    memcpy(saved_otp, otp, sizeof otp);
}

bool is_saved(void)
{
    return memcmp(saved_record, record, sizeof record) == 0 && memcmp(saved_cells, cells, length * sizeof *cells) == 0
        && memcmp(saved_otp, otp, sizeof otp) == 0;
}
