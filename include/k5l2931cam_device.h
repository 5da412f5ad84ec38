/*
 * For those who like it: the device in one piece, and each call on it by its own name, with no pointer or length to mix up.
 * k5l2931cam.h includes this file, so nobody else has to.
 */
#ifndef K5L2931CAM_DEVICE_H
#define K5L2931CAM_DEVICE_H

#include "k5l2931cam.h"

#ifdef __cplusplus
extern "C" {
#endif

struct k5l_device {
    uint64_t part;
    uint64_t record[K5L_RECORD_WORDS];
    uint16_t *cells;
    size_t length;
    uint16_t *otp;
    size_t otp_length;
};

static inline uint64_t k5l_device_read(struct k5l_device *d, uint64_t address)
{
    return k5l_read(d->part, d->record, K5L_RECORD_WORDS, d->cells, d->length, d->otp, d->otp_length, address);
}

static inline K5L_MUST_USE uint64_t k5l_device_write(struct k5l_device *d, uint64_t address, uint16_t word)
{
    return k5l_write(d->part, d->record, K5L_RECORD_WORDS, d->cells, d->length, d->otp, d->otp_length, address, word);
}

static inline K5L_MUST_USE uint64_t k5l_device_wait(struct k5l_device *d, uint64_t microseconds)
{
    return k5l_wait(d->part, d->record, K5L_RECORD_WORDS, d->cells, d->length, d->otp, d->otp_length, microseconds);
}

static inline K5L_MUST_USE uint64_t k5l_device_cut(struct k5l_device *d, const uint16_t *debris, size_t debris_length)
{
    return k5l_cut(d->part, d->record, K5L_RECORD_WORDS, d->cells, d->length, d->otp, d->otp_length, debris, debris_length);
}

static inline K5L_MUST_USE uint64_t k5l_device_range(const struct k5l_device *d, uint64_t first, uint64_t count)
{
    return k5l_range(d->part, d->record, K5L_RECORD_WORDS, d->cells, d->length, d->otp, d->otp_length, first, count);
}

/* A fresh device over these cells and one-time words; answered as a wait of nothing is: K5L_STATE for no such part, K5L_CELLS for a wrong
 * length. */
static inline K5L_MUST_USE uint64_t k5l_device_fresh(struct k5l_device *d, uint64_t part, uint16_t *cells, size_t length, uint16_t *otp,
                                                     size_t otp_length)
{
    uint64_t refusal = k5l_fresh(d->record, K5L_RECORD_WORDS);

    d->part = part;
    d->cells = cells;
    d->length = length;
    d->otp = otp;
    d->otp_length = otp_length;
    return refusal == K5L_DONE ? k5l_device_wait(d, 0) : refusal;
}

static inline bool k5l_device_sound(const struct k5l_device *d) { return k5l_sound(d->part, d->record, K5L_RECORD_WORDS); }
static inline uint64_t k5l_device_clock(const struct k5l_device *d) { return k5l_clock(d->part, d->record, K5L_RECORD_WORDS); }
static inline uint64_t k5l_device_charge(const struct k5l_device *d) { return k5l_charge(d->part, d->record, K5L_RECORD_WORDS); }
static inline uint64_t k5l_device_exposed_block(const struct k5l_device *d) { return k5l_exposed_block(d->part, d->record, K5L_RECORD_WORDS); }
static inline uint64_t k5l_device_exposed_word(const struct k5l_device *d) { return k5l_exposed_word(d->part, d->record, K5L_RECORD_WORDS); }
static inline uint64_t k5l_device_exposed_array(const struct k5l_device *d) { return k5l_exposed_array(d->part, d->record, K5L_RECORD_WORDS); }
static inline uint64_t k5l_device_debris_needed(const struct k5l_device *d) { return k5l_debris_needed(d->part, d->record, K5L_RECORD_WORDS); }
static inline uint64_t k5l_device_until_end(const struct k5l_device *d) { return k5l_until_end(d->part, d->record, K5L_RECORD_WORDS); }
static inline uint64_t k5l_device_until_change(const struct k5l_device *d) { return k5l_until_change(d->part, d->record, K5L_RECORD_WORDS); }
static inline uint64_t k5l_device_changing_block(const struct k5l_device *d) { return k5l_changing_block(d->part, d->record, K5L_RECORD_WORDS); }
static inline uint64_t k5l_device_changing_word(const struct k5l_device *d) { return k5l_changing_word(d->part, d->record, K5L_RECORD_WORDS); }
static inline uint64_t k5l_device_changing_array(const struct k5l_device *d) { return k5l_changing_array(d->part, d->record, K5L_RECORD_WORDS); }
static inline bool k5l_device_reads_cells(const struct k5l_device *d, uint64_t bank)
{
    return k5l_reads_cells(d->part, d->record, K5L_RECORD_WORDS, bank);
}

#ifdef __cplusplus
}
#endif

#endif
