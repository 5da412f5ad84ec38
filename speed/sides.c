/* See sides.h. */
#include "sides.h"

#include "model.h"

#include <stdlib.h>
#include <string.h>

uint16_t *cells, otp[K5L_OTP_WORDS];
volatile uint64_t answer;

static uint16_t debris[BLOCK_WORDS];

/* Each side's record, and what it is brought back to before each event of some kinds. */
static uint64_t image[K5L_RECORD_WORDS], image_before[K5L_RECORD_WORDS];
static struct model_record record, record_before;

static void library_restore(void) { memcpy(image, image_before, sizeof image); }
static void library_read(uint64_t address)
{
    answer = k5l_read(K5L_FULL, image, K5L_RECORD_WORDS, cells, K5L_FULL_WORDS, otp, K5L_OTP_WORDS, address);
}
static void library_write(uint64_t address, uint16_t word)
{
    answer = k5l_write(K5L_FULL, image, K5L_RECORD_WORDS, cells, K5L_FULL_WORDS, otp, K5L_OTP_WORDS, address, word);
}
static void library_wait(uint64_t microseconds)
{
    answer = k5l_wait(K5L_FULL, image, K5L_RECORD_WORDS, cells, K5L_FULL_WORDS, otp, K5L_OTP_WORDS, microseconds);
}
static void library_cut(size_t debris_length)
{
    answer = k5l_cut(K5L_FULL, image, K5L_RECORD_WORDS, cells, K5L_FULL_WORDS, otp, K5L_OTP_WORDS, debris, debris_length);
}
static void library_range(uint64_t first, uint64_t count)
{
    answer = k5l_range(K5L_FULL, image, K5L_RECORD_WORDS, cells, K5L_FULL_WORDS, otp, K5L_OTP_WORDS, first, count);
}
static void library_sound(void) { answer = k5l_sound(K5L_FULL, image, K5L_RECORD_WORDS); }
static void library_reads_cells(uint64_t bank) { answer = k5l_reads_cells(K5L_FULL, image, K5L_RECORD_WORDS, bank); }
static void library_exposed_block(void) { answer = k5l_exposed_block(K5L_FULL, image, K5L_RECORD_WORDS); }
static void library_exposed_word(void) { answer = k5l_exposed_word(K5L_FULL, image, K5L_RECORD_WORDS); }
static void library_clock(void) { answer = k5l_clock(K5L_FULL, image, K5L_RECORD_WORDS); }
static void library_charge(void) { answer = k5l_charge(K5L_FULL, image, K5L_RECORD_WORDS); }
static void library_until_end(void) { answer = k5l_until_end(K5L_FULL, image, K5L_RECORD_WORDS); }
static void library_until_change(void) { answer = k5l_until_change(K5L_FULL, image, K5L_RECORD_WORDS); }
static void library_debris_needed(void) { answer = k5l_debris_needed(K5L_FULL, image, K5L_RECORD_WORDS); }

static void model_side_restore(void) { memcpy(&record, &record_before, sizeof record); }
static void model_side_read(uint64_t address)
{
    struct model_answer given = model_read(MODEL_FULL, &record, cells, K5L_FULL_WORDS, otp, K5L_OTP_WORDS, address);

    answer = given.refusal << 16 | given.word;
}
static void model_side_write(uint64_t address, uint16_t word)
{
    answer = model_write(MODEL_FULL, &record, cells, K5L_FULL_WORDS, otp, K5L_OTP_WORDS, address, word);
}
static void model_side_wait(uint64_t microseconds)
{
    answer = model_wait(MODEL_FULL, &record, cells, K5L_FULL_WORDS, otp, K5L_OTP_WORDS, microseconds);
}
static void model_side_cut(size_t debris_length)
{
    answer = model_cut(MODEL_FULL, &record, cells, K5L_FULL_WORDS, otp, K5L_OTP_WORDS, debris, debris_length);
}
static void model_side_range(uint64_t first, uint64_t count)
{
    struct model_range given = model_range(MODEL_FULL, &record, K5L_FULL_WORDS, K5L_OTP_WORDS, first, count);

    answer = given.refusal << 33 | given.array << 32 | given.first;
}
static void model_side_sound(void) { answer = model_sound(MODEL_FULL, &record); }
static void model_side_reads_cells(uint64_t bank) { answer = model_reads_cells(MODEL_FULL, &record, bank); }
static void model_side_exposed_block(void) { answer = model_exposed_block(MODEL_FULL, &record); }
static void model_side_exposed_word(void) { answer = model_exposed_word(MODEL_FULL, &record); }
static void model_side_clock(void) { answer = model_sound(MODEL_FULL, &record) ? record.clock : MODEL_NONE; }
static void model_side_charge(void) { answer = model_sound(MODEL_FULL, &record) ? record.charge : MODEL_NONE; }
static void model_side_until_end(void) { answer = model_until_end(MODEL_FULL, &record); }
static void model_side_until_change(void) { answer = model_until_change(MODEL_FULL, &record); }
static void model_side_debris_needed(void) { answer = model_debris_needed(MODEL_FULL, &record); }

const struct side sides[SIDES] = {
    { "library", library_restore, library_read, library_write, library_wait, library_cut, library_range, library_sound, library_reads_cells,
      library_exposed_block, library_exposed_word, library_clock, library_charge, library_until_end, library_until_change,
      library_debris_needed },
    { "model", model_side_restore, model_side_read, model_side_write, model_side_wait, model_side_cut, model_side_range, model_side_sound,
      model_side_reads_cells, model_side_exposed_block, model_side_exposed_word, model_side_clock, model_side_charge,
      model_side_until_end, model_side_until_change, model_side_debris_needed },
};

bool sides_fresh(void)
{
    cells = calloc(K5L_FULL_WORDS, sizeof *cells);
    record = model_fresh();
    return cells != NULL && k5l_fresh(image, K5L_RECORD_WORDS) == K5L_DONE;
}

void sides_keep(void)
{
    memcpy(image_before, image, sizeof image);
    record_before = record;
}
