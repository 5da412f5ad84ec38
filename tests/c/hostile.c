/*
 * Whatever is lent is answered, and as the model says: wrong lengths, parts that do not exist, random bits for a record, sound
 * records with a word altered, operations in protected blocks or of locked words. STATE must leave the record bit for bit and both
 * arrays as they were.
 */
#include "check.h"
#include "dice.h"
#include "records.h"

#include <stdlib.h>
#include <string.h>

static uint16_t debris[32768 + 2];

static uint16_t some_word(uint64_t address) { return (uint16_t)(address * 40503 + 0x1234); }

/* An event of the kind, with numbers that matter somewhere. */
static struct event some_event(enum event_kind kind)
{
    static const uint64_t addresses[] = { 0, 2, 8, 0x1A, 64, 100, 127, 128, 200, 255, 256, 0x51A, 0x2AA, 0x555, 640, 2047, 2048, 3001,
                                          16383, 16384, UINT64_MAX };
    static const uint64_t waits[] = { 0, 1, 5, 6, 7, 19, 20, 21, 49, 50, 51, 499999, 500000, 699999, 700000, 700050, 1400000,
                                      4294967296, 100000000000000, 100000000000001, UINT64_MAX };
    static const uint16_t words[] = { 0xAA, 0x55, 0xA0, 0x80, 0x88, 0x10, 0x30, 0x90, 0x58, 0x48, 0x78, 0x60, 0x68, 0x40, 0xB0, 0xF0,
                                      0, 1, 2, 0x1234, 0xFFFF };
    static const uint64_t counts[] = { 0, 1, 128, 129, 256, 257, 16128, 16384, 8388608, (uint64_t)1 << 63, UINT64_MAX };
    static const size_t lengths[] = { 0, 1, 7, 8, 9, 63, 64, 65, 4096, 4097, 32768, 32769, 32770 };
    struct event event = { .kind = kind, .debris = debris };

    event.number = kind == EVENT_WAIT ? ONE_OF(waits) : once_in(3) ? below(K5L_FULL_WORDS) : ONE_OF(addresses);
    event.word = ONE_OF(words);
    event.count = once_in(2) ? ONE_OF(counts) : below(300);
    event.debris_length = ONE_OF(lengths);
    return event;
}

/* All questions and an event of each kind, each on the image as it is. */
static void put_all(struct pair *pair)
{
    uint64_t image[PAIR_IMAGE_WORDS];

    memcpy(image, pair->image, sizeof image);
    pair_questions(pair);
    for (enum event_kind kind = EVENT_READ; kind <= EVENT_CUT; kind++) {
        struct event event = some_event(kind);

        pair_event(pair, &event);
        memcpy(pair->image, image, sizeof image);
    }
}

/* Each word of the image in turn with many values. */
static void altered_words(struct pair *pair, unsigned every)
{
    static const uint64_t values[] = { 0, 1, 2, 3, 4, 6, 7, 8, 11, 12, 13, 19, 20, 21, 49, 50, 51, 269, 270, 16383, 16384, 0xFFFF,
                                       0x10000, 499999, 500000, 500001, 699999, 700000, 700001, 8388607, 8388608, 100000000000000,
                                       100000000000001, (uint64_t)1 << 63, UINT64_MAX };
    enum { VALUES = sizeof values / sizeof *values };

    for (int word = 0; word < K5L_RECORD_WORDS; word++) {
        uint64_t kept = pair->image[word];

        for (unsigned i = (unsigned)below(every); i < VALUES + 64 + 4; i += every) {
            pair->image[word] = i < VALUES ? values[i]
                : i < VALUES + 64          ? kept ^ (uint64_t)1 << (i - VALUES)
                                           : kept + i - VALUES - 66;
            put_all(pair);
        }
        pair->image[word] = kept;
    }
}

/* Sound records of every command in every operation that allows it, and what comes of altering them. Outside the one-time block these
 * are idle, a suspended program, a suspended erase, and the six that run, a recovery being one; inside it idle, but for the three
 * commands of an erase, and a program. */
static void altered_images(struct pair *pair, unsigned every)
{
    unsigned met[2] = { 0, 0 };

    for (int entered = 0; entered < 2; entered++)
        for (int operation = MODEL_IDLE; operation < MODEL_OPERATIONS; operation++)
            for (int command = MODEL_GROUND; command < MODEL_COMMANDS; command++)
                if (sound_image(pair, (enum model_operation)operation, (enum model_command)command, entered)) {
                    met[entered]++;
                    put_all(pair);
                    altered_words(pair, every);
                }
    SAME(met[0], 13 + 5 + 6 + 6);
    SAME(met[1], 12 + 1);
}

/* Would the operation, going on, change words of the block? */
static bool works_in(uint64_t part, const struct model_record *record, uint64_t block)
{
    return (model_has_erase(record) && model_has(&record->erase.list, block))
        || (model_has_program(record) && model_block(part, record->program.at) == block);
}

/* What number 12 was for: an operation that would end in a protected block. No sound record has one, so every event is STATE. */
static void protected_operation(struct pair *pair, enum model_operation operation)
{
    static const uint64_t waits[] = { 0, 1, 6, 50, 700000, 100000000000000 };
    struct model_record sound;

    HOLDS(sound_image(pair, operation, MODEL_GROUND, false));
    HOLDS(image_decode(pair->image, K5L_RECORD_WORDS, &sound));
    for (uint64_t block = 0; block < MODEL_BLOCKS; block++)
        for (int ppb = 0; ppb < 2 && works_in(pair->part, &sound, block); ppb++) {
            struct model_record record = sound;

            model_put(ppb ? &record.ppb : &record.dyb, block, true);
            image_encode(&record, pair->image);
            for (unsigned i = 0; i < sizeof waits / sizeof *waits; i++)
                SAME(k5l_wait(pair->part, pair->image, K5L_RECORD_WORDS, pair->cells, pair->length, pair->otp, pair->otp_length,
                              waits[i]),
                     K5L_STATE);
            put_all(pair);
        }
}

/* A program of each one-time word, unlocked and locked: it is the factory's half and the lock that count, and no block's protection. */
static void one_time_programs(struct pair *pair)
{
    for (uint64_t i = 0; i < 2 * K5L_OTP_WORDS; i++) {
        struct model_record record = some_record(pair->part, MODEL_PROGRAM, MODEL_GROUND, true);

        record.program.at = i / 2;
        record.sealed = i % 2;
        record.dyb = record.ppb = MODEL_EVERY_BLOCK;
        image_encode(&record, pair->image);
        SAME(k5l_sound(pair->part, pair->image, K5L_RECORD_WORDS), i / 2 >= K5L_OTP_CUSTOMER && i % 2 == 0);
        put_all(pair);
    }
}

/* Often 0, else of any size. */
static uint64_t some_number(void)
{
    uint64_t size = below(64);

    return once_in(2) ? 0 : dice() >> size;
}

/* Random bits: in every word; narrow ones under the right layout; and in a few words of a sound record. */
static void random_images(struct pair *pair, int count)
{
    for (int i = 0; i < count; i++) {
        uint64_t operation = below(MODEL_OPERATIONS), command = once_in(2) ? MODEL_GROUND : below(MODEL_COMMANDS);
        bool entered = once_in(2);

        for (int word = 0; word < K5L_RECORD_WORDS; word++)
            pair->image[word] = dice();
        put_all(pair);
        pair->image[0] = K5L_LAYOUT;
        put_all(pair);
        for (int word = 1; word < K5L_RECORD_WORDS; word++)
            pair->image[word] = some_number();
        put_all(pair);
        if (!sound_image(pair, (enum model_operation)operation, (enum model_command)command, entered))
            continue;
        for (uint64_t words = 1 + below(3); words > 0; words--) {
            uint64_t word = below(K5L_RECORD_WORDS);

            pair->image[word] = once_in(2) ? below(16) : dice();
        }
        put_all(pair);
    }
}

/* Lengths of one-time words that are not theirs, beside cells of the right length and of a wrong one. */
static void wrong_otp_lengths(struct pair *pair)
{
    static const size_t otp_lengths[] = { 0, 1, 127, 128, 255, 257, K5L_OTP_WORDS + PAIR_GUARD };

    for (unsigned i = 0; i < sizeof otp_lengths / sizeof *otp_lengths; i++) {
        pair->otp_length = otp_lengths[i];
        put_all(pair);
        pair->length--;
        put_all(pair);
        pair->length++;
    }
    pair->otp_length = K5L_OTP_WORDS;
}

/* Lengths that are not the record's, not the part's; and numbers that are no part's. */
static void wrong_lengths(struct pair *pair, uint64_t part, bool entered)
{
    static const size_t words[] = { 0, 1, 28, 29, 30, 31, 33 };
    static const uint64_t parts[] = { 2, 3, 4294967296, 4294967297, (uint64_t)1 << 63, UINT64_MAX };
    size_t right = model_words(part), other = model_words(part == K5L_SMALL), lengths[] = { 0, 1, right - 1, right + 1, other };

    for (int operation = MODEL_IDLE; operation < (entered ? MODEL_SUSPENDED_PROGRAM : MODEL_OPERATIONS); operation++) {
        pair->part = part;
        pair->length = right;
        HOLDS(sound_image(pair, (enum model_operation)operation, MODEL_GROUND, entered));
        put_all(pair);
        wrong_otp_lengths(pair);
        for (unsigned i = 0; i < sizeof words / sizeof *words; i++) {
            pair->words = words[i];
            put_all(pair);
        }
        pair->words = K5L_RECORD_WORDS;
        for (unsigned i = 0; i < sizeof lengths / sizeof *lengths; i++) {
            pair->length = lengths[i];
            put_all(pair);
        }
        pair->length = right;
        for (unsigned i = 0; i < sizeof parts / sizeof *parts; i++) {
            pair->part = parts[i];
            put_all(pair);
        }
    }
}

/* k5l_fresh takes one length only. */
static void wrong_fresh(void)
{
    static const size_t words[] = { 0, 1, 28, 29, 30, 31, 33 };
    uint64_t image[PAIR_IMAGE_WORDS], before[PAIR_IMAGE_WORDS];

    memset(image, 0xA5, sizeof image);
    memset(before, 0xA5, sizeof before);
    for (unsigned i = 0; i < sizeof words / sizeof *words; i++) {
        SAME(k5l_fresh(image, words[i]), K5L_STATE);
        SAME(memcmp(image, before, sizeof image), 0);
    }
}

/* Of a length 0 nothing is looked at, so that a null pointer will do. */
static void nothing_lent(struct pair *pair)
{
    uint64_t *none = NULL;

    SAME(k5l_fresh(none, 0), K5L_STATE);
    HOLDS(!k5l_sound(K5L_SMALL, none, 0));
    SAME(k5l_clock(K5L_SMALL, none, 0), K5L_NONE);
    SAME(k5l_until_end(K5L_SMALL, none, 0), K5L_NONE);
    SAME(k5l_until_change(K5L_SMALL, none, 0), K5L_NONE);
    SAME(k5l_changing_block(K5L_SMALL, none, 0), K5L_NONE);
    SAME(k5l_changing_word(K5L_SMALL, none, 0) & k5l_changing_array(K5L_SMALL, none, 0), K5L_NONE);
    SAME(k5l_debris_needed(K5L_SMALL, none, 0), K5L_NONE);
    SAME(k5l_read(K5L_SMALL, none, 0, pair->cells, pair->length, pair->otp, pair->otp_length, 0), (uint64_t)K5L_STATE << 16);
    SAME(k5l_wait(K5L_SMALL, none, 0, NULL, 0, NULL, 0, 1), K5L_STATE);
    SAME(k5l_fresh(pair->image, K5L_RECORD_WORDS), K5L_DONE);
    SAME(k5l_read(K5L_SMALL, pair->image, K5L_RECORD_WORDS, NULL, 0, NULL, 0, 0), (uint64_t)K5L_CELLS << 16);
    SAME(k5l_write(K5L_SMALL, pair->image, K5L_RECORD_WORDS, NULL, 0, pair->otp, pair->otp_length, 0, 0), K5L_CELLS);
    SAME(k5l_write(K5L_SMALL, pair->image, K5L_RECORD_WORDS, pair->cells, pair->length, NULL, 0, 0, 0), K5L_CELLS);
    SAME(k5l_wait(K5L_SMALL, pair->image, K5L_RECORD_WORDS, pair->cells, pair->length, NULL, 0, 1), K5L_CELLS);
    SAME(k5l_range(K5L_SMALL, pair->image, K5L_RECORD_WORDS, NULL, 0, NULL, 0, 0, 0), (uint64_t)K5L_CELLS << 33);
    SAME(k5l_cut(K5L_SMALL, pair->image, K5L_RECORD_WORDS, pair->cells, pair->length, NULL, 0, NULL, 0), K5L_CELLS);
}

int main(void)
{
    struct pair small = pair_make(K5L_SMALL), full = pair_make(K5L_FULL);

    for (size_t i = 0; i < sizeof debris / sizeof *debris; i++)
        debris[i] = (uint16_t)dice();
    pair_fill(&small, some_word);
    pair_fill(&full, some_word);
    wrong_fresh();
    nothing_lent(&small);
    for (int operation = MODEL_PROGRAM; operation < MODEL_OPERATIONS; operation++) {
        protected_operation(&small, (enum model_operation)operation);
        protected_operation(&full, (enum model_operation)operation);
    }
    for (int round = 0; round < 4; round++)
        altered_images(&small, 1);
    random_images(&small, 5000);
    altered_images(&full, 31);
    random_images(&full, 200);
    one_time_programs(&small);
    one_time_programs(&full);
    for (int entered = 0; entered < 2; entered++) {
        wrong_lengths(&full, K5L_SMALL, entered);
        wrong_lengths(&full, K5L_FULL, entered);
    }
    pair_cells(&small);
    pair_cells(&full);
    pair_free(&small);
    pair_free(&full);
    return check_report("hostile");
}
