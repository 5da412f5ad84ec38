/*
 * A device twice: the library's and, over cells and one-time words of its own, the model's. An event is put to both, and what they
 * answer and leave behind is compared: answer, image, both arrays, and every question that the header has about a record.
 */
#ifndef PAIR_H
#define PAIR_H

#include "image.h"

enum event_kind { EVENT_READ, EVENT_WRITE, EVENT_RANGE, EVENT_WAIT, EVENT_CUT };

struct event {
    enum event_kind kind;
    uint64_t number; /* the address, or the microseconds */
    uint64_t count;  /* of a range */
    uint16_t word;
    const uint16_t *debris;
    size_t debris_length;
};

/* Around image, cells and one-time words lie words that are compared, too: nothing may write there. `words`, `length` and `otp_length`
 * are what is lent. */
enum { PAIR_IMAGE_WORDS = 36, PAIR_GUARD = 64, PAIR_OTP_ROOM = K5L_OTP_WORDS + 2 * PAIR_GUARD };

struct pair {
    uint64_t part;
    size_t words, length, otp_length, room;
    uint64_t image[PAIR_IMAGE_WORDS];
    uint16_t *cells, *model_cells, *otp, *model_otp;
};

/* A fresh device of the part; a test without memory ends. */
struct pair pair_make(uint64_t part);
void pair_free(struct pair *pair);

/* The same words in both, by a function of the address: the cells, and then the one-time words as if they came after them. */
void pair_fill(struct pair *pair, uint16_t (*word_at)(uint64_t address));

/* Puts the event to both and compares; the answer is the model's, the refusal above the word. */
uint64_t pair_event(struct pair *pair, const struct event *event);

/* Puts the event to the library alone; its answer has the refusal above bit 16, a range's above bit 33. */
uint64_t pair_library(struct pair *pair, const struct event *event);

/* Puts every question about the record to both and compares. */
void pair_questions(const struct pair *pair);

/* Compares all the cells, and all the one-time words. */
bool pair_cells(const struct pair *pair);
bool pair_otp(const struct pair *pair);

/* Compares two images; and two arrays, from one word to before another. */
bool same_images(const uint64_t *got, const uint64_t *expected);
bool same_words(const char *what, const uint16_t *got, const uint16_t *expected, ptrdiff_t from, ptrdiff_t end);

/* Only a wait or a cut changes cells, and then an operation or a block of it has ended. */
bool may_have_changed_cells(const struct event *event, const uint64_t *before, const uint64_t *after);

/* After a check that was wrong: the event, and the image that it came to. */
void pair_tell(const struct pair *pair, const uint64_t *before, const struct event *event);

#endif
