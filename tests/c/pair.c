/* See pair.h. */
#include "pair.h"

#include "check.h"

#include <inttypes.h>
#include <stdio.h>
#include <stdlib.h>
#include <string.h>

static uint16_t *room_for(size_t words)
{
    uint16_t *room = calloc(words, sizeof *room);

    if (room == NULL) {
        fprintf(stderr, "no memory for %zu cells\n", words);
        exit(2);
    }
    return room;
}

struct pair pair_make(uint64_t part)
{
    struct pair pair = { .part = part, .words = K5L_RECORD_WORDS, .length = model_words(part), .otp_length = K5L_OTP_WORDS };

    pair.room = pair.length + 2 * PAIR_GUARD;
    pair.cells = room_for(pair.room) + PAIR_GUARD;
    pair.model_cells = room_for(pair.room) + PAIR_GUARD;
    pair.otp = room_for(PAIR_OTP_ROOM) + PAIR_GUARD;
    pair.model_otp = room_for(PAIR_OTP_ROOM) + PAIR_GUARD;
    SAME(k5l_fresh(pair.image, pair.words), K5L_DONE);
    return pair;
}

void pair_free(struct pair *pair)
{
    free(pair->cells - PAIR_GUARD);
    free(pair->model_cells - PAIR_GUARD);
    free(pair->otp - PAIR_GUARD);
    free(pair->model_otp - PAIR_GUARD);
}

void pair_fill(struct pair *pair, uint16_t (*word_at)(uint64_t address))
{
    for (uint64_t address = 0; address < pair->length; address++)
        pair->cells[address] = pair->model_cells[address] = word_at(address);
    for (uint64_t i = 0; i < K5L_OTP_WORDS; i++)
        pair->otp[i] = pair->model_otp[i] = word_at(pair->length + i);
}

/* An event's answer has its refusal above bit 16, a range's above bit 33. */
static unsigned shift_of(const struct event *event) { return event->kind == EVENT_RANGE ? 33 : 16; }

uint64_t pair_library(struct pair *p, const struct event *e)
{
    switch (e->kind) {
    case EVENT_READ: return k5l_read(p->part, p->image, p->words, p->cells, p->length, p->otp, p->otp_length, e->number);
    case EVENT_WRITE:
        return k5l_write(p->part, p->image, p->words, p->cells, p->length, p->otp, p->otp_length, e->number, e->word) << 16;
    case EVENT_RANGE:
        return k5l_range(p->part, p->image, p->words, p->cells, p->length, p->otp, p->otp_length, e->number, e->count);
    case EVENT_WAIT: return k5l_wait(p->part, p->image, p->words, p->cells, p->length, p->otp, p->otp_length, e->number) << 16;
    default:
        return k5l_cut(p->part, p->image, p->words, p->cells, p->length, p->otp, p->otp_length, e->debris, e->debris_length) << 16;
    }
}

static uint64_t of_model(const struct pair *p, struct model_record *r, const struct event *e)
{
    struct model_answer answer;
    struct model_range range;

    switch (e->kind) {
    case EVENT_READ:
        answer = model_read(p->part, r, p->model_cells, p->length, p->model_otp, p->otp_length, e->number);
        return answer.refusal << 16 | answer.word;
    case EVENT_WRITE:
        return model_write(p->part, r, p->model_cells, p->length, p->model_otp, p->otp_length, e->number, e->word) << 16;
    case EVENT_RANGE:
        range = model_range(p->part, r, p->length, p->otp_length, e->number, e->count);
        return range.refusal << 33 | range.array << 32 | range.first;
    case EVENT_WAIT: return model_wait(p->part, r, p->model_cells, p->length, p->model_otp, p->otp_length, e->number) << 16;
    default:
        return model_cut(p->part, r, p->model_cells, p->length, p->model_otp, p->otp_length, e->debris, e->debris_length) << 16;
    }
}

static void tell_record(const uint64_t *image)
{
    check_note("  the record:");
    for (int i = 0; i < K5L_RECORD_WORDS; i++)
        check_note(" %" PRIX64, image[i]);
    check_note("\n");
}

void pair_tell(const struct pair *p, const uint64_t *before, const struct event *event)
{
    static const char *const names[] = { "read", "write", "range", "wait", "cut" };

    check_note("  after %s %" PRIu64 " (word %04X, %" PRIu64 " in the range, %zu words of debris) on part %" PRIu64
               ", %zu words of record, %zu cells, %zu one-time words\n",
               names[event->kind], event->number, event->word, event->count, event->debris_length, p->part, p->words, p->length,
               p->otp_length);
    tell_record(before);
}

bool same_images(const uint64_t *got, const uint64_t *expected)
{
    bool same = SAME(memcmp(got, expected, PAIR_IMAGE_WORDS * sizeof *got) != 0, 0);

    for (int i = 0; i < PAIR_IMAGE_WORDS; i++)
        if (got[i] != expected[i])
            check_note("  word %d is %" PRIX64 "H, expected %" PRIX64 "H\n", i, got[i], expected[i]);
    return same;
}

bool same_words(const char *what, const uint16_t *got, const uint16_t *expected, ptrdiff_t from, ptrdiff_t end)
{
    size_t words = from < end ? (size_t)(end - from) : 0;
    bool same = SAME(memcmp(got + from, expected + from, words * sizeof *got) != 0, 0);

    for (ptrdiff_t i = from; !same && i < end; i++)
        if (got[i] != expected[i]) {
            check_note("  %s %td is %04X, expected %04X\n", what, i, got[i], expected[i]);
            break;
        }
    return same;
}

/* What lies around the words is compared, too. */
bool pair_cells(const struct pair *pair)
{
    return same_words("cell", pair->cells, pair->model_cells, -PAIR_GUARD, (ptrdiff_t)pair->room - PAIR_GUARD);
}

bool pair_otp(const struct pair *pair)
{
    return same_words("one-time word", pair->otp, pair->model_otp, -PAIR_GUARD, PAIR_OTP_ROOM - PAIR_GUARD);
}

bool may_have_changed_cells(const struct event *event, const uint64_t *before, const uint64_t *after)
{
    return event->kind >= EVENT_WAIT && (before[5] != after[5] || before[11] != after[11]);
}

/* Any number may be asked as an address. */
static bool same_lookups(uint64_t part, uint64_t number)
{
    bool same = SAME(k5l_block_of(part, number), model_block_of(part, number));

    return same & SAME(k5l_bank_of(part, number), model_bank_of(part, number));
}

uint64_t pair_event(struct pair *pair, const struct event *event)
{
    uint64_t before[PAIR_IMAGE_WORDS], expected[PAIR_IMAGE_WORDS], answer = (uint64_t)K5L_STATE << shift_of(event);
    struct model_record record;
    bool same;

    memcpy(before, pair->image, sizeof before);
    memcpy(expected, pair->image, sizeof expected);
    if (image_decode(pair->image, pair->words, &record)) {
        answer = of_model(pair, &record, event);
        image_encode(&record, expected);
    }
    same = SAME(pair_library(pair, event), answer);
    same &= same_images(pair->image, expected);
    same &= same_lookups(pair->part, event->number);
    same &= pair_otp(pair);
    if ((event->kind >= EVENT_WAIT && pair->room < K5L_FULL_WORDS) || may_have_changed_cells(event, before, expected))
        same &= pair_cells(pair);
    if (!same) {
        pair_tell(pair, before, event);
        memcpy(pair->image, expected, sizeof expected);
        memcpy(pair->cells - PAIR_GUARD, pair->model_cells - PAIR_GUARD, pair->room * sizeof *pair->cells);
        memcpy(pair->otp - PAIR_GUARD, pair->model_otp - PAIR_GUARD, PAIR_OTP_ROOM * sizeof *pair->otp);
    }
    return event->kind == EVENT_RANGE ? answer >> 33 << 16 : answer;
}

void pair_questions(const struct pair *p)
{
    struct model_record r = model_fresh();
    bool sound = image_decode(p->image, p->words, &r) && model_sound(p->part, &r), same;

    same = SAME(k5l_sound(p->part, p->image, p->words), sound);
    same &= SAME(k5l_clock(p->part, p->image, p->words), sound ? r.clock : K5L_NONE);
    same &= SAME(k5l_charge(p->part, p->image, p->words), sound ? r.charge : K5L_NONE);
    same &= SAME(k5l_exposed_block(p->part, p->image, p->words), sound ? model_exposed_block(p->part, &r) : K5L_NONE);
    same &= SAME(k5l_exposed_word(p->part, p->image, p->words), sound ? model_exposed_word(p->part, &r) : K5L_NONE);
    same &= SAME(k5l_exposed_array(p->part, p->image, p->words), sound ? model_exposed_array(p->part, &r) : K5L_NONE);
    same &= SAME(k5l_debris_needed(p->part, p->image, p->words), sound ? model_debris_needed(p->part, &r) : K5L_NONE);
    same &= SAME(k5l_until_end(p->part, p->image, p->words), sound ? model_until_end(p->part, &r) : K5L_NONE);
    same &= SAME(k5l_until_change(p->part, p->image, p->words), sound ? model_until_change(p->part, &r) : K5L_NONE);
    same &= SAME(k5l_changing_block(p->part, p->image, p->words), sound ? model_changing_block(p->part, &r) : K5L_NONE);
    same &= SAME(k5l_changing_word(p->part, p->image, p->words), sound ? model_changing_word(p->part, &r) : K5L_NONE);
    same &= SAME(k5l_changing_array(p->part, p->image, p->words), sound ? model_changing_array(p->part, &r) : K5L_NONE);
    for (uint64_t bank = 0; bank <= MODEL_BANKS; bank++)
        same &= SAME(k5l_reads_cells(p->part, p->image, p->words, bank), sound && model_reads_cells(p->part, &r, bank));
    if (!same) {
        check_note("  asked of part %" PRIu64 ", %zu words of record\n", p->part, p->words);
        tell_record(p->image);
    }
}
