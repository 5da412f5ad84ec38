/*
 * The device once more, in plain C, written from document 01 and the requests of document 02 alone: the tests hold the proved
 * library against it, and the speed table is measured beside it. It shares nothing with the library, so it has its own names for
 * everything.
 *
 * Compiled with -DMODEL_TRUSTS its events do not judge the record they are given (refusal 1), as a plain emulator would not.
 */
#ifndef MODEL_H
#define MODEL_H

#include <stdbool.h>
#include <stddef.h>
#include <stdint.h>

/* Document 01, Refusals by number, and document 02. 12 is unused: a record with an operation in a protected block is STATE. */
enum model_refusal {
    MODEL_DONE, MODEL_STATE, MODEL_CELLS, MODEL_ADDRESS, MODEL_CLOCK, MODEL_DEBRIS, MODEL_BUSY, MODEL_SEQUENCE, MODEL_BANK,
    MODEL_PROTECTED, MODEL_SUSPENDED, MODEL_LOCKED,
    MODEL_OTPLOCKED = 13, MODEL_RAISE
};

enum model_part { MODEL_SMALL, MODEL_FULL };

enum { MODEL_BLOCKS = 270, MODEL_BANKS = 4, MODEL_SET_WORDS = 5 };

/* Document 02, request 4: the one-time words, in both parts, and the first that is not the factory's; and the two arrays. */
enum { MODEL_ONE_TIME_WORDS = 256, MODEL_CUSTOMER = 128 };
enum model_array { MODEL_MAIN, MODEL_ONE_TIME };

/* No block, no word. */
static const uint64_t MODEL_NONE = UINT64_MAX;

/* Document 01, Time, charge and the cells: microseconds, and picocoulombs a microsecond. */
static const uint64_t MODEL_CLOCK_LIMIT = 100000000000000;
static const uint64_t MODEL_PROGRAM_TIME = 6, MODEL_WINDOW_TIME = 50;
static const uint64_t MODEL_BLOCK_TIME = 700000, MODEL_CHIP_BLOCK_TIME = 500000;
static const uint64_t MODEL_RECOVERY_TIME = 20; /* document 02, request 1 */
static const uint64_t MODEL_RUNNING_CURRENT = 17000, MODEL_RESTING_CURRENT = 15;

/* Block n is bit n % 64 of word n / 64. */
struct model_set {
    uint64_t bits[MODEL_SET_WORDS];
};

/* What the writes so far have entered (document 01, Command cycles). */
enum model_command {
    MODEL_GROUND,
    MODEL_FIRST_UNLOCK, MODEL_SECOND_UNLOCK,
    MODEL_PROGRAM_DATA,                                   /* A0H */
    MODEL_ERASE, MODEL_ERASE_FIRST, MODEL_ERASE_SECOND,   /* 80H, and the unlock writes after it */
    MODEL_DYB_DATA,                                       /* 48H */
    MODEL_PPB, MODEL_PPB_SET, MODEL_PPB_CLEAR,            /* 60H; 60H, 68H; 60H, 60H */
    MODEL_IDENTITY, MODEL_PROTECTION,                     /* the readings of 90H and 58H */
    MODEL_SEAL, MODEL_SEAL_STATUS,                        /* in the one-time block 60H, and 68H or 48H at its lock's address */
    MODEL_COMMANDS
};

enum model_operation {
    MODEL_IDLE,
    MODEL_PROGRAM, MODEL_SUSPENDED_PROGRAM,
    MODEL_WINDOW, MODEL_BLOCK_ERASE, MODEL_SUSPENDED_ERASE, MODEL_PROGRAM_INSIDE,
    MODEL_CHIP_ERASE,
    MODEL_RECOVERY,                                       /* a block erase after B0H: no progress, and not suspended yet */
    MODEL_OPERATIONS
};

/* `left` is of the block in hand, but of the window while there is one: the block then has its full time left. `recovery` is what
 * is left of a recovery, and means something in MODEL_RECOVERY alone. */
struct model_erase {
    struct model_set list;
    uint64_t hand, left, recovery;
    bool dq6, dq2;
};

struct model_program {
    uint64_t at, left;
    uint16_t word;
    bool dq6;
};

/* `block` is named by 68H and means something in MODEL_PPB_SET alone, `bank` by 90H and in MODEL_IDENTITY alone; `erase` and
 * `program` mean something while the operation has them. `entered`: the one-time block is; `sealed`: the customer's words are locked. */
struct model_record {
    uint64_t clock, charge;
    enum model_command command;
    enum model_operation operation;
    uint64_t block, bank;
    struct model_erase erase;
    struct model_program program;
    struct model_set dyb, ppb;
    bool lock, entered, sealed;
};

struct model_answer {
    uint64_t refusal;
    uint16_t word;
};

/* A range that is handed back: the array and its first word, both 0 if it is refused. */
struct model_range {
    uint64_t refusal, array, first;
};

struct model_record model_fresh(void);
bool model_sound(uint64_t part, const struct model_record *record);

/* The events. A write changes no word of either array, and a range nothing at all. */
struct model_answer model_read(uint64_t part, struct model_record *record, const uint16_t *cells, size_t length,
                               const uint16_t *otp, size_t otp_length, uint64_t address);
uint64_t model_write(uint64_t part, struct model_record *record, const uint16_t *cells, size_t length, const uint16_t *otp,
                     size_t otp_length, uint64_t address, uint16_t word);
uint64_t model_wait(uint64_t part, struct model_record *record, uint16_t *cells, size_t length, uint16_t *otp, size_t otp_length,
                    uint64_t microseconds);
uint64_t model_cut(uint64_t part, struct model_record *record, uint16_t *cells, size_t length, uint16_t *otp, size_t otp_length,
                   const uint16_t *debris, size_t debris_length);
struct model_range model_range(uint64_t part, const struct model_record *record, size_t length, size_t otp_length, uint64_t first,
                               uint64_t count);

/* The block and the word that a cut would change now, or MODEL_NONE; and the array that the word is of. */
uint64_t model_exposed_block(uint64_t part, const struct model_record *record);
uint64_t model_exposed_word(uint64_t part, const struct model_record *record);
uint64_t model_exposed_array(uint64_t part, const struct model_record *record);

/* Does every read in the bank give its cell? Of a number that is no bank's: no. */
bool model_reads_cells(uint64_t part, const struct model_record *record, uint64_t bank);

/* What comes if nobody writes: the microseconds until nothing runs, and until the next change; the block or the word that is
 * finished then, and the word's array. And the words of debris that a cut would need now. MODEL_NONE for none, and for a record that
 * is not sound. */
uint64_t model_until_end(uint64_t part, const struct model_record *record);
uint64_t model_until_change(uint64_t part, const struct model_record *record);
uint64_t model_changing_block(uint64_t part, const struct model_record *record);
uint64_t model_changing_word(uint64_t part, const struct model_record *record);
uint64_t model_changing_array(uint64_t part, const struct model_record *record);
uint64_t model_debris_needed(uint64_t part, const struct model_record *record);

/* Block and bank of an address, or MODEL_NONE. */
uint64_t model_block_of(uint64_t part, uint64_t address);
uint64_t model_bank_of(uint64_t part, uint64_t address);

/* Document 01, The die and its small twin: the small part divides every size and first word by 512. */
static inline unsigned model_scale(uint64_t part) { return part == MODEL_FULL ? 0 : 9; }
static inline uint64_t model_words(uint64_t part) { return (uint64_t)8388608 >> model_scale(part); }

/* The checks that every event begins with: the record, then the cells' length, then that of the one-time words. */
static inline uint64_t model_judge(uint64_t part, const struct model_record *record, size_t length, size_t otp_length)
{
#ifdef MODEL_TRUSTS
    (void)record;
#else
    if (!model_sound(part, record))
        return MODEL_STATE;
#endif
    return length == model_words(part) && otp_length == MODEL_ONE_TIME_WORDS ? MODEL_DONE : MODEL_CELLS;
}

static inline uint64_t model_block(uint64_t part, uint64_t address)
{
    uint64_t word = address << model_scale(part);

    return word < 32768 ? word / 4096 : word < 8355840 ? 8 + (word - 32768) / 32768 : 262 + (word - 8355840) / 4096;
}

static inline uint64_t model_bank(uint64_t block)
{
    return block < 39 ? 0 : block < 135 ? 1 : block < 231 ? 2 : 3;
}

static inline uint64_t model_first_word(uint64_t part, uint64_t block)
{
    uint64_t word = block < 8 ? block * 4096 : block < 262 ? 32768 + (block - 8) * 32768 : 8355840 + (block - 262) * 4096;

    return word >> model_scale(part);
}

static inline uint64_t model_block_words(uint64_t part, uint64_t block)
{
    return (uint64_t)(block < 8 || block >= 262 ? 4096 : 32768) >> model_scale(part);
}

/* The blocks of each bank, 0 to 38, 39 to 134, 135 to 230 and 231 to 269, and all of them. */
static const struct model_set MODEL_BANK_BLOCKS[MODEL_BANKS] = {
    { { 0x0000007FFFFFFFFF, 0, 0, 0, 0 } },
    { { 0xFFFFFF8000000000, UINT64_MAX, 0x7F, 0, 0 } },
    { { 0, 0, 0xFFFFFFFFFFFFFF80, 0x0000007FFFFFFFFF, 0 } },
    { { 0, 0, 0, 0xFFFFFF8000000000, 0x3FFF } },
};
static const struct model_set MODEL_EVERY_BLOCK = { { UINT64_MAX, UINT64_MAX, UINT64_MAX, UINT64_MAX, 0x3FFF } };

static inline bool model_has(const struct model_set *set, uint64_t block) { return set->bits[block / 64] >> block % 64 & 1; }

static inline void model_put(struct model_set *set, uint64_t block, bool member)
{
    uint64_t bit = (uint64_t)1 << block % 64, others = set->bits[block / 64] & ~bit;

    set->bits[block / 64] = member ? others | bit : others;
}

static inline bool model_meet(const struct model_set *one, const struct model_set *other)
{
    uint64_t both = 0;

    for (int i = 0; i < MODEL_SET_WORDS; i++)
        both |= one->bits[i] & other->bits[i];
    return both != 0;
}

static inline bool model_within(const struct model_set *inner, const struct model_set *outer)
{
    uint64_t outside = 0;

    for (int i = 0; i < MODEL_SET_WORDS; i++)
        outside |= inner->bits[i] & ~outer->bits[i];
    return outside == 0;
}

/* The lowest member from the block on, or MODEL_BLOCKS. */
static inline uint64_t model_next(const struct model_set *set, uint64_t block)
{
    while (block < MODEL_BLOCKS && !model_has(set, block))
        block = set->bits[block / 64] >> block % 64 == 0 ? (block / 64 + 1) * 64 : block + 1;
    return block < MODEL_BLOCKS ? block : MODEL_BLOCKS;
}

/* What operations the record has. */
static inline bool model_has_erase(const struct model_record *record) { return record->operation >= MODEL_WINDOW; }

static inline bool model_has_program(const struct model_record *record)
{
    return record->operation == MODEL_PROGRAM || record->operation == MODEL_SUSPENDED_PROGRAM
        || record->operation == MODEL_PROGRAM_INSIDE;
}

static inline bool model_program_runs(const struct model_record *record)
{
    return record->operation == MODEL_PROGRAM || record->operation == MODEL_PROGRAM_INSIDE;
}

/* Does an erase make progress? In its window and in a recovery it does not. */
static inline bool model_erase_runs(const struct model_record *record)
{
    return record->operation == MODEL_BLOCK_ERASE || record->operation == MODEL_CHIP_ERASE;
}

/* Is there something at work that takes no command, but B0H at most? */
static inline bool model_is_busy(const struct model_record *record)
{
    return model_program_runs(record) || model_erase_runs(record) || record->operation == MODEL_RECOVERY;
}

static inline bool model_erase_is_suspended(const struct model_record *record)
{
    return record->operation == MODEL_SUSPENDED_ERASE || record->operation == MODEL_PROGRAM_INSIDE;
}

static inline bool model_rests(const struct model_record *record)
{
    return record->operation == MODEL_SUSPENDED_ERASE || record->operation == MODEL_SUSPENDED_PROGRAM;
}

static inline uint64_t model_erase_time(const struct model_record *record)
{
    return record->operation == MODEL_CHIP_ERASE ? MODEL_CHIP_BLOCK_TIME : MODEL_BLOCK_TIME;
}

/* Document 01, Command cycles: a block is protected if its DYB or PPB is 1. */
static inline bool model_is_protected(const struct model_record *record, uint64_t block)
{
    return model_has(&record->dyb, block) || model_has(&record->ppb, block);
}

/* Document 02, request 4: while the one-time block is entered it lies over the first words. */
static inline enum model_array model_array_of(const struct model_record *record, uint64_t address)
{
    return record->entered && address < MODEL_ONE_TIME_WORDS ? MODEL_ONE_TIME : MODEL_MAIN;
}

/* May a program write there? OTPLOCKED stands in the place of PROTECTED, in soundness too: no block protects a one-time word. */
static inline uint64_t model_forbids(const struct model_record *record, uint64_t address, uint64_t block)
{
    if (model_array_of(record, address) == MODEL_ONE_TIME)
        return address < MODEL_CUSTOMER || record->sealed ? MODEL_OTPLOCKED : MODEL_DONE;
    return model_is_protected(record, block) ? MODEL_PROTECTED : MODEL_DONE;
}

#endif
