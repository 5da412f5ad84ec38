/* The device in plain C, rule by rule from document 01: reads, waits and cuts. See model.h. */
#include "model.h"

#include <string.h>

struct model_record model_fresh(void)
{
    struct model_record record;

    memset(&record, 0, sizeof record);
    return record;
}

/* Document 01, Status words: reads in the bank of a running operation, window and recovery included, or of any chip erase. */
static bool program_shows(uint64_t part, const struct model_record *record, uint64_t bank)
{
    return model_program_runs(record) && bank == model_bank(model_block(part, record->program.at));
}

static bool erase_shows(const struct model_record *record, uint64_t bank)
{
    return record->operation == MODEL_CHIP_ERASE
        || ((record->operation == MODEL_WINDOW || record->operation == MODEL_BLOCK_ERASE || record->operation == MODEL_RECOVERY)
            && bank == model_bank(record->erase.hand));
}

static unsigned program_status(struct model_program *program)
{
    program->dq6 = !program->dq6;
    return (~program->word & 0x80u) | (unsigned)program->dq6 << 6 | 0x04;
}

static unsigned erase_status(struct model_erase *erase, uint64_t block, bool window)
{
    erase->dq6 = !erase->dq6;
    erase->dq2 ^= model_has(&erase->list, block);
    return (unsigned)erase->dq6 << 6 | (window ? 0 : 0x08) | (unsigned)erase->dq2 << 2;
}

static unsigned suspended_erase_word(struct model_erase *erase)
{
    erase->dq2 = !erase->dq2;
    return 0xC0 | (unsigned)erase->dq2 << 2;
}

/* Document 01, Command cycles, 90H. */
static unsigned identity(const struct model_record *record, uint64_t address, uint64_t block)
{
    return (address & 0xFF) == 0 ? 0x00EC : (address & 0xFF) == 2 ? model_has(&record->ppb, block) : 0;
}

/* What a read gives, in the order of document 01, Status words; the one-time words are read where cells would be. */
static unsigned shown(uint64_t part, struct model_record *record, const uint16_t *cells, const uint16_t *otp, uint64_t address)
{
    uint64_t block = model_block(part, address), bank = model_bank(block);

    if (program_shows(part, record, bank))
        return program_status(&record->program);
    if (erase_shows(record, bank))
        return erase_status(&record->erase, block, record->operation == MODEL_WINDOW);
    if (record->command == MODEL_IDENTITY && bank == record->bank)
        return identity(record, address, block);
    if (record->command == MODEL_PROTECTION)
        return model_has(&record->dyb, block) | (unsigned)record->lock << 1;
    if (record->command == MODEL_SEAL_STATUS)
        return record->sealed;
    if (model_erase_is_suspended(record) && model_has(&record->erase.list, block))
        return suspended_erase_word(&record->erase);
    if (record->operation == MODEL_SUSPENDED_PROGRAM && block == model_block(part, record->program.at))
        return (~record->program.word & 0x80u) | 0x44;
    return model_array_of(record, address) == MODEL_ONE_TIME ? otp[address] : cells[address];
}

struct model_answer model_read(uint64_t part, struct model_record *record, const uint16_t *cells, size_t length,
                               const uint16_t *otp, size_t otp_length, uint64_t address)
{
    uint64_t refusal = model_judge(part, record, length, otp_length);

    if (refusal == MODEL_DONE && address >= length)
        refusal = MODEL_ADDRESS;
    return (struct model_answer){ refusal, refusal == MODEL_DONE ? (uint16_t)shown(part, record, cells, otp, address) : 0 };
}

/* The word that a program is for: the block is neither entered nor left while it runs. */
static uint16_t *word_of_program(const struct model_record *record, uint16_t *cells, uint16_t *otp)
{
    return (model_array_of(record, record->program.at) == MODEL_ONE_TIME ? otp : cells) + record->program.at;
}

/* Both let time pass for what runs, and give the microseconds that it ran. */
static uint64_t run_program(struct model_record *record, uint16_t *target, uint64_t microseconds)
{
    struct model_program *program = &record->program;
    uint64_t left = program->left;

    if (microseconds < left) {
        program->left -= microseconds;
        return microseconds;
    }
    *target &= program->word;
    record->operation = record->operation == MODEL_PROGRAM_INSIDE ? MODEL_SUSPENDED_ERASE : MODEL_IDLE;
    return left;
}

static uint64_t run_erase(uint64_t part, struct model_record *record, uint16_t *cells, uint64_t microseconds)
{
    struct model_erase *erase = &record->erase;
    uint64_t rest = microseconds;

    while (rest >= erase->left) {
        rest -= erase->left;
        memset(cells + model_first_word(part, erase->hand), 0xFF, model_block_words(part, erase->hand) * sizeof *cells);
        erase->left = model_erase_time(record);
        erase->hand = model_next(&erase->list, erase->hand + 1);
        if (erase->hand == MODEL_BLOCKS) {
            record->operation = MODEL_IDLE;
            return microseconds - rest;
        }
    }
    erase->left -= rest;
    return microseconds;
}

/* The window draws as if nothing ran, and what is left of a wait goes to the first block. */
static uint64_t run_window(struct model_record *record, uint64_t microseconds)
{
    struct model_erase *erase = &record->erase;
    uint64_t rest = microseconds < erase->left ? 0 : microseconds - erase->left;

    record->operation = microseconds < erase->left ? MODEL_WINDOW : MODEL_BLOCK_ERASE;
    erase->left = microseconds < erase->left ? erase->left - microseconds : MODEL_BLOCK_TIME;
    return rest;
}

/* Document 02, request 1: a recovery draws as if the erase ran, and the block in hand keeps the time that it has left. */
static uint64_t run_recovery(struct model_record *record, uint64_t microseconds)
{
    uint64_t left = record->erase.recovery, ran = microseconds < left ? microseconds : left;

    record->operation = ran < left ? MODEL_RECOVERY : MODEL_SUSPENDED_ERASE;
    record->erase.recovery = left - ran;
    return ran;
}

uint64_t model_wait(uint64_t part, struct model_record *record, uint16_t *cells, size_t length, uint16_t *otp, size_t otp_length,
                    uint64_t microseconds)
{
    uint64_t refusal = model_judge(part, record, length, otp_length), rest = microseconds, ran = 0;

    if (refusal != MODEL_DONE || microseconds > MODEL_CLOCK_LIMIT - record->clock)
        return refusal != MODEL_DONE ? refusal : MODEL_CLOCK;
    if (record->operation == MODEL_WINDOW)
        rest = run_window(record, microseconds);
    if (model_program_runs(record))
        ran = run_program(record, word_of_program(record, cells, otp), rest);
    else if (model_erase_runs(record))
        ran = run_erase(part, record, cells, rest);
    else if (record->operation == MODEL_RECOVERY)
        ran = run_recovery(record, microseconds);
    record->clock += microseconds;
    record->charge += ran * MODEL_RUNNING_CURRENT + (microseconds - ran) * MODEL_RESTING_CURRENT;
    return MODEL_DONE;
}

/* Document 01, The cut: begun is what has less than its full time left, suspended or not; a window has not begun. */
static bool erase_has_begun(const struct model_record *record)
{
    return model_has_erase(record) && record->operation != MODEL_WINDOW && record->erase.left < model_erase_time(record);
}

static bool program_has_begun(const struct model_record *record)
{
    return model_has_program(record) && record->program.left < MODEL_PROGRAM_TIME;
}

/* Document 02, request 4: a cut leaves the one-time block, and its lock as it is. */
uint64_t model_cut(uint64_t part, struct model_record *record, uint16_t *cells, size_t length, uint16_t *otp, size_t otp_length,
                   const uint16_t *debris, size_t debris_length)
{
    uint64_t refusal = model_judge(part, record, length, otp_length);
    size_t of_block = erase_has_begun(record) ? model_block_words(part, record->erase.hand) : 0;
    size_t of_program = program_has_begun(record);

    if (refusal != MODEL_DONE || debris_length < of_block + of_program)
        return refusal != MODEL_DONE ? refusal : MODEL_DEBRIS;
    if (of_block > 0)
        memcpy(cells + model_first_word(part, record->erase.hand), debris, of_block * sizeof *cells);
    if (of_program > 0)
        *word_of_program(record, cells, otp) &= record->program.word | debris[of_block];
    record->operation = MODEL_IDLE;
    record->command = MODEL_GROUND;
    memset(&record->dyb, 0, sizeof record->dyb);
    record->lock = record->entered = false;
    return MODEL_DONE;
}

uint64_t model_exposed_block(uint64_t part, const struct model_record *record)
{
    return model_sound(part, record) && erase_has_begun(record) ? record->erase.hand : MODEL_NONE;
}

uint64_t model_exposed_word(uint64_t part, const struct model_record *record)
{
    return model_sound(part, record) && program_has_begun(record) ? record->program.at : MODEL_NONE;
}

bool model_reads_cells(uint64_t part, const struct model_record *record, uint64_t bank)
{
    return bank < MODEL_BANKS && model_sound(part, record)
        && !program_shows(part, record, bank) && !erase_shows(record, bank)
        && record->command != MODEL_PROTECTION && record->command != MODEL_SEAL_STATUS
        && !(record->command == MODEL_IDENTITY && record->bank == bank)
        && !(record->entered && bank == model_bank(model_block(part, 0)))
        && !(model_erase_is_suspended(record) && model_bank(record->erase.hand) == bank)
        && !(record->operation == MODEL_SUSPENDED_PROGRAM && model_bank(model_block(part, record->program.at)) == bank);
}
