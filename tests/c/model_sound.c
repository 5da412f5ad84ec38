/* Which records are sound (document 01, Refusals by number, the paragraph below the table). See model.h. */
#include "model.h"

/* Document 02, request 4: in the one-time block nothing is suspended, no erase runs, none is half entered; and its lock is set and read
 * there alone. */
static bool one_time_is_sound(const struct model_record *record)
{
    enum model_command command = record->command;

    if (!record->entered)
        return command != MODEL_SEAL && command != MODEL_SEAL_STATUS;
    return (record->operation == MODEL_IDLE || record->operation == MODEL_PROGRAM)
        && command != MODEL_ERASE && command != MODEL_ERASE_FIRST && command != MODEL_ERASE_SECOND;
}

/* Document 01, Refusals by number: no command is half entered and no reading on while an operation runs (the window runs,
 * too); in suspension none is half entered past 80H, 48H or 60H, nor past A0H in a suspended program. */
static bool command_is_sound(const struct model_record *record)
{
    enum model_command command = record->command;

    if ((command == MODEL_PPB_SET && record->block >= MODEL_BLOCKS)
        || (command == MODEL_IDENTITY && record->bank >= MODEL_BANKS))
        return false;
    if (record->operation == MODEL_IDLE || command == MODEL_GROUND)
        return true;
    if (!model_rests(record))
        return false;
    return command <= MODEL_SECOND_UNLOCK || command == MODEL_IDENTITY || command == MODEL_PROTECTION
        || (command == MODEL_PROGRAM_DATA && record->operation == MODEL_SUSPENDED_ERASE);
}

/* A list that holds the block in hand is not empty; if it lies in one bank, then in that of the block in hand. A recovery has 1 to 20
 * microseconds left (document 02, request 1). */
static bool erase_is_sound(const struct model_record *record)
{
    const struct model_erase *erase = &record->erase;
    bool window = record->operation == MODEL_WINDOW, chip = record->operation == MODEL_CHIP_ERASE;
    bool recovers = record->operation == MODEL_RECOVERY;

    return erase->hand < MODEL_BLOCKS && model_has(&erase->list, erase->hand)
        && model_within(&erase->list, chip ? &MODEL_EVERY_BLOCK : &MODEL_BANK_BLOCKS[model_bank(erase->hand)])
        && !model_meet(&erase->list, &record->dyb) && !model_meet(&erase->list, &record->ppb)
        && erase->left >= 1 && erase->left <= (window ? MODEL_WINDOW_TIME : model_erase_time(record))
        && (!window || model_next(&erase->list, 0) == erase->hand)
        && (!recovers || (erase->recovery >= 1 && erase->recovery <= MODEL_RECOVERY_TIME));
}

static bool program_is_sound(uint64_t part, const struct model_record *record)
{
    const struct model_program *program = &record->program;

    return program->at < model_words(part) && program->left >= 1 && program->left <= MODEL_PROGRAM_TIME
        && model_forbids(record, program->at, model_block(part, program->at)) == MODEL_DONE
        && !(model_erase_is_suspended(record) && model_has(&record->erase.list, model_block(part, program->at)));
}

bool model_sound(uint64_t part, const struct model_record *record)
{
    return part <= MODEL_FULL && record->clock <= MODEL_CLOCK_LIMIT
        && record->charge <= MODEL_RUNNING_CURRENT * record->clock
        && model_within(&record->dyb, &MODEL_EVERY_BLOCK) && model_within(&record->ppb, &MODEL_EVERY_BLOCK)
        && command_is_sound(record) && one_time_is_sound(record) && (!model_has_erase(record) || erase_is_sound(record))
        && (!model_has_program(record) || program_is_sound(part, record));
}
