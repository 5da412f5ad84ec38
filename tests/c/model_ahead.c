/* What comes by itself, and what a cut would need (document 01, Time, charge and the cells; The cut). See model.h. */
#include "model.h"

/* Lets what runs go on to its next change, told by the record alone, and gives the time it takes; 0 where nothing runs. */
static uint64_t step(struct model_record *record)
{
    struct model_erase *erase = &record->erase;
    uint64_t taken = model_program_runs(record) ? record->program.left : erase->left;

    if (record->operation == MODEL_WINDOW) {
        record->operation = MODEL_BLOCK_ERASE;
        erase->left = MODEL_BLOCK_TIME;
    } else if (record->operation == MODEL_RECOVERY) {
        record->operation = MODEL_SUSPENDED_ERASE;
        taken = erase->recovery;
    } else if (model_erase_runs(record)) {
        erase->left = model_erase_time(record);
        erase->hand = model_next(&erase->list, erase->hand + 1);
        record->operation = erase->hand == MODEL_BLOCKS ? MODEL_IDLE : record->operation;
    } else if (model_program_runs(record))
        record->operation = record->operation == MODEL_PROGRAM_INSIDE ? MODEL_SUSPENDED_ERASE : MODEL_IDLE;
    else
        return 0;
    return taken;
}

uint64_t model_until_end(uint64_t part, const struct model_record *record)
{
    struct model_record later = *record;
    uint64_t sum = 0;

    if (!model_sound(part, record))
        return MODEL_NONE;
    for (uint64_t taken = step(&later); taken > 0; taken = step(&later))
        sum += taken;
    return sum;
}

uint64_t model_until_change(uint64_t part, const struct model_record *record)
{
    struct model_record later = *record;
    uint64_t taken = model_sound(part, record) ? step(&later) : 0;

    return taken > 0 ? taken : MODEL_NONE;
}

uint64_t model_changing_block(uint64_t part, const struct model_record *record)
{
    return model_sound(part, record) && model_erase_runs(record) ? record->erase.hand : MODEL_NONE;
}

uint64_t model_changing_word(uint64_t part, const struct model_record *record)
{
    return model_sound(part, record) && model_program_runs(record) ? record->program.at : MODEL_NONE;
}

/* The array of a word that one of the questions names. */
static uint64_t array_of(const struct model_record *record, uint64_t word)
{
    return word != MODEL_NONE ? (uint64_t)model_array_of(record, word) : MODEL_NONE;
}

uint64_t model_exposed_array(uint64_t part, const struct model_record *record)
{
    return array_of(record, model_exposed_word(part, record));
}

uint64_t model_changing_array(uint64_t part, const struct model_record *record)
{
    return array_of(record, model_changing_word(part, record));
}

uint64_t model_debris_needed(uint64_t part, const struct model_record *record)
{
    uint64_t block = model_exposed_block(part, record), word = model_exposed_word(part, record);

    if (!model_sound(part, record))
        return MODEL_NONE;
    return (block != MODEL_NONE ? model_block_words(part, block) : 0) + (word != MODEL_NONE);
}

uint64_t model_block_of(uint64_t part, uint64_t address)
{
    return part <= MODEL_FULL && address < model_words(part) ? model_block(part, address) : MODEL_NONE;
}

uint64_t model_bank_of(uint64_t part, uint64_t address)
{
    uint64_t block = model_block_of(part, address);

    return block != MODEL_NONE ? model_bank(block) : MODEL_NONE;
}
