/* The writes: the command register, the erase window, and what is at work (document 01, Command cycles). See model.h. */
#include "model.h"

#include <string.h>

/* Moves the command register, and answers. */
static uint64_t enter(struct model_record *record, enum model_command command, uint64_t refusal)
{
    record->command = command;
    return refusal;
}

static uint64_t go_on(struct model_record *record, bool continues, enum model_command command)
{
    return continues ? enter(record, command, MODEL_DONE) : enter(record, MODEL_GROUND, MODEL_SEQUENCE);
}

/* Document 01, Time, charge and the cells: the window takes 30H and B0H, which suspends at once; BANK is checked before PROTECTED. */
static uint64_t write_in_window(struct model_record *record, uint64_t block, unsigned data)
{
    struct model_erase *erase = &record->erase;

    if (data == 0x30 && model_bank(block) != model_bank(erase->hand))
        return MODEL_BANK;
    if (data == 0x30 && model_is_protected(record, block))
        return MODEL_PROTECTED;
    if (data == 0x30) {
        model_put(&erase->list, block, true);
        erase->hand = block < erase->hand ? block : erase->hand;
        erase->left = MODEL_WINDOW_TIME;
        return MODEL_DONE;
    }
    record->operation = data == 0xB0 ? MODEL_SUSPENDED_ERASE : MODEL_IDLE;
    erase->left = MODEL_BLOCK_TIME;
    return data == 0xB0 ? MODEL_DONE : MODEL_SEQUENCE;
}

/* Document 02, requests 1 and 9: B0H lets a running block erase recover, which ends in suspension. Nothing else at work takes it, no
 * program and no recovery. */
static uint64_t write_while_busy(struct model_record *record, unsigned data)
{
    if (data != 0xB0 || record->operation != MODEL_BLOCK_ERASE)
        return MODEL_BUSY;
    record->operation = MODEL_RECOVERY;
    record->erase.recovery = MODEL_RECOVERY_TIME;
    return MODEL_DONE;
}

/* `old` is the word as it is lent: a bit of the data that it does not have is refused last (document 02, request 6). */
static uint64_t start_program(struct model_record *record, uint64_t address, uint64_t block, uint16_t old, uint16_t word)
{
    uint64_t refusal = model_forbids(record, address, block);

    if (refusal != MODEL_DONE)
        return enter(record, MODEL_GROUND, refusal);
    if (record->operation == MODEL_SUSPENDED_ERASE && model_has(&record->erase.list, block))
        return enter(record, MODEL_GROUND, MODEL_SUSPENDED);
    if ((word & ~old) != 0)
        return enter(record, MODEL_GROUND, MODEL_RAISE);
    record->operation = record->operation == MODEL_SUSPENDED_ERASE ? MODEL_PROGRAM_INSIDE : MODEL_PROGRAM;
    record->program = (struct model_program){ .at = address, .left = MODEL_PROGRAM_TIME, .word = word };
    return enter(record, MODEL_GROUND, MODEL_DONE);
}

static uint64_t start_block_erase(struct model_record *record, uint64_t block)
{
    if (model_is_protected(record, block))
        return enter(record, MODEL_GROUND, MODEL_PROTECTED);
    record->operation = MODEL_WINDOW;
    record->erase = (struct model_erase){ .hand = block, .left = MODEL_WINDOW_TIME };
    model_put(&record->erase.list, block, true);
    return enter(record, MODEL_GROUND, MODEL_DONE);
}

static uint64_t start_chip_erase(struct model_record *record)
{
    struct model_erase erase = { .left = MODEL_CHIP_BLOCK_TIME };

    for (int i = 0; i < MODEL_SET_WORDS; i++)
        erase.list.bits[i] = MODEL_EVERY_BLOCK.bits[i] & ~(record->dyb.bits[i] | record->ppb.bits[i]);
    erase.hand = model_next(&erase.list, 0);
    if (erase.hand == MODEL_BLOCKS)
        return enter(record, MODEL_GROUND, MODEL_PROTECTED);
    record->operation = MODEL_CHIP_ERASE;
    record->erase = erase;
    return enter(record, MODEL_GROUND, MODEL_DONE);
}

/* The last write of both PPB commands, where LOCKED is judged. */
static uint64_t change_ppbs(struct model_record *record, bool continues)
{
    if (continues && record->lock)
        return enter(record, MODEL_GROUND, MODEL_LOCKED);
    if (continues && record->command == MODEL_PPB_SET)
        model_put(&record->ppb, record->block, true);
    else if (continues)
        memset(&record->ppb, 0, sizeof record->ppb);
    return go_on(record, continues, MODEL_GROUND);
}

/* Document 02, request 4: in the one-time block a write after 60H whose address ends in 1AH is about its lock, and about no PPB. */
static bool is_at_seal(const struct model_record *record, uint64_t address)
{
    return record->entered && (address & 0xFF) == 0x1A;
}

/* The first of the two writes after 60H. */
static uint64_t write_after_60h(struct model_record *record, bool at_seal, uint64_t block, unsigned data)
{
    record->block = block;
    if (at_seal)
        return go_on(record, data == 0x68 || data == 0x48, data == 0x68 ? MODEL_SEAL : MODEL_SEAL_STATUS);
    return go_on(record, data == 0x68 || data == 0x60, data == 0x68 ? MODEL_PPB_SET : MODEL_PPB_CLEAR);
}

/* The second one, which locks for ever; the PPB lock bit has no say in it. */
static uint64_t seal(struct model_record *record, bool continues)
{
    record->sealed |= continues;
    return go_on(record, continues, MODEL_GROUND);
}

/* Exit, after 90H in the one-time block: 00H anywhere. */
static uint64_t leave(struct model_record *record, unsigned data)
{
    bool leaves = record->entered && data == 0x00;

    record->entered &= !leaves;
    return go_on(record, leaves, MODEL_GROUND);
}

/* The third write, at 555H, where SUSPENDED is judged but for a program into a listed block. Nothing is suspended in the one-time
 * block, so which of SUSPENDED and its SEQUENCE is judged first is no question. */
static uint64_t write_third(struct model_record *record, uint64_t block, unsigned data)
{
    bool suspended = model_rests(record);
    enum model_command command = MODEL_GROUND;

    switch (data) {
    case 0x90: record->bank = model_bank(block); return enter(record, MODEL_IDENTITY, MODEL_DONE);
    case 0x58: return enter(record, MODEL_PROTECTION, MODEL_DONE);
    case 0xA0: suspended = record->operation == MODEL_SUSPENDED_PROGRAM; command = MODEL_PROGRAM_DATA; break;
    case 0x80:
        if (record->entered)
            return enter(record, MODEL_GROUND, MODEL_SEQUENCE);
        command = MODEL_ERASE;
        break;
    case 0x48: command = MODEL_DYB_DATA; break;
    case 0x60: command = MODEL_PPB; break;
    case 0x78: case 0x88: break;
    default: return enter(record, MODEL_GROUND, MODEL_SEQUENCE);
    }
    if (suspended)
        return enter(record, MODEL_GROUND, MODEL_SUSPENDED);
    record->lock |= data == 0x78;
    record->entered |= data == 0x88;
    return enter(record, command, MODEL_DONE);
}

/* A write at ground: 30H resumes what is suspended. */
static uint64_t write_first(struct model_record *record, bool unlocks, unsigned data)
{
    if (data != 0x30 || !model_rests(record))
        return go_on(record, unlocks, MODEL_FIRST_UNLOCK);
    record->operation = record->operation == MODEL_SUSPENDED_ERASE ? MODEL_BLOCK_ERASE : MODEL_PROGRAM;
    return MODEL_DONE;
}

/* Document 01, Command cycles: addresses are compared on 11 bits, data on 8; the two data cycles come before F0H, which leaves the
 * one-time block, too. */
static uint64_t write_command(struct model_record *record, uint64_t address, uint64_t block, uint16_t old, uint16_t word)
{
    unsigned data = word & 0xFF, at = address & 0x7FF;
    bool first = at == 0x555 && data == 0xAA, second = at == 0x2AA && data == 0x55, at_seal = is_at_seal(record, address);

    if (record->command == MODEL_PROGRAM_DATA)
        return start_program(record, address, block, old, word);
    if (record->command == MODEL_DYB_DATA) {
        if ((data & 0x0F) <= 1)
            model_put(&record->dyb, block, data & 1);
        return go_on(record, (data & 0x0F) <= 1, MODEL_GROUND);
    }
    if (data == 0xF0) {
        record->entered = false;
        return enter(record, MODEL_GROUND, MODEL_DONE);
    }
    switch (record->command) {
    case MODEL_GROUND: return write_first(record, first, data);
    case MODEL_FIRST_UNLOCK: return go_on(record, second, MODEL_SECOND_UNLOCK);
    case MODEL_SECOND_UNLOCK: return write_third(record, block, at == 0x555 ? data : 0);
    case MODEL_ERASE: return go_on(record, first, MODEL_ERASE_FIRST);
    case MODEL_ERASE_FIRST: return go_on(record, second, MODEL_ERASE_SECOND);
    case MODEL_ERASE_SECOND:
        if (data == 0x30)
            return start_block_erase(record, block);
        return data == 0x10 && at == 0x555 ? start_chip_erase(record) : go_on(record, false, MODEL_GROUND);
    case MODEL_PPB: return write_after_60h(record, at_seal, block, data);
    case MODEL_PPB_SET: return change_ppbs(record, data == 0x48 && !at_seal && block == record->block);
    case MODEL_PPB_CLEAR: return change_ppbs(record, data == 0x40 && !at_seal);
    case MODEL_SEAL: return seal(record, data == 0x48 && at_seal);
    case MODEL_IDENTITY: return leave(record, data);
    default: return go_on(record, false, MODEL_GROUND);
    }
}

uint64_t model_write(uint64_t part, struct model_record *record, const uint16_t *cells, size_t length, const uint16_t *otp,
                     size_t otp_length, uint64_t address, uint16_t word)
{
    uint64_t refusal = model_judge(part, record, length, otp_length), block;

    if (refusal != MODEL_DONE || address >= length)
        return refusal != MODEL_DONE ? refusal : MODEL_ADDRESS;
    block = model_block(part, address);
    if (record->operation == MODEL_WINDOW)
        return write_in_window(record, block, word & 0xFF);
    if (model_is_busy(record))
        return write_while_busy(record, word & 0xFF);
    return write_command(record, address, block, model_array_of(record, address) == MODEL_ONE_TIME ? otp[address] : cells[address], word);
}
