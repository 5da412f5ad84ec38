/* See image.h; the numbers of the words are those of the header's table. */
#include "image.h"

#include <string.h>

/* The model counts its commands and operations in the header's order. A recovery is its own operation, in the header a block erase
 * with word 29. */
_Static_assert(MODEL_PROGRAM_DATA == 3 && MODEL_DYB_DATA == 7 && MODEL_PPB_SET == 9 && MODEL_PROTECTION == 12, "word 3");
_Static_assert(MODEL_SEAL == 13 && MODEL_SEAL_STATUS == 14 && MODEL_COMMANDS == 15, "word 3");
_Static_assert(MODEL_PROGRAM == 1 && MODEL_WINDOW == 3 && MODEL_PROGRAM_INSIDE == 6 && MODEL_CHIP_ERASE == 7, "word 5");

void image_encode(const struct model_record *record, uint64_t image[K5L_RECORD_WORDS])
{
    memset(image, 0, K5L_RECORD_WORDS * sizeof *image);
    image[0] = K5L_LAYOUT;
    image[1] = record->clock;
    image[2] = record->charge;
    image[3] = record->command;
    image[4] = record->command == MODEL_PPB_SET ? record->block : record->command == MODEL_IDENTITY ? record->bank : 0;
    image[5] = record->operation == MODEL_RECOVERY ? MODEL_BLOCK_ERASE : record->operation;
    if (model_has_erase(record)) {
        memcpy(image + 6, record->erase.list.bits, sizeof record->erase.list.bits);
        image[11] = record->erase.hand;
        image[12] = record->erase.left;
        image[13] = record->erase.dq6 + 2 * record->erase.dq2;
    }
    if (model_has_program(record)) {
        image[14] = record->program.at;
        image[15] = record->program.word;
        image[16] = record->program.left;
        image[17] = record->program.dq6;
    }
    memcpy(image + 18, record->dyb.bits, sizeof record->dyb.bits);
    memcpy(image + 23, record->ppb.bits, sizeof record->ppb.bits);
    image[28] = record->lock;
    image[29] = record->operation == MODEL_RECOVERY ? record->erase.recovery : 0;
    image[30] = record->entered;
    image[31] = record->sealed;
}

/* What does not fit its field, and what is in no field, is lost on the way in and so missing on the way back. */
bool image_decode(const uint64_t *image, size_t words, struct model_record *record)
{
    uint64_t back[K5L_RECORD_WORDS];

    if (words != K5L_RECORD_WORDS || image[3] >= MODEL_COMMANDS || image[5] > MODEL_CHIP_ERASE)
        return false;
    *record = model_fresh();
    record->clock = image[1];
    record->charge = image[2];
    record->command = (enum model_command)image[3];
    record->operation = image[5] == MODEL_BLOCK_ERASE && image[29] != 0 ? MODEL_RECOVERY : (enum model_operation)image[5];
    record->block = record->bank = image[4];
    memcpy(record->erase.list.bits, image + 6, sizeof record->erase.list.bits);
    record->erase.hand = image[11];
    record->erase.left = image[12];
    record->erase.dq6 = image[13] & 1;
    record->erase.dq2 = image[13] & 2;
    record->program.at = image[14];
    record->program.word = (uint16_t)image[15];
    record->program.left = image[16];
    record->program.dq6 = image[17] & 1;
    memcpy(record->dyb.bits, image + 18, sizeof record->dyb.bits);
    memcpy(record->ppb.bits, image + 23, sizeof record->ppb.bits);
    record->lock = image[28] & 1;
    record->erase.recovery = image[29];
    record->entered = image[30] & 1;
    record->sealed = image[31] & 1;
    image_encode(record, back);
    return memcmp(back, image, sizeof back) == 0;
}
