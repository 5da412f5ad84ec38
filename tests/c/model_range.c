/* A range of words handed back where it lies (document 02, request 4). See model.h. */
#include "model.h"

/* The first address selects the array; ADDRESS is judged by that array even where BUSY would come next. */
struct model_range model_range(uint64_t part, const struct model_record *record, size_t length, size_t otp_length, uint64_t first,
                               uint64_t count)
{
    uint64_t refusal = model_judge(part, record, length, otp_length);
    enum model_array array = model_array_of(record, first);
    uint64_t end = array == MODEL_ONE_TIME ? otp_length : length;

    if (refusal == MODEL_DONE && (first >= length || count > end - first))
        refusal = MODEL_ADDRESS;
    if (refusal == MODEL_DONE && (!record->entered || record->operation != MODEL_IDLE))
        refusal = MODEL_BUSY;
    return refusal == MODEL_DONE ? (struct model_range){ refusal, array, first } : (struct model_range){ .refusal = refusal };
}
