/* A program as a user of the installed library writes it: an event, a question and a lookup, each from another part of it. */
#include <k5l2931cam.h>

#include <stdio.h>

static uint64_t record[K5L_RECORD_WORDS];
static uint16_t cells[K5L_SMALL_WORDS], otp[K5L_OTP_WORDS];

int main(void)
{
    uint64_t fresh = k5l_fresh(record, K5L_RECORD_WORDS);
    uint64_t wait = k5l_wait(K5L_SMALL, record, K5L_RECORD_WORDS, cells, K5L_SMALL_WORDS, otp, K5L_OTP_WORDS, 20);
    uint64_t clock = k5l_clock(K5L_SMALL, record, K5L_RECORD_WORDS);
    uint64_t charge = k5l_charge(K5L_SMALL, record, K5L_RECORD_WORDS);
    uint64_t block = k5l_full_block(0x7FFFFF);

    printf("%d %d: %d us, %d pC, block %d, version " K5L_VERSION "\n", (int)fresh, (int)wait, (int)clock, (int)charge,
           (int)block);
    return 0;
}
