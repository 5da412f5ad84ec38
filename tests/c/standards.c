/* Uses of the headers that each C from 1999 on and each C++ from 2011 on must take without a warning: see tests/c/standards. */
#include "k5l2931cam_print.h"

#if K5L_NONE == 0 || K5L_VERSION_MAJOR < 3
#error "K5L_NONE and the version are no numbers here"
#endif

static uint16_t cells[K5L_SMALL_WORDS], otp[K5L_OTP_WORDS];
static uint64_t stored[29] = { 1 };

static int is_block(uint64_t block)
{
    switch (block) {
    case K5L_NONE: return 0;
    default: return 1;
    }
}

int main(void)
{
    struct k5l_device device;
    const uint16_t *serial;

    if (k5l_device_fresh(&device, K5L_SMALL, cells, K5L_SMALL_WORDS, otp, K5L_OTP_WORDS) != K5L_DONE)
        return 1;
    if (k5l_carry(stored, 29, device.record, K5L_RECORD_WORDS) != K5L_DONE)
        return 1;
    k5l_device_read(&device, 0); /* a bus cycle whose word nobody wants */
    serial = k5l_range_words(k5l_device_range(&device, K5L_OTP_CUSTOMER, 8), device.cells, device.otp);
#ifdef DROPS /* eleven refusals that nobody looks at */
    k5l_fresh(device.record, K5L_RECORD_WORDS);
    k5l_carry(stored, 29, device.record, K5L_RECORD_WORDS);
    k5l_write(K5L_SMALL, device.record, K5L_RECORD_WORDS, cells, K5L_SMALL_WORDS, otp, K5L_OTP_WORDS, 0, 0xF0);
    k5l_wait(K5L_SMALL, device.record, K5L_RECORD_WORDS, cells, K5L_SMALL_WORDS, otp, K5L_OTP_WORDS, 1);
    k5l_cut(K5L_SMALL, device.record, K5L_RECORD_WORDS, cells, K5L_SMALL_WORDS, otp, K5L_OTP_WORDS, NULL, 0);
    k5l_range(K5L_SMALL, device.record, K5L_RECORD_WORDS, cells, K5L_SMALL_WORDS, otp, K5L_OTP_WORDS, 0, 1);
    k5l_device_fresh(&device, K5L_SMALL, cells, K5L_SMALL_WORDS, otp, K5L_OTP_WORDS);
    k5l_device_write(&device, 0, 0xF0);
    k5l_device_wait(&device, 1);
    k5l_device_cut(&device, NULL, 0);
    k5l_device_range(&device, 0, 1);
#endif
    printf("%s, %s\n", K5L_VERSION, k5l_refusal_name(k5l_refusal_of(k5l_device_read(&device, K5L_SMALL_WORDS))));
    k5l_print_record(stdout, device.part, device.record, K5L_RECORD_WORDS);
    return serial == NULL && is_block(k5l_device_changing_block(&device));
}
