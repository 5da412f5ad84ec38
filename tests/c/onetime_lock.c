/*
 * The lock of the customer's one-time words (document 02, request 4), over the header and on both parts: 60H, 68H and 48H at addresses
 * that end in 1AH, its reading, what of PPB commands is left in the one-time block, and that nothing takes the lock back.
 */
#include "dice.h"
#include "driver.h"

/* 60H and the two writes that follow, both of which must be taken but for the last. */
static uint64_t after_60h(uint64_t first, uint16_t data, uint64_t second, uint16_t last)
{
    SAME(enter(0x60), K5L_DONE);
    SAME(bus_write(first, data), K5L_DONE);
    return bus_write(second, last);
}

/* The lock is set by the second write, at once, and changes nothing else; the first alone changes nothing. */
static void locking(uint64_t first, uint64_t second)
{
    fresh_inside();
    save();
    SAME(enter(0x60), K5L_DONE);
    SAME(record[COMMAND], AFTER_60);
    SAME(bus_write(first, 0x1268), K5L_DONE);
    SAME(record[COMMAND], HALF_LOCK);
    SAME(record[OTP_LOCK], 0);
    SAME(bus_write(second, 0xFF48), K5L_DONE);
    SAME(record[OTP_LOCK], 1);
    record[OTP_LOCK] = 0;
    HOLDS(is_saved());
}

/* Any address that ends in 1AH will do, and a second lock is no news; the PPB lock bit has no say. */
static void where(void)
{
    locking(0x1A, 0x1A);
    locking(0x51A, 0x1A);
    locking(k5l_first_word(part, 135) + 0x1A, length - 0x100 + 0x1A);
    fresh_inside();
    SAME(enter(0x78), K5L_DONE);
    SAME(lock_otp(), K5L_DONE);
    save();
    SAME(lock_otp(), K5L_DONE);
    HOLDS(is_saved());
    SAME(set_ppb(0), K5L_LOCKED);
}

/* All 128 words are locked at once, and stay as they are. */
static void what_is_locked(void)
{
    fresh_inside();
    otp[200] = 0x0F0F;
    SAME(lock_otp(), K5L_DONE);
    for (uint64_t at = 0; at < K5L_OTP_WORDS; at++) {
        SAME(program(at, otp[at]), K5L_OTPLOCKED);
        SAME(program(at, 0), K5L_OTPLOCKED);
        SAME(record[COMMAND] | record[OPERATION], 0);
        SAME(record[ENTERED], 1);
        SAME(bus_read(at), at == 200 ? 0x0F0F : 0xFFFF);
    }
    SAME(program(256, 0), K5L_DONE);
    SAME(pass(6), K5L_DONE);
    SAME(cells[256], 0);
    SAME(bus_write(0, 0xF0), K5L_DONE);
    SAME(record[OTP_LOCK], 1);
    SAME(program(200, 0), K5L_DONE);
    SAME(pass(6), K5L_DONE);
    SAME(cells[200], 0);
    SAME(otp[200], 0x0F0F);
}

/* The reading: the lock in bit 0 at every address; F0H alone is taken, and leaves the block. */
static void reading(void)
{
    for (uint64_t locked = 0; locked < 2; locked++) {
        fresh_inside();
        if (locked)
            SAME(lock_otp(), K5L_DONE);
        SAME(enter(0x60), K5L_DONE);
        SAME(bus_write(0x21A, 0x48), K5L_DONE);
        SAME(record[COMMAND], LOCK_READING);
        CHANGES_NOTHING(bus_read(0), locked);
        CHANGES_NOTHING(bus_read(0x1A), locked);
        CHANGES_NOTHING(bus_read(300), locked);
        CHANGES_NOTHING(bus_read(length - 1), locked);
        HOLDS(!reads_cells(0) && !reads_cells(1) && !reads_cells(2) && !reads_cells(3));
        SAME(bus_write(0, 0xF0), K5L_DONE);
        SAME(record[COMMAND] | record[ENTERED], 0);
        SAME(record[OTP_LOCK], locked);
    }
    for (unsigned data = 0; data < 0x100; data++) {
        fresh_inside();
        SAME(enter(0x60), K5L_DONE);
        SAME(bus_write(0x1A, 0x48), K5L_DONE);
        SAME(bus_write(data % 2 ? 0x1A : 0x555, (uint16_t)data), data == 0xF0 ? K5L_DONE : K5L_SEQUENCE);
        SAME(record[COMMAND] | record[OTP_LOCK], 0);
        SAME(record[ENTERED], data != 0xF0);
    }
}

/* After 60H each write is of the lock or of a PPB, by its address; the two must be of one kind. */
static void mixed(void)
{
    fresh_inside();
    SAME(after_60h(0x1A, 0x68, 0x1B, 0x48), K5L_SEQUENCE);
    SAME(after_60h(0x1B, 0x68, 0x1A, 0x48), K5L_SEQUENCE);
    SAME(after_60h(0x00, 0x60, 0x1A, 0x40), K5L_SEQUENCE);
    SAME(after_60h(0x1A, 0x68, 0x1A, 0x40), K5L_SEQUENCE);
    SAME(after_60h(0x1A, 0x68, 0x1A, 0x68), K5L_SEQUENCE);
    SAME(after_60h(0x1A, 0x48, 0x1A, 0x48), K5L_SEQUENCE);
    SAME(enter(0x78), K5L_DONE);
    SAME(after_60h(0x1B, 0x68, 0x1A, 0x48), K5L_SEQUENCE);
    SAME(after_60h(0x00, 0x60, 0x1A, 0x40), K5L_SEQUENCE);
    for (unsigned data = 0; data < 0x100; data++) {
        bool taken = data == 0x68 || data == 0x48 || data == 0xF0;

        fresh_inside();
        SAME(enter(0x60), K5L_DONE);
        SAME(bus_write(0x1A, (uint16_t)data), taken ? K5L_DONE : K5L_SEQUENCE);
        SAME(record[COMMAND], data == 0x68 ? HALF_LOCK : data == 0x48 ? LOCK_READING : GROUND);
        SAME(record[ENTERED], data != 0xF0);
        SAME(record[OTP_LOCK] | record[PPBS], 0);
    }
}

/* At other addresses PPBs are set and cleared as ever; 48H alone is SEQUENCE there. */
static void ppbs(void)
{
    uint64_t other = k5l_first_word(part, 10) + 3, high = k5l_first_word(part, 200);

    fresh_inside();
    SAME(set_ppb(other), K5L_DONE);
    SAME(set_ppb(high), K5L_DONE);
    SAME(record[PPBS], 1 << 10);
    SAME(record[PPBS + 3], 1 << 8);
    SAME(enter(0x60), K5L_DONE);
    SAME(bus_write(other, 0x48), K5L_SEQUENCE);
    SAME(after_60h(other, 0x68, high, 0x48), K5L_SEQUENCE);
    SAME(after_60h(0x1A + 1, 0x60, 0x1A - 1, 0x40), K5L_DONE);
    SAME(record[PPBS] | record[PPBS + 3] | record[OTP_LOCK], 0);
    SAME(record[ENTERED], 1);
}

/* Outside, an address that ends in 1AH is like any other. */
static void outside(void)
{
    fresh();
    SAME(after_60h(0x1A, 0x68, 0x1A, 0x48), K5L_DONE);
    SAME(record[PPBS], (uint64_t)1 << k5l_block_of(part, 0x1A));
    SAME(record[OTP_LOCK], 0);
    SAME(enter(0x60), K5L_DONE);
    SAME(bus_write(0x1A, 0x48), K5L_SEQUENCE);
    SAME(after_60h(0x1A, 0x60, 0x1A, 0x40), K5L_DONE);
    SAME(record[PPBS] | record[OTP_LOCK], 0);
}

/* Reads, writes, waits and cuts at random: the lock stays, and so does every one-time word. */
static void for_ever(void)
{
    static const uint16_t words[] = { 0xAA, 0x55, 0xA0, 0x80, 0x88, 0x90, 0x58, 0x48, 0x78, 0x60, 0x68, 0x40, 0x30, 0x10, 0xF0, 0x00 };
    static const uint64_t places[] = { 0x555, 0x2AA, 0x1A, 0, 128, 200, 255, 256 };
    static uint16_t debris[K5L_FULL_DEBRIS];

    fresh_inside();
    SAME(lock_otp(), K5L_DONE);
    for (int i = 0; i < 20000; i++) {
        if (record[COMMAND] == GROUND && record[OPERATION] == NO_OPERATION && once_in(2))
            enter(ONE_OF(words));
        else if (once_in(20))
            SAME(cut(debris, K5L_FULL_DEBRIS), K5L_DONE);
        else if (once_in(3))
            SAME(pass(once_in(10) ? 700050 : below(10)), K5L_DONE);
        else
            bus_write(ONE_OF(places), ONE_OF(words));
        SAME(record[OTP_LOCK], 1);
    }
    for (unsigned i = 0; i < OTP_ROOM; i++)
        SAME(otp[i], 0xFFFF);
}

int main(void)
{
    for (uint64_t which = K5L_SMALL; which <= K5L_FULL; which++) {
        take_part(which);
        where();
        what_is_locked();
        reading();
        mixed();
        ppbs();
        outside();
        for_ever();
    }
    return check_report("onetime_lock");
}
