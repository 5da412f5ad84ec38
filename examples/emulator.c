/*
 * A small emulator around the flash chip, to start your own from: a bus that lets time pass, a flash driver as a boot loader
 * has it, a scheduler that knows when to wake it, a device saved and brought back, an updater that forgets an erase, a battery
 * that fails in the middle of one, and a serial number in the one-time block. It uses the small part: 16,384 words, blocks of 64.
 */
#include "k5l2931cam.h"
#include "k5l2931cam_print.h"

#include <inttypes.h>
#include <stdio.h>
#include <string.h>

/* All there is of the chip: its record, its cells and its one-time words. Save them to a file and the device is saved. Up to the serial
 * number nobody enters the one-time block: all that it needs until then is this array of 256 words, whatever they hold. */
static uint16_t cells[K5L_SMALL_WORDS], otp[K5L_OTP_WORDS];
static struct k5l_device chip;

/* A bus cycle takes 100 ns; the chip counts whole microseconds. */
static const unsigned BUS_CYCLE = 100;
static unsigned nanoseconds;

/* A real chip ignores what it does not take; an emulator had better say so. */
static void log_refusal(const char *what, uint64_t address, uint64_t refusal)
{
    if (refusal != K5L_DONE)
        printf("  [chip: %s at %" PRIu64 ": %s]\n", what, address, k5l_refusal_name(refusal));
}

/* The emulator's time is the chip's time: programs and erases go on in here, and cells change. */
static void let_pass(uint64_t microseconds)
{
    log_refusal("wait", 0, k5l_device_wait(&chip, microseconds));
}

static void tick(void)
{
    nanoseconds += BUS_CYCLE;
    let_pass(nanoseconds / 1000);
    nanoseconds %= 1000;
}

static uint16_t bus_read(uint64_t address)
{
    uint64_t answer = k5l_device_read(&chip, address);

    log_refusal("read", address, k5l_refusal_of(answer));
    tick();
    return k5l_word_of(answer);
}

static void bus_write(uint64_t address, uint16_t word)
{
    log_refusal("write", address, k5l_device_write(&chip, address, word));
    tick();
}

/* The scheduler: a driver that sleeps until the chip is done need not be woken before the chip changes by itself. What changes then
 * is known, too, for whoever keeps copies of cells. False if nothing ever will. */
static bool sleep_until_change(void)
{
    uint64_t time = k5l_device_until_change(&chip), block = k5l_device_changing_block(&chip);

    if (time == K5L_NONE)
        return false;
    printf("  %" PRIu64 " us to the end: asleep for %" PRIu64, k5l_device_until_end(&chip), time);
    let_pass(time);
    if (block == K5L_NONE)
        printf(", and no block has changed\n");
    else
        printf(", and block %" PRIu64 " has changed\n", block);
    return true;
}

/* A saved device is how many words its record has, the record, the cells, and the one-time words. */
static bool save(FILE *file)
{
    const uint64_t words = K5L_RECORD_WORDS;

    return fwrite(&words, sizeof words, 1, file) == 1 && fwrite(chip.record, sizeof chip.record, 1, file) == 1
        && fwrite(cells, sizeof cells, 1, file) == 1 && fwrite(otp, sizeof otp, 1, file) == 1;
}

/* A record of an earlier version may have fewer words, and no one-time words saved with it: k5l_carry makes one of today's of it. */
static bool load(FILE *file)
{
    uint64_t words, stored[K5L_RECORD_WORDS];

    return fread(&words, sizeof words, 1, file) == 1 && words <= K5L_RECORD_WORDS
        && fread(stored, sizeof *stored, words, file) == words
        && k5l_carry(stored, words, chip.record, K5L_RECORD_WORDS) == K5L_DONE
        && fread(cells, sizeof cells, 1, file) == 1 && (words < K5L_RECORD_WORDS || fread(otp, sizeof otp, 1, file) == 1)
        && k5l_device_sound(&chip);
}

static void save_and_load(void)
{
    FILE *file = tmpfile();

    printf("save the device, and bring it back:\n");
    if (file == NULL || !save(file) || fseek(file, 0, SEEK_SET) != 0)
        printf("  it cannot be saved\n");
    else if (load(file))
        printf("  it goes on at %" PRIu64 " us\n", k5l_device_clock(&chip));
    else
        printf("  it cannot be brought back\n");
    if (file != NULL)
        fclose(file);
}

/* From here on it is the driver's view: bus cycles, delays and sleep, no more. */
enum { DQ7 = 0x80, DQ6 = 0x40 };

static void command(uint16_t third)
{
    bus_write(0x555, 0xAA);
    bus_write(0x2AA, 0x55);
    bus_write(0x555, third);
}

static void start_erase(uint64_t address)
{
    command(0x80);
    bus_write(0x555, 0xAA);
    bus_write(0x2AA, 0x55);
    bus_write(address, 0x30);
}

/* DQ6 toggles at each read as long as the chip is at work. Two reads are two statements: C calls them in no fixed order. */
static bool is_busy(uint64_t address)
{
    uint16_t one = bus_read(address);
    uint16_t other = bus_read(address);

    return (one ^ other) & DQ6;
}

/* DQ7 is 1 in an erased word. */
static void wait_for_erase(uint64_t address)
{
    unsigned polls = 1;

    while (is_busy(address) && sleep_until_change())
        polls++;
    if (!(bus_read(address) & DQ7))
        printf("  the erase failed\n");
    printf("  erased after %u polls, at %" PRIu64 " us\n", polls, k5l_device_clock(&chip));
}

/* An erase takes 20 us to be suspended. Until then its bank shows status, and no write is taken: a 30H that comes too early is lost. */
static void suspend(uint64_t address)
{
    bus_write(address, 0xB0);
    while (is_busy(address) && sleep_until_change())
        ;
    printf("  suspended at %" PRIu64 " us\n", k5l_device_clock(&chip));
}

/* A program clears bits and sets none: for a 1 where the word has a 0 the block has to be erased first. The chip refuses such a
 * program (RAISE), and then nothing runs that a driver could poll. */
static bool can_program(uint64_t address, uint16_t word)
{
    return (bus_read(address) & word) == word;
}

/* DQ7 is the complement of the data's until the word is programmed. */
static void program(uint64_t address, uint16_t word)
{
    unsigned polls = 1;

    if (!can_program(address, word)) {
        printf("  %" PRIu64 " cannot become %04X: its block needs an erase first\n", address, word);
        return;
    }
    command(0xA0);
    bus_write(address, word);
    while ((bus_read(address) ^ word) & DQ7)
        polls++;
    printf("  %" PRIu64 " is %04X after %u polls\n", address, bus_read(address), polls);
}

static void erase_and_program(void)
{
    printf("erase block 8, at 64:\n");
    start_erase(64);
    wait_for_erase(64);
    printf("program three words:\n");
    program(64, 0x1234);
    program(65, 0xBEEF);
    program(66, 0x00FF);
}

/* What an updater meets that forgets the erase. */
static void program_again(void)
{
    printf("ask word 64 for 00FF, without a look at it:\n");
    command(0xA0);
    bus_write(64, 0x00FF);
    printf("  word 64 is %04X still\n", bus_read(64));
    printf("the same with a look, and after an erase:\n");
    program(64, 0x00FF);
    start_erase(64);
    wait_for_erase(64);
    program(64, 0x00FF);
}

static void suspend_and_resume(void)
{
    printf("erase block 9, at 128, and suspend it after 100 ms:\n");
    start_erase(128);
    let_pass(100000);
    suspend(128);
    printf("  word 64, of block 8 in the same bank, is %04X\n", bus_read(64));
    printf("  the suspended block reads %04X", bus_read(128));
    printf(", then %04X: its DQ2 toggles, its DQ6 does not\n", bus_read(128));
    printf("program inside the suspension:\n");
    program(67, 0x5678);
    save_and_load();
    printf("resume:\n");
    bus_write(128, 0x30);
    wait_for_erase(128);
}

/* What half erased cells hold nobody knows: the emulator makes it up. With as many words as a cut can need it is never refused;
 * a refused cut would be no cut at all. */
static void fail_the_battery(void)
{
    uint16_t debris[K5L_SMALL_DEBRIS];
    uint64_t block = k5l_device_exposed_block(&chip), word = k5l_device_exposed_word(&chip);

    if (block != K5L_NONE) {
        uint64_t first = k5l_first_word(K5L_SMALL, block), last = first + k5l_block_words(K5L_SMALL, block) - 1;

        printf("  exposed: block %" PRIu64 ", words %" PRIu64 " to %" PRIu64 "\n", block, first, last);
    }
    if (word != K5L_NONE)
        printf("  exposed: word %" PRIu64 ", %04X before\n", word, (k5l_device_exposed_array(&chip) == K5L_ONE_TIME ? otp : cells)[word]);
    for (unsigned i = 0; i < K5L_SMALL_DEBRIS; i++)
        debris[i] = (uint16_t)(0x9E37 * (i + 1));
    log_refusal("cut", 0, k5l_device_cut(&chip, debris, K5L_SMALL_DEBRIS));
    nanoseconds = 0;
    printf("  after the cut: word 192 is %04X, word 68 is %04X; all else is as it was\n", cells[192], cells[68]);
}

/* The number is not copied: it is read where it lies, as long as the block is entered and nothing runs. */
static void print_serial(void)
{
    uint64_t answer = k5l_device_range(&chip, K5L_OTP_CUSTOMER, 4);
    const uint16_t *serial = k5l_range_words(answer, chip.cells, chip.otp);

    if (serial == NULL)
        printf("  no serial number: %s\n", k5l_refusal_name(k5l_range_refusal(answer)));
    else
        printf("  serial number %04X-%04X-%04X-%04X\n", serial[0], serial[1], serial[2], serial[3]);
}

/* Enter is 88H, Exit 90H and 00H. The lock is for ever, and an F0H would leave the block. */
static void write_serial(void)
{
    printf("write a serial number into the one-time block, and lock it:\n");
    memset(otp, 0xFF, sizeof otp); /* as a new chip has them */
    print_serial();
    command(0x88);
    program(K5L_OTP_CUSTOMER, 0x5EA1);
    program(K5L_OTP_CUSTOMER + 1, 0x1A7E);
    program(K5L_OTP_CUSTOMER + 2, 0x0042);
    program(K5L_OTP_CUSTOMER + 3, 0x9C3B);
    command(0x60);
    bus_write(0x1A, 0x68);
    bus_write(0x1A, 0x48);
    printf("ask its first word for 0000:\n");
    command(0xA0);
    bus_write(K5L_OTP_CUSTOMER, 0);
    print_serial();
    command(0x90);
    bus_write(0, 0x00);
}

int main(void)
{
    log_refusal("fresh", 0, k5l_device_fresh(&chip, K5L_SMALL, cells, K5L_SMALL_WORDS, otp, K5L_OTP_WORDS));
    erase_and_program();
    program_again();
    suspend_and_resume();
    printf("erase block 10, at 192, suspend it, start a program at 68, and lose power:\n");
    start_erase(192);
    let_pass(350000);
    suspend(192);
    command(0xA0);
    bus_write(68, 0x0F0F);
    let_pass(3);
    k5l_print_record(stdout, chip.part, chip.record, K5L_RECORD_WORDS);
    fail_the_battery();
    write_serial();
    printf("the device has run %" PRIu64 " us and drawn %" PRIu64 " pC\n", k5l_device_clock(&chip), k5l_device_charge(&chip));
    return 0;
}
