/* The record printer, held to what it should print of some records, sound and not. */
#include "check.h"
#include "k5l2931cam_print.h"

#include <stdlib.h>
#include <string.h>

static uint64_t record[K5L_RECORD_WORDS];

/* Lines that many records end with. */
#define UNPROTECTED "  DYB 1      none\n  PPB 1      none\n  PPB lock   0\n"
#define NOT_ENTERED "  OTP block  not entered\n  OTP lock   0\n"

static FILE *nameless_file(void)
{
    FILE *file = tmpfile();

    if (file == NULL) {
        perror("printed: no temporary file");
        exit(2);
    }
    return file;
}

static char got[2048];

static void print(uint64_t part, size_t words)
{
    size_t length;
    FILE *out = nameless_file();

    k5l_print_record(out, part, record, words);
    rewind(out);
    length = fread(got, 1, sizeof got - 1, out);
    got[length] = '\0';
    fclose(out);
}

/* What is printed, to the byte. */
static void prints(uint64_t part, size_t words, const char *expected)
{
    print(part, words);
    if (!SAME(strcmp(got, expected), 0))
        check_note("printed:\n%sexpected:\n%s", got, expected);
}

/* A line of what is printed, of the small part. */
static void prints_line(const char *expected)
{
    print(K5L_SMALL, K5L_RECORD_WORDS);
    if (!HOLDS(strstr(got, expected) != NULL))
        check_note("printed:\n%sexpected in it:\n%s", got, expected);
}

static void idle(void)
{
    SAME(k5l_fresh(record, K5L_RECORD_WORDS), K5L_DONE);
    prints(K5L_SMALL, K5L_RECORD_WORDS,
           "record of part 0 (small), sound\n"
           "  clock      0 us\n"
           "  charge     0 pC\n"
           "  command    ground\n"
           "  operation  none\n"
           UNPROTECTED NOT_ENTERED);
    prints(2, K5L_RECORD_WORDS - 1,
           "record of part 2 (which is none), not sound: every event is STATE\n"
           "  31 words, where a record has 32\n");
    record[0] = 1;
    prints(K5L_SMALL, 29,
           "record of part 0 (small), not sound: every event is STATE\n"
           "  29 words, where a record has 32\n"
           "  layout     1: k5l_carry makes a record of it\n");
    record[0] = 2;
    prints(K5L_SMALL, 30,
           "record of part 0 (small), not sound: every event is STATE\n"
           "  30 words, where a record has 32\n"
           "  layout     2: k5l_carry makes a record of it\n");
    record[0] = 3;
    record[3] = 11;
    record[4] = 2;
    record[28] = 1;
    prints(K5L_FULL, K5L_RECORD_WORDS,
           "record of part 1 (full), sound\n"
           "  clock      0 us\n"
           "  charge     0 pC\n"
           "  command    identity reading (90H), bank 2\n"
           "  operation  none\n"
           "  DYB 1      none\n"
           "  PPB 1      none\n"
           "  PPB lock   1\n"
           NOT_ENTERED);
}

/* Blocks 39 to 41 and 64 listed, a program of 12H at 5. */
static void erase_with_a_program(void)
{
    SAME(k5l_fresh(record, K5L_RECORD_WORDS), K5L_DONE);
    record[1] = 300080;
    record[2] = 5100171050;
    record[5] = 6;
    record[6] = (uint64_t)7 << 39;
    record[7] = 1;
    record[11] = 41;
    record[12] = 400000;
    record[13] = 2;
    record[14] = 5;
    record[15] = 0x12;
    record[16] = 3;
    record[17] = 1;
    record[18] = 0xFF00;
    record[23] = (uint64_t)1 << 63;
    record[24] = 2;
    record[27] = 1 << 13;
    prints(K5L_SMALL, K5L_RECORD_WORDS,
           "record of part 0 (small), sound\n"
           "  clock      300080 us\n"
           "  charge     5100171050 pC\n"
           "  command    ground\n"
           "  operation  suspended erase with a program running inside\n"
           "  listed     39-41, 64\n"
           "  in hand    41, 400000 us left\n"
           "  toggles    DQ6 0, DQ2 1\n"
           "  program    0012H at 5, 3 us left, DQ6 1\n"
           "  DYB 1      8-15\n"
           "  PPB 1      63, 65, 269\n"
           "  PPB lock   0\n"
           NOT_ENTERED);
}

static void window(void)
{
    SAME(k5l_fresh(record, K5L_RECORD_WORDS), K5L_DONE);
    record[5] = 3;
    record[6] = 256;
    record[11] = 8;
    record[12] = 49;
    prints(K5L_SMALL, K5L_RECORD_WORDS,
           "record of part 0 (small), sound\n"
           "  clock      0 us\n"
           "  charge     0 pC\n"
           "  command    ground\n"
           "  operation  block erase in its window\n"
           "  listed     8\n"
           "  in hand    8, 49 us left of the window\n"
           "  toggles    DQ6 0, DQ2 0\n"
           UNPROTECTED NOT_ENTERED);
}

/* In recovery, sound and too long; then the same word where it is not in use. */
static void recovery(void)
{
    SAME(k5l_fresh(record, K5L_RECORD_WORDS), K5L_DONE);
    record[1] = 1057;
    record[2] = 17119750;
    record[5] = 4;
    record[6] = 256;
    record[11] = 8;
    record[12] = 699000;
    record[13] = 1;
    record[29] = 13;
    prints(K5L_SMALL, K5L_RECORD_WORDS,
           "record of part 0 (small), sound\n"
           "  clock      1057 us\n"
           "  charge     17119750 pC\n"
           "  command    ground\n"
           "  operation  block erase\n"
           "  listed     8\n"
           "  in hand    8, 699000 us left\n"
           "  recovery   13 us left\n"
           "  toggles    DQ6 1, DQ2 0\n"
           UNPROTECTED NOT_ENTERED);
    record[29] = 21;
    prints_line("  recovery   21 us left, where 20 are the most\n");
    record[5] = 5;
    prints_line("  word 29    15H, and it is not in use\n");
}

/* A program of 1234H at one-time word 200, then at 256, a cell; both numbers of the block, and numbers that are none. */
static void one_time(void)
{
    SAME(k5l_fresh(record, K5L_RECORD_WORDS), K5L_DONE);
    record[5] = 1;
    record[14] = 200;
    record[15] = 0x1234;
    record[16] = 6;
    record[30] = 1;
    prints(K5L_FULL, K5L_RECORD_WORDS,
           "record of part 1 (full), sound\n"
           "  clock      0 us\n"
           "  charge     0 pC\n"
           "  command    ground\n"
           "  operation  program\n"
           "  program    1234H at one-time word 200, 6 us left, DQ6 0\n"
           UNPROTECTED
           "  OTP block  entered\n"
           "  OTP lock   0\n");
    record[14] = 256;
    record[31] = 1;
    prints_line("  program    1234H at 256, 6 us left, DQ6 0\n");
    prints_line("  OTP block  entered\n  OTP lock   1\n");
    record[30] = record[31] = 2;
    prints_line("  OTP block  2, which is none\n  OTP lock   2\n");
}

/* Whatever stands in the words is shown. */
static void not_sound(void)
{
    SAME(k5l_fresh(record, K5L_RECORD_WORDS), K5L_DONE);
    record[0] = 4;
    record[3] = 15;
    record[4] = 1;
    record[5] = 4;
    record[13] = 7;
    record[14] = 0xABC;
    record[22] = UINT64_MAX;
    record[28] = 2;
    prints(K5L_SMALL, K5L_RECORD_WORDS,
           "record of part 0 (small), not sound: every event is STATE\n"
           "  layout     4, where 3 is known\n"
           "  clock      0 us\n"
           "  charge     0 pC\n"
           "  command    15, which is none\n"
           "  word 4     1H, and it is not in use\n"
           "  operation  block erase\n"
           "  listed     none\n"
           "  in hand    0, 0 us left\n"
           "  toggles    DQ6 1, DQ2 1\n"
           "  word 13    7H, where 3 is the most\n"
           "  word 14    ABCH, and it is not in use\n"
           "  DYB 1      256-319\n"
           "  PPB 1      none\n"
           "  PPB lock   2\n"
           NOT_ENTERED);
}

/* The device after some writes, from fresh: what is printed must have a line with these words. */
struct written {
    const char *words;
    uint64_t wait;
    unsigned count;
    struct { uint64_t at; uint16_t word; } writes[8];
};

#define UNLOCKS { 0x555, 0xAA }, { 0x2AA, 0x55 }

static const struct written cases[] = {
    { "first unlock write taken", 0, 1, { UNLOCKS } },
    { "both unlock writes taken", 0, 2, { UNLOCKS } },
    { "A0H taken", 0, 3, { UNLOCKS, { 0x555, 0xA0 } } },
    { "80H taken", 0, 3, { UNLOCKS, { 0x555, 0x80 } } },
    { "80H and the first unlock write taken", 0, 4, { UNLOCKS, { 0x555, 0x80 }, UNLOCKS } },
    { "80H and both unlock writes taken", 0, 5, { UNLOCKS, { 0x555, 0x80 }, UNLOCKS } },
    { "48H taken", 0, 3, { UNLOCKS, { 0x555, 0x48 } } },
    { "60H taken", 0, 3, { UNLOCKS, { 0x555, 0x60 } } },
    { "60H and 68H taken, block 8", 0, 4, { UNLOCKS, { 0x555, 0x60 }, { 64, 0x68 } } },
    { "60H and 60H taken", 0, 4, { UNLOCKS, { 0x555, 0x60 }, { 64, 0x60 } } },
    { "identity reading (90H), bank 1", 0, 3, { UNLOCKS, { 0xD55, 0x90 } } },
    { "58H reading", 0, 3, { UNLOCKS, { 0x555, 0x58 } } },
    { "OTP block  entered", 0, 3, { UNLOCKS, { 0x555, 0x88 } } },
    { "60H and 68H of the OTP lock taken", 0, 7, { UNLOCKS, { 0x555, 0x88 }, UNLOCKS, { 0x555, 0x60 }, { 0x51A, 0x68 } } },
    { "reading of the OTP lock (60H, 48H)", 0, 7, { UNLOCKS, { 0x555, 0x88 }, UNLOCKS, { 0x555, 0x60 }, { 0x1A, 0x48 } } },
    { "OTP lock   1", 0, 8, { UNLOCKS, { 0x555, 0x88 }, UNLOCKS, { 0x555, 0x60 }, { 0x1A, 0x68 }, { 0x1A, 0x48 } } },
    { " program", 0, 4, { UNLOCKS, { 0x555, 0xA0 }, { 64, 0 } } },
    { "block erase in its window", 49, 6, { UNLOCKS, { 0x555, 0x80 }, UNLOCKS, { 64, 0x30 } } },
    { " block erase", 50, 6, { UNLOCKS, { 0x555, 0x80 }, UNLOCKS, { 64, 0x30 } } },
    { " suspended erase", 50, 7, { UNLOCKS, { 0x555, 0x80 }, UNLOCKS, { 64, 0x30 }, { 64, 0xB0 } } }, /* in its window */
    { " chip erase", 50, 6, { UNLOCKS, { 0x555, 0x80 }, UNLOCKS, { 0x555, 0x10 } } },
};

static void named(const struct written *told)
{
    static uint16_t cells[K5L_SMALL_WORDS], otp[K5L_OTP_WORDS];
    bool found = false;

    SAME(k5l_fresh(record, K5L_RECORD_WORDS), K5L_DONE);
    for (unsigned i = 0; i < told->count; i++)
        SAME(k5l_write(K5L_SMALL, record, K5L_RECORD_WORDS, cells, K5L_SMALL_WORDS, otp, K5L_OTP_WORDS, told->writes[i].at,
                       told->writes[i].word),
             K5L_DONE);
    SAME(k5l_wait(K5L_SMALL, record, K5L_RECORD_WORDS, cells, K5L_SMALL_WORDS, otp, K5L_OTP_WORDS, told->wait), K5L_DONE);
    print(K5L_SMALL, K5L_RECORD_WORDS);
    for (const char *at = strstr(got, told->words); at != NULL; at = strstr(at + 1, told->words))
        found |= at[strlen(told->words)] == '\n' || at[strlen(told->words)] == ',';
    if (!HOLDS(found))
        check_note("  %s\n", told->words);
}

int main(void)
{
    idle();
    erase_with_a_program();
    window();
    recovery();
    one_time();
    not_sound();
    for (unsigned i = 0; i < sizeof cases / sizeof *cases; i++)
        named(&cases[i]);
    return check_report("printed");
}
