/*
 * The K5L2931CAM's 128 Mbit four-bank NOR die and its small twin: one bus read, bus write, wait or power cut at a time.
 *
 * The die ("full") has 8,388,608 words of 16 bits; the small part has every size divided by 512, so 16,384 words. Both
 * have 270 blocks, 0 to 269, and four banks: 1A, 1B, 2A, 2B are 0, 1, 2, 3. Addresses count words.
 *
 * You hold the device: its record, K5L_RECORD_WORDS numbers of 64 bits, its cells, a word for each address, and its one-time
 * words, K5L_OTP_WORDS of them. Every call is lent them by pointer and length, and keeps nothing. Any numbers, lengths and
 * contents are answered: there is nothing to check before a call. Only what is lent must be there: a pointer leads to as many
 * elements as its length says, and record, cells, one-time words and debris do not overlap. Time passes in k5l_wait alone.
 *
 * The library is for x86-64. `./library` proves and builds it, in some minutes the first time, and says where it is; `./library
 * install PREFIX` puts header, archive and a pkg-config file there. As nothing is kept, different devices may run on different
 * threads.
 */
#ifndef K5L2931CAM_H
#define K5L2931CAM_H

#include <stdbool.h>
#include <stddef.h>
#include <stdint.h>

#define K5L_VERSION "3.0.0"
#define K5L_VERSION_MAJOR 3
#define K5L_VERSION_MINOR 0
#define K5L_VERSION_PATCH 0

/* On calls whose answer is a refusal that no program should drop. A read is not among them: a bus cycle whose word nobody wants
 * is a bus cycle all the same. */
#ifdef __GNUC__
#define K5L_MUST_USE __attribute__((warn_unused_result))
#else
#define K5L_MUST_USE
#endif

#ifdef __cplusplus
extern "C" {
#endif

/* Refusals: how an event is answered. But for DONE, SEQUENCE, PROTECTED, SUSPENDED, LOCKED, OTPLOCKED and RAISE nothing changes; the
 * latter six bring the command register back to ground (in the erase window PROTECTED changes nothing, SEQUENCE drops the list). */
enum {
    K5L_DONE = 0,       /* taken */
    K5L_STATE = 1,      /* the record is not sound, of another layout or length (k5l_carry), or there is no such part */
    K5L_CELLS = 2,      /* the length of the cells is not the part's word count, or that of the one-time words not 256 */
    K5L_ADDRESS = 3,    /* the address is not below the word count; a range that leaves its array */
    K5L_CLOCK = 4,      /* the wait would take the clock past 100,000,000,000,000 us */
    K5L_DEBRIS = 5,     /* the debris is shorter than the cut needs */
    K5L_BUSY = 6,       /* a write that what runs does not take: in a program, or in a recovery after B0H, every write; a range, unless
                           the one-time block is entered and nothing runs */
    K5L_SEQUENCE = 7,   /* a write that continues no command */
    K5L_BANK = 8,       /* a further erase block in another bank */
    K5L_PROTECTED = 9,  /* the block is protected; for a chip erase, every block is */
    K5L_SUSPENDED = 10, /* a command that is not allowed in suspension */
    K5L_LOCKED = 11,    /* a PPB change with the PPB lock bit set */
    /* 12 is unused, and stays so: no call gives it. */
    K5L_OTPLOCKED = 13, /* a program of a one-time word that is the factory's, or locked */
    K5L_RAISE = 14      /* a program whose data has a 1 where its word has a 0: erase the block first (no one-time word can be) */
};

/* A program only ever clears bits: it leaves old AND data. Where that would not be the data, the write of the data is K5L_RAISE, after
 * K5L_PROTECTED or K5L_OTPLOCKED and after K5L_SUSPENDED: no program starts, no status is there to poll, a suspension stands, and no
 * cell, time or charge moves. Erase the block and program it anew; (cells[address] & word) == word tells before whether a program can
 * work. So a program that was taken and ran its time has left exactly its data, unless you changed its word meanwhile: it is judged
 * once, at that write. */

/* Suspending takes time. B0H in a block erase that is past its window is taken, and starts 20 us of recovery: the block makes no
 * progress, running current is drawn, reads in the bank give the erase's status, and every write is K5L_BUSY, be it 30H, F0H or B0H
 * again. When they are over, the erase is suspended. Other banks read on all along. In the window B0H suspends at once, as ever.
 *
 * So a driver that reads the bank right after B0H reads status, no data. Before it does anything else let it wait for 20 us, or poll in
 * that bank until DQ6 rests; another bank rests at once, and tells nothing. Linux's command set 0002 resumes at once after a suspend when
 * it finds the block done: such a 30H within the 20 us is K5L_BUSY and lost, and the erase stays suspended. Before 30H, too, poll until
 * DQ6 rests. */

/* A bank's secret stays in it. Two devices that differ in the cells of one bank alone answer the same calls alike, and their records are the
 * same after each, as long as no program's data is written to an address of that bank: only a read or a range that gives cells of that bank
 * can differ. */

/* The one-time block: 256 words besides the cells, in both parts. The first 128 are the factory's: fill them as it would, no event changes
 * them. The others, from K5L_OTP_CUSTOMER on, take programs as cells do, and no erase, until they are locked, all at once and for ever. They
 * belong to no block: no DYB and no PPB protects them. Who never enters the one-time block lends 256 words more, whatever they hold, and
 * needs nothing else: all is answered as before.
 *
 * Enter (88H as a third write) lays it over addresses 0 to 255: reads and programs there are of one-time words, all others of cells as
 * ever. Inside, 80H is K5L_SEQUENCE; in suspension, Enter is K5L_SUSPENDED. Three things leave it: Exit (90H as a third write, then 00H at
 * any address), a cut, and an F0H that is taken. So the F0H that ends an identity or status reading leaves it, too: Enter again. A
 * refusal stays inside.
 *
 * The lock: inside, 60H as a third write and then 68H and 48H at ANY address whose low 8 bits are 1AH lock the customer's words, and no
 * call and no cut ever takes that back. So set no PPB there by such an address. 60H, then 48H at one: reads give the lock in bit 0. */
enum {
    K5L_OTP_WORDS = 256,
    K5L_OTP_CUSTOMER = 128
};

/* The two arrays that a word may be of. */
enum {
    K5L_MAIN = 0,
    K5L_ONE_TIME = 1
};

/* The parts. */
enum {
    K5L_SMALL = 0,
    K5L_FULL = 1
};

/* How many words and blocks they have, and the most words of debris that a cut can need: with so many it is never K5L_DEBRIS. */
enum {
    K5L_SMALL_WORDS = 16384,
    K5L_FULL_WORDS = 8388608,
    K5L_BLOCKS = 270,
    K5L_SMALL_DEBRIS = 65,
    K5L_FULL_DEBRIS = 32769
};

/*
 * The record, layout 3. It may be stored and brought back: its words mean the same in every later version of this library that knows
 * layout 3, and k5l_carry makes a record of that version of them. So it does here of layout 1, which was words 0 to 28, and of layout 2,
 * words 0 to 29. A word that is not in use is 0. (k5l2931cam_print.h prints the record in words.)
 *
 *   0      the layout's number, K5L_LAYOUT
 *   1      clock, in microseconds
 *   2      charge, in picocoulombs
 *   3      command register: 0 ground; 1 first and 2 second unlock write taken; 3 A0H; 4 80H; 5 and 6 the unlock writes
 *          after 80H; 7 48H; 8 60H; 9 60H, 68H; 10 60H, 60H; 11 identity reading (90H); 12 58H reading; of the one-time
 *          block's lock, 13 60H, 68H and 14 its reading (60H, 48H)
 *   4      the block of 68H (9), the bank of identity reading (11)
 *   5      operation: 0 none; 1 program; 2 suspended program (below); 3 block erase in its window; 4 block erase past it,
 *          recovering or not; 5 suspended erase; 6 suspended erase with a program running inside; 7 chip erase
 *   6-10   the listed blocks of an erase: block n is bit n % 64 of word 6 + n / 64
 *   11     the block in hand
 *   12     the microseconds left of it; in the window (3), of the window
 *   13     the erase's toggles: DQ6 + 2 * DQ2
 *   14     a program's address; below 256 it is a one-time word's while word 30 is 1
 *   15     its data
 *   16     the microseconds left of it
 *   17     its toggle, DQ6
 *   18-22  the blocks whose DYB is 1, bit by bit as above
 *   23-27  the blocks whose PPB is 1
 *   28     the PPB lock bit
 *   29     the microseconds left of a block erase's recovery after B0H, 1 to 20; 0 for none, as in every operation but 4
 *   30     the one-time block: 1 while it is entered, which goes with the operations 0 and 1 alone; else 0
 *   31     its lock: 1 once the customer's one-time words are sealed, for ever; until then 0
 *
 * No call suspends a program any more, so none makes a 2 of another operation. A record that was stored with one is still
 * sound: its block shows its status, 90H and 58H work, 30H resumes the program, and a cut treats it as it always did.
 */
enum {
    K5L_LAYOUT = 3,
    K5L_RECORD_WORDS = 32
};

/* No block, no word, no array, no clock, no charge. Nor a bank, nor a time to come. */
#define K5L_NONE UINT64_MAX

/* Makes a fresh device: clock 0, charge 0, no operation, no protection, the one-time block neither entered nor locked. K5L_DONE; or
 * K5L_STATE for another number of words, and nothing is touched. The cells and the one-time words are yours to fill. */
uint64_t k5l_fresh(uint64_t *record, size_t words) K5L_MUST_USE;

/* Makes a record of one that was stored, by this version or an earlier one: of layout 1, 29 words, of layout 2, 30 words, or of layout 3,
 * 32 words; word 0 and the number of words must agree. The words are copied, those that its layout did not have are 0, and word 0 is
 * K5L_LAYOUT. K5L_DONE; or K5L_STATE for stored words of no such layout, or another number of words in `record`, and nothing is touched.
 * Whether the record is sound is not judged here: every call does that, as ever. The two must not overlap. */
uint64_t k5l_carry(const uint64_t *stored, size_t stored_words, uint64_t *record, size_t words) K5L_MUST_USE;

/* Does the record stand for a sound state of the part? Events on others are K5L_STATE. */
bool k5l_sound(uint64_t part, const uint64_t *record, size_t words);

/* A bus read: the word in the low 16 bits, the refusal above them (k5l_word_of and k5l_refusal_of take them apart). A
 * refused read gives the word 0. Status reads toggle bits in the record. */
uint64_t k5l_read(uint64_t part, uint64_t *record, size_t words, const uint16_t *cells, size_t length, const uint16_t *otp,
                  size_t otp_length, uint64_t address);

/* A bus write: the refusal. It changes no word of either array: words change as operations finish, in k5l_wait. Of the arrays it reads
 * the one word that a program's data is for. */
uint64_t k5l_write(uint64_t part, uint64_t *record, size_t words, const uint16_t *cells, size_t length, const uint16_t *otp,
                   size_t otp_length, uint64_t address, uint16_t word) K5L_MUST_USE;

/* Lets time pass: the refusal. What finishes within it changes its cells, or its one-time word. Wake early as often as you like: if a wait
 * of a + b is K5L_DONE, so are waits of a and then of b, with the same record and words after them, and so the same clock and charge; and
 * where both are, the one is. */
uint64_t k5l_wait(uint64_t part, uint64_t *record, size_t words, uint16_t *cells, size_t length, uint16_t *otp, size_t otp_length,
                  uint64_t microseconds) K5L_MUST_USE;

/* Loss of power, or RESET# low: the refusal. The block in hand of a begun erase takes the first words of the debris, as many
 * as it has; the word of a begun program becomes old AND (data OR debris), with the debris word after those. More debris than
 * that is ignored; k5l_exposed_block and k5l_exposed_word tell before the cut what it will change. After it the one-time block is not
 * entered, and its lock is what it was. */
uint64_t k5l_cut(uint64_t part, uint64_t *record, size_t words, uint16_t *cells, size_t length, uint16_t *otp, size_t otp_length,
                 const uint16_t *debris, size_t debris_length) K5L_MUST_USE;

/* A range of words, handed back where they lie, while the one-time block is entered and nothing runs (else K5L_BUSY): `count` of the
 * one-time words if `first` is below 256, else of the cells. K5L_ADDRESS, before that, if `first` is not below the word count or the range
 * leaves its array: from the one-time words it does not go on into the cells. Nothing is copied, nothing changes, and no command that is
 * half entered and no reading is in its way. One number: refusal << 33 | array << 32 | first word, the latter two 0 if it is refused;
 * k5l_range_words, below, makes the pointer to that word of it:
 *
 *     uint64_t answer = k5l_device_range(&chip, K5L_OTP_CUSTOMER, 8);
 *     const uint16_t *serial = k5l_range_words(answer, chip.cells, chip.otp);
 */
uint64_t k5l_range(uint64_t part, const uint64_t *record, size_t words, const uint16_t *cells, size_t length, const uint16_t *otp,
                   size_t otp_length, uint64_t first, uint64_t count) K5L_MUST_USE;

/* The block and the word that a cut would change if it came now, and the array that the word is of, K5L_MAIN or K5L_ONE_TIME; K5L_NONE for
 * none, and for a record that is not sound. */
uint64_t k5l_exposed_block(uint64_t part, const uint64_t *record, size_t words);
uint64_t k5l_exposed_word(uint64_t part, const uint64_t *record, size_t words);
uint64_t k5l_exposed_array(uint64_t part, const uint64_t *record, size_t words);

/* How many words of debris a cut would need if it came now; K5L_NONE for a record that is not sound. */
uint64_t k5l_debris_needed(uint64_t part, const uint64_t *record, size_t words);

/* What comes if nobody writes. Microseconds until nothing runs any more: 0 where nothing does (what is suspended does not; a recovery
 * does, until it ends in suspension). K5L_NONE for a record that is not sound. The clock's limit is not looked at: a wait past it is
 * refused all the same. */
uint64_t k5l_until_end(uint64_t part, const uint64_t *record, size_t words);

/* Microseconds until the device next changes by itself: the erase window ends, a recovery ends, a block or a word is finished. Until
 * then no word of either array changes, and reads give what they give now but for their toggles. K5L_NONE where nothing runs, and for a
 * record that is not sound. */
uint64_t k5l_until_change(uint64_t part, const uint64_t *record, size_t words);

/* The block, or the word, that is finished then, and the word's array; K5L_NONE where none is: at a window's or a recovery's end, and
 * where nothing comes. */
uint64_t k5l_changing_block(uint64_t part, const uint64_t *record, size_t words);
uint64_t k5l_changing_word(uint64_t part, const uint64_t *record, size_t words);
uint64_t k5l_changing_array(uint64_t part, const uint64_t *record, size_t words);

/* Do reads in the bank give the cells and change nothing? Until the next write you may then read them yourself, and they stay as
 * they are, whatever reads, waits and cuts come between. Of a number that is no bank's: no; nor of bank 1A while the one-time block is
 * entered, whose words lie over its first. A bank that does not may come to do so in a wait or a cut, and its cells may then be others
 * (k5l_changing_.. and k5l_exposed_.. foretell which). */
bool k5l_reads_cells(uint64_t part, const uint64_t *record, size_t words, uint64_t bank);

/* Microseconds run and picocoulombs drawn; K5L_NONE for a record that is not sound. */
uint64_t k5l_clock(uint64_t part, const uint64_t *record, size_t words);
uint64_t k5l_charge(uint64_t part, const uint64_t *record, size_t words);

/* The first word of a block (from block 270 on, the word count) and how many words it has (from 270 on, none). Both are 0 if
 * there is no such part. */
uint64_t k5l_first_word(uint64_t part, uint64_t block);
uint64_t k5l_block_words(uint64_t part, uint64_t block);

/* Block and bank of an address; K5L_NONE if it is not below the word count, or there is no such part. */
uint64_t k5l_block_of(uint64_t part, uint64_t address);
uint64_t k5l_bank_of(uint64_t part, uint64_t address);

/* The same for one part each, for a boot loader that links nothing else: refusal, block and bank. With K5L_ADDRESS block and
 * bank are told as 0, which are also real ones: ask for the refusal first. */
uint64_t k5l_small_refusal(uint64_t address);
uint64_t k5l_small_block(uint64_t address);
uint64_t k5l_small_bank(uint64_t address);
uint64_t k5l_full_refusal(uint64_t address);
uint64_t k5l_full_block(uint64_t address);
uint64_t k5l_full_bank(uint64_t address);

/* What k5l_read answered. */
static inline uint64_t k5l_refusal_of(uint64_t answer) { return answer >> 16; }
static inline uint16_t k5l_word_of(uint64_t answer) { return (uint16_t)answer; }

/* What k5l_range answered: the refusal, the array, its first word, and where that word lies in your arrays, NULL if it is refused. */
static inline uint64_t k5l_range_refusal(uint64_t answer) { return answer >> 33; }
static inline uint64_t k5l_range_array(uint64_t answer) { return answer >> 32 & 1; }
static inline uint64_t k5l_range_first(uint64_t answer) { return answer & 0xFFFFFFFF; }
static inline const uint16_t *k5l_range_words(uint64_t answer, const uint16_t *cells, const uint16_t *otp)
{
    if (k5l_range_refusal(answer) != K5L_DONE)
        return NULL;
    return (k5l_range_array(answer) == K5L_ONE_TIME ? otp : cells) + k5l_range_first(answer);
}

/* A refusal's name, for a log; "?" for a number that is none. */
static inline const char *k5l_refusal_name(uint64_t refusal)
{
    switch (refusal) {
    case K5L_DONE: return "DONE";
    case K5L_STATE: return "STATE";
    case K5L_CELLS: return "CELLS";
    case K5L_ADDRESS: return "ADDRESS";
    case K5L_CLOCK: return "CLOCK";
    case K5L_DEBRIS: return "DEBRIS";
    case K5L_BUSY: return "BUSY";
    case K5L_SEQUENCE: return "SEQUENCE";
    case K5L_BANK: return "BANK";
    case K5L_PROTECTED: return "PROTECTED";
    case K5L_SUSPENDED: return "SUSPENDED";
    case K5L_LOCKED: return "LOCKED";
    case K5L_OTPLOCKED: return "OTPLOCKED";
    case K5L_RAISE: return "RAISE";
    default: return "?";
    }
}

#ifdef __cplusplus
}
#endif

/* The device in one piece, with each of these calls on it. */
#include "k5l2931cam_device.h"

#endif
