/* See commands.h. */
#include "commands.h"

#include "dice.h"

enum { LONGEST_PLAN = 4 * K5L_BLOCKS + 6 };

/* What is still to be written, address and word: a plan is a command, or several. A calm plan is gone through without a
 * fault. */
static struct { uint64_t address; uint16_t word; } plan[LONGEST_PLAN];
static size_t planned, done;
static bool calm;

void forget_plan(void) { planned = done = 0; }
bool is_calm(void) { return calm && done < planned; }

struct model_record now(const struct pair *pair)
{
    struct model_record record = model_fresh();

    image_decode(pair->image, pair->words, &record);
    return record;
}

/* The addresses that the one-time block's lock knows, wherever they are. */
static uint64_t some_lock_address(const struct pair *pair) { return (below(pair->length) & ~(uint64_t)0xFF) + 0x1A; }

/* The edges of the one-time block and of its halves, too. */
static uint64_t some_one_time_address(const struct pair *pair)
{
    static const uint64_t edges[] = { 0, 0x1A, 127, 128, 129, 200, 254, 255, 256, 257 };

    return once_in(4) ? some_lock_address(pair) : once_in(2) ? below(K5L_OTP_WORDS) : ONE_OF(edges);
}

uint64_t some_address(const struct pair *pair)
{
    static const uint64_t edges[] = { 0, 7, 8, 38, 39, 134, 135, 230, 231, 261, 262, 269 };
    struct model_record record = now(pair);
    uint64_t block = once_in(3) ? below(MODEL_BLOCKS) : ONE_OF(edges);
    uint64_t page = below(pair->length) & ~(uint64_t)0xFF;

    if (once_in(100))
        return once_in(2) ? pair->length + below(3) : dice();
    if (once_in(record.entered ? 2 : 30))
        return some_one_time_address(pair);
    if (model_has_erase(&record) && once_in(2))
        block = once_in(2) ? record.erase.hand : model_next(&record.erase.list, below(record.erase.hand + 1));
    else if (model_has_program(&record) && once_in(2))
        return once_in(2) ? record.program.at : model_first_word(pair->part, model_block(pair->part, record.program.at));
    else if (once_in(4))
        return once_in(2) ? page : page + 2;
    if (once_in(3))
        return model_first_word(pair->part, block) + below(model_block_words(pair->part, block));
    return model_first_word(pair->part, block) + (once_in(2) ? 0 : model_block_words(pair->part, block) - 1);
}

static void add(uint64_t address, uint16_t word)
{
    plan[planned].address = address;
    plan[planned++].word = word;
}

/* Both unlock writes and a third; only the low 11 bits of the address and the low 8 of the word count. */
static void add_command(const struct pair *pair, uint16_t third)
{
    uint64_t above = below(pair->length) & ~(uint64_t)0x7FF;

    add(0x555, 0xAA);
    add(0x2AA | above, 0xFF55);
    add(0x555 | above, third);
}

static void plan_erase(const struct pair *pair, bool chip)
{
    uint64_t address = some_address(pair);

    add_command(pair, 0x80);
    add(0x555, 0xAA);
    add(0x2AA, 0x55);
    add(chip ? 0x555 : address, chip ? 0x10 : 0x30);
    for (uint64_t more = chip ? 0 : below(8); more > 0; more--)
        add(once_in(8) ? some_address(pair) : address ^ below(pair->length / 8), 0x30);
}

/* Protects all blocks but a few, so that the chip erase is short, or has nothing to do. */
static void plan_short_chip_erase(const struct pair *pair)
{
    uint64_t spared = below(4);

    for (uint64_t block = 0; block < MODEL_BLOCKS; block++)
        if (below(MODEL_BLOCKS) >= spared) {
            add(0x555, 0xAA);
            add(0x2AA, 0x55);
            add(0x555, 0x48);
            add(model_first_word(pair->part, block), 1);
        }
    plan_erase(pair, true);
    calm = true;
}

static void plan_ppb(const struct pair *pair, bool set)
{
    uint64_t address = some_address(pair);

    add_command(pair, 0x60);
    add(address, set ? 0x68 : 0x60);
    add(once_in(8) ? some_address(pair) : address, set ? 0x48 : 0x40);
}

/* Data for a word: mostly such as it can take, at times what it holds, a bit more, or anything. */
static uint16_t some_data(const struct pair *pair, uint64_t address)
{
    struct model_record record = now(pair);
    const uint16_t *words = model_array_of(&record, address) == MODEL_ONE_TIME ? pair->otp : pair->cells;
    uint16_t old = address < pair->length ? words[address] : 0;

    switch (below(6)) {
    case 0: return (uint16_t)dice();
    case 1: return old;
    case 2: return (uint16_t)(old | 1u << below(16));
    default: return old & (uint16_t)dice();
    }
}

static void plan_program(const struct pair *pair, uint64_t address)
{
    add_command(pair, 0xA0);
    add(address, some_data(pair, address));
}

/* 60H and the two writes of the lock, or the one of its reading; at times with one of them a word beside, where it is a PPB's. */
static void plan_lock(const struct pair *pair)
{
    static const uint16_t seconds[] = { 0x68, 0x68, 0x68, 0x48, 0x48, 0x60 };
    uint16_t second = ONE_OF(seconds);
    uint64_t at = some_lock_address(pair), other = once_in(2) ? at : some_lock_address(pair);

    add_command(pair, 0x60);
    add(once_in(5) ? at ^ 1 : at, second);
    add(once_in(5) ? other ^ 1 : other, second == 0x60 ? 0x40 : 0x48);
}

/* Enter; and inside, what there is to do there. */
static void plan_one_time(const struct pair *pair)
{
    if (!now(pair).entered) {
        add_command(pair, 0x88);
        return;
    }
    switch (below(16)) {
    case 0: add_command(pair, 0x88); break;
    case 1: add_command(pair, 0x80); break;
    case 2: plan_lock(pair); break;
    case 3: plan_ppb(pair, once_in(2)); break;
    case 4:
        add_command(pair, once_in(4) ? 0x58 : 0x90);
        add(some_address(pair), (uint16_t)(0x3400 + (once_in(3) ? below(3) : 0)));
        break;
    default: plan_program(pair, some_one_time_address(pair));
    }
}

/* The next command, or commands. */
static void make_plan(const struct pair *pair)
{
    uint64_t kind = below(64), address = some_address(pair);

    planned = done = 0;
    calm = false;
    if (pair->image[3] == MODEL_GROUND && pair->image[5] == MODEL_IDLE && once_in(1000))
        plan_short_chip_erase(pair);
    else if (once_in(pair->image[30] ? 2 : 16))
        plan_one_time(pair);
    else if (kind < 18 || (pair->image[5] == MODEL_SUSPENDED_ERASE && !once_in(3)))
        plan_program(pair, address);
    else if (kind < 33)
        plan_erase(pair, kind == 32);
    else if (kind < 38) {
        add_command(pair, 0x48);
        add(address, (uint16_t)(once_in(4) ? dice() : below(3)));
    } else if (kind < 45)
        plan_ppb(pair, kind < 40);
    else if (kind < 49) {
        add_command(pair, (uint16_t[]){ 0x78, 0x90, 0x58, 0x78 }[kind - 45]);
        if (once_in(4))
            add(address, 0x00);
    } else if (pair->image[3] >= MODEL_IDENTITY)
        add(address, 0xF0);
    else
        add(address, (uint16_t[]){ 0x30, 0xB0, 0xF0 }[below(3)]);
}

void choose_write(const struct pair *pair, struct event *event)
{
    static const uint16_t words[] = { 0xAA, 0x55, 0xA0, 0x80, 0x88, 0x10, 0x30, 0x90, 0x58, 0x48, 0x78, 0x60, 0x68, 0x40, 0xB0,
                                      0xF0, 0x00 };

    if (done == planned)
        make_plan(pair);
    if (calm || !once_in(25)) {
        event->number = plan[done].address;
        event->word = plan[done++].word;
    } else {
        event->number = some_address(pair);
        event->word = once_in(4) ? (uint16_t)dice() : ONE_OF(words);
    }
}
