/* Hot calls of one kind on a chip or on packs, so that tests/instructions can count their instructions: instructions KIND ROUNDS
 *
 * Prints how many calls the rounds make. What comes before the rounds is the same for any number of them, none included.
 */
#include <mfrc531.h>

#include <stdio.h>
#include <stdlib.h>
#include <string.h>

static mfrc531_chip chip;
static unsigned long calls;

/* A refused call would be counted as one of another kind. */
static void done(mfrc531_answer answer)
{
    if (mfrc531_refusal_of(answer) != MFRC531_NOT_REFUSED) {
        fprintf(stderr, "instructions: a call is refused with %u\n", mfrc531_refusal_of(answer));
        exit(1);
    }
    calls++;
}

static void get(uint8_t address) { done(mfrc531_read(&chip, address)); }
static void put(uint8_t address, uint8_t byte) { done(mfrc531_write(&chip, address, byte)); }

/* ---- A round of each kind ------------------------------------------------------------------------------------------------------------ */

static void poll_status(void)
{
    for (int i = 0; i < 1000; i++)
        get(MFRC531_REG_PRIMARY_STATUS);
}

/* As many bytes as an Idle chip's FIFO holds, again and again. It is emptied by its positions, so that no other call is counted. */
static void fill_fifo(void)
{
    for (int i = 0; i < 16 * 64; i++) {
        if (i % 64 == 0)
            chip.fifo_read = chip.fifo_write;
        put(MFRC531_REG_FIFO_DATA, (uint8_t)i);
    }
}

static void start_crc(void)
{
    for (int i = 0; i < 1000; i++)
        put(MFRC531_REG_COMMAND, MFRC531_CMD_CALC_CRC);
}

/* Bytes that all go the same way: CalcCRC takes them, or a full FIFO loses them. */
static void write_bytes(void)
{
    for (int i = 0; i < 1000; i++)
        put(MFRC531_REG_FIFO_DATA, (uint8_t)i);
}

static void ask_lost_sum(void)
{
    for (int i = 0; i < 1000; i++)
        done(mfrc531_lost_sum(&chip));
}

static void read_registers(void)
{
    for (int i = 0; i < 1000; i++)
        get((uint8_t)(MFRC531_REG_TX_CONTROL + i % 7));
}

static void write_registers(void)
{
    for (int i = 0; i < 1000; i++)
        put((uint8_t)(MFRC531_REG_TX_CONTROL + i % 7), (uint8_t)i);
}

/* From one end of the timer to the next. */
static void pass_clocks(void)
{
    for (int i = 0; i < 64 * 255; i++)
        done(mfrc531_advance(&chip, 1));
}

static void pass_thousands(void)
{
    for (int i = 0; i < 1000; i++)
        done(mfrc531_advance(&chip, 1000));
}

static void pass_single_clocks(void)
{
    for (int i = 0; i < 1000; i++)
        done(mfrc531_advance(&chip, 1));
}

static void pass_most_clocks(void)
{
    for (int i = 0; i < 1000; i++)
        done(mfrc531_advance(&chip, MFRC531_MOST_CLOCKS));
}

/* From the beginning of a leaving of StandBy over its end, by one clock that counts again. It is begun in the chip's fields, so that no other call is
 * counted. */
static void pass_leavings(void)
{
    for (int i = 0; i < 1000; i++) {
        chip.control = MFRC531_STAND_BY;
        chip.stand_by = MFRC531_MODE_HOLD | MFRC531_STAND_BY_CLOCKS;
        done(mfrc531_advance(&chip, MFRC531_STAND_BY_CLOCKS + 1));
    }
}

/* What a driver does for a command, as in the race of tests/differential. */
static void drive(void)
{
    for (int i = 0; i < 50; i++) {
        put(MFRC531_REG_INTERRUPT_RQ, 0x7F);
        put(MFRC531_REG_COMMAND, MFRC531_CMD_CALC_CRC);
        for (int k = 0; k < 4; k++)
            put(MFRC531_REG_FIFO_DATA, (uint8_t)(i + k));
        for (int k = 0; k < 6; k++) {
            get(MFRC531_REG_PRIMARY_STATUS);
            get(MFRC531_REG_FIFO_LENGTH);
        }
        get(MFRC531_REG_CRC_RESULT_LSB);
        get(MFRC531_REG_CRC_RESULT_MSB);
    }
}

/* ---- The recorded mix, the list of tests/differential/src/recorded.rs ---------------------------------------------------------------- */

enum { DRAWN = 1000000, STRETCH = 50, ACCESSES = DRAWN + DRAWN / STRETCH };
static struct access { uint8_t reads, address, byte; } list[ACCESSES];

static void record(void)
{
    uint64_t state = 531;
    struct access *next = list;
    for (int drawn = 0; drawn < DRAWN; drawn++) {
        if (drawn % STRETCH == 0)
            *next++ = (struct access){0, MFRC531_REG_COMMAND, MFRC531_CMD_IDLE};
        state += 0x9E3779B97F4A7C15;
        uint64_t number = state;
        number = (number ^ number >> 30) * 0xBF58476D1CE4E5B9;
        number = (number ^ number >> 27) * 0x94D049BB133111EB;
        number ^= number >> 31;
        unsigned what = (unsigned)(number % 100);
        if (what < 50)
            *next++ = (struct access){0, MFRC531_REG_FIFO_DATA, (uint8_t)(number >> 32)};
        else if (what < 90)
            *next++ = (struct access){1, MFRC531_REG_PRIMARY_STATUS, 0};
        else
            *next++ = (struct access){0, MFRC531_REG_COMMAND, MFRC531_CMD_CALC_CRC};
    }
    uint64_t sum = 0;
    for (int i = 0; i < ACCESSES; i++)
        sum = sum * 31 + list[i].byte + 256u * list[i].address;
    if (sum != 11792938449016268530u) { /* the same number stands in tests/differential/src/tests.rs */
        fprintf(stderr, "instructions: this is not the recorded mix\n");
        exit(1);
    }
}

static void play(void)
{
    for (int i = 0; i < ACCESSES; i++) {
        if (list[i].reads)
            get(list[i].address);
        else
            put(list[i].address, list[i].byte);
    }
}

/* ---- Profile packs ------------------------------------------------------------------------------------------------------------------- */

enum { MOST = MFRC531_PACK_MOST_PROFILES, NAME = MFRC531_PACK_NAME_SIZE, LATE = NAME - 2, EARLY = LATE - 8 };

static uint8_t names[MOST][NAME], bodies[MOST][MFRC531_PROFILE_SIZE];
static struct pack {
    size_t length;
    uint8_t bytes[(MFRC531_PROFILE_SIZE + MFRC531_PACK_ENTRY_SIZE) * MOST + MFRC531_PACK_TRAILER_SIZE];
} all_late, all_early, one_late, one_early;

/* A name that differs from others in two bytes alone, from a place on. */
static void set_name(uint8_t *name, size_t place, int first, int second)
{
    memset(name, 0x5A, NAME);
    name[place] = (uint8_t)first;
    name[place + 1] = (uint8_t)second;
}

static void write_pack(struct pack *pack, size_t profiles)
{
    mfrc531_answer answer =
        mfrc531_pack_write(*names, profiles * NAME, *bodies, profiles * sizeof *bodies, pack->bytes, sizeof pack->bytes);
    done(answer);
    pack->length = mfrc531_number_of(answer);
}

/* Profile i of 256 has the deciding bytes i and 80h, and a profile alone 80h and 80h. */
static void make_packs(void)
{
    for (int late = 0; late < 2; late++) {
        size_t place = late ? LATE : EARLY;
        set_name(*names, place, 0x80, 0x80);
        write_pack(late ? &one_late : &one_early, 1);
        for (int i = 0; i < MOST; i++)
            set_name(names[i], place, i, 0x80);
        write_pack(late ? &all_late : &all_early, MOST);
    }
}

static void write_all(void) { write_pack(&all_late, MOST); }
static void read_all(void) { done(mfrc531_pack_read(all_late.bytes, all_late.length)); }

typedef mfrc531_answer (*find)(const uint8_t *, size_t, const uint8_t *, size_t);

/* A find of the name with these deciding bytes, which has to answer this. */
static void ask(find find, const struct pack *pack, size_t place, int first, int second, mfrc531_answer wanted)
{
    uint8_t name[NAME];
    set_name(name, place, first, second);
    mfrc531_answer answer = find(pack->bytes, pack->length, name, NAME);
    if (answer != wanted) {
        fprintf(stderr, "instructions: a find answers %08X in place of %08X\n", (unsigned)answer, (unsigned)wanted);
        exit(1);
    }
    calls++;
}

/* Every name of the pack, and names before, between and behind them. */
static void ask_all(find find)
{
    for (int i = 0; i < MOST; i++) {
        ask(find, &all_late, LATE, i, 0x00, MFRC531_NAME_NOT_FOUND);
        ask(find, &all_late, LATE, i, 0x80, (mfrc531_answer)(i * MFRC531_PROFILE_SIZE) << 8);
    }
    ask(find, &all_late, LATE, MOST - 1, 0xFF, MFRC531_NAME_NOT_FOUND);
}

static void find_all(void) { ask_all(mfrc531_pack_find); }
static void find_all_checked(void) { ask_all(mfrc531_pack_find_checked); }

/* The same find where names differ late and where they differ eight bytes before that: a pair of calls, which differs by what it takes to look at eight
 * bytes more in each comparison with another name. */
static void ask_twice(int alone, int first, int second, mfrc531_answer wanted)
{
    ask(mfrc531_pack_find_checked, alone ? &one_late : &all_late, LATE, first, second, wanted);
    ask(mfrc531_pack_find_checked, alone ? &one_early : &all_early, EARLY, first, second, wanted);
}

/* Two pairs for a missing name in a pack of one profile, which takes one comparison; then among 256 profiles 257 pairs for missing names, and 256 for
 * those that are there. */
static void find_in_pairs(void)
{
    ask_twice(1, 0x00, 0x80, MFRC531_NAME_NOT_FOUND);
    ask_twice(1, 0xFF, 0x80, MFRC531_NAME_NOT_FOUND);
    for (int i = 0; i < MOST; i++)
        ask_twice(0, i, 0x00, MFRC531_NAME_NOT_FOUND);
    ask_twice(0, MOST - 1, 0xFF, MFRC531_NAME_NOT_FOUND);
    for (int i = 0; i < MOST; i++)
        ask_twice(0, i, 0x80, (mfrc531_answer)(i * MFRC531_PROFILE_SIZE) << 8);
}

/* ---- The kinds ----------------------------------------------------------------------------------------------------------------------- */

static void nothing(void) {}
static void begin_crc(void) { put(MFRC531_REG_COMMAND, MFRC531_CMD_CALC_CRC); }
static void receive(void) { put(MFRC531_REG_COMMAND, MFRC531_CMD_RECEIVE); }

static void fill_up(void)
{
    for (int i = 0; i < MFRC531_FIFO_SIZE; i++)
        put(MFRC531_REG_FIFO_DATA, 0x55);
}

static void run_timer(void)
{
    put(MFRC531_REG_TIMER_RELOAD, 255);
    put(MFRC531_REG_TIMER_CLOCK, MFRC531_T_AUTO_RESTART | 6); /* a step each 64 clocks */
    put(MFRC531_REG_CONTROL, MFRC531_T_START_NOW);
}

static void run_timer_in_power_down(void)
{
    run_timer();
    put(MFRC531_REG_CONTROL, MFRC531_POWER_DOWN | MFRC531_T_START_NOW);
}

static void run_to_ends(void)
{
    put(MFRC531_REG_TIMER_RELOAD, 1);
    put(MFRC531_REG_TIMER_CLOCK, MFRC531_T_AUTO_RESTART); /* a step each clock, which is an end */
    put(MFRC531_REG_CONTROL, MFRC531_T_START_NOW);
}

static const struct { const char *kind; void (*prepare)(void), (*round)(void); } kinds[] = {
    {"recorded-mix", record, play},
    {"driver-mix", nothing, drive},
    {"poll", nothing, poll_status},
    {"poll-receiving", receive, poll_status},
    {"fifo-write", nothing, fill_fifo},
    {"fifo-full", fill_up, write_bytes},
    {"lost-sum", fill_up, ask_lost_sum},
    {"crc-start", nothing, start_crc},
    {"crc-byte", begin_crc, write_bytes},
    {"register-read", nothing, read_registers},
    {"register-write", nothing, write_registers},
    {"advance", run_timer, pass_clocks},
    {"advance-1000", run_timer, pass_thousands},
    {"advance-end", run_to_ends, pass_single_clocks},
    {"advance-most", run_to_ends, pass_most_clocks},
    {"advance-held", run_timer_in_power_down, pass_single_clocks},
    {"advance-left", run_timer, pass_leavings},
    {"pack-write", make_packs, write_all},
    {"pack-read", make_packs, read_all},
    {"pack-find", make_packs, find_all},
    {"pack-find-checked", make_packs, find_all_checked},
    {"pack-comparisons", make_packs, find_in_pairs},
};

int main(int count, char **words)
{
    uint8_t image[512] = {0x30, 0xCC, 0xFF, 0x0F}; /* an MFRC531 */
    image[0x23] = image[0x24] = 0x63; /* the preset of ISO/IEC 14443-3, and a WaterLevel of 8 */
    image[0x29] = 0x08;
    done(mfrc531_start(&chip, image, sizeof image));
    put(MFRC531_REG_PAGE, 0x00);
    for (size_t i = 0; count == 3 && i < sizeof kinds / sizeof *kinds; i++) {
        if (strcmp(words[1], kinds[i].kind) == 0) {
            kinds[i].prepare();
            calls = 0;
            for (long round = atol(words[2]); round > 0; round--)
                kinds[i].round();
            printf("%lu\n", calls);
            return 0;
        }
    }
    fprintf(stderr, "usage: instructions KIND ROUNDS\n");
    return 2;
}
