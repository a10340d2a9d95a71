/* Uses all of include/mfrc531.h, and tries what its comments say. tests/firmware compiles it as C and as C++, with the header's names in names.inc.
 *
 * Prints each name with its value, and the bytes of the shipped image. Stops with one line where something is not as the header has it.
 */
#include <mfrc531.h>

#include <stdio.h>
#include <stdlib.h>
#include <string.h>

#define CHECK(test) check(test, #test, __LINE__)
static void check(int holds, const char *test, int line)
{
    if (!holds) {
        fprintf(stderr, "header: line %d does not hold: %s\n", line, test);
        exit(1);
    }
}

static const struct { const char *name; long value; } names[] = {
#define NAME(name) {#name, name},
#include "names.inc"
};

static mfrc531_chip chip; /* zeros, which are no chip's state */

static uint8_t get(uint8_t address)
{
    mfrc531_answer answer = mfrc531_read(&chip, address);
    CHECK(mfrc531_refusal_of(answer) == MFRC531_NOT_REFUSED);
    return mfrc531_value_of(answer);
}

static void put(uint8_t address, uint8_t byte) { CHECK(mfrc531_write(&chip, address, byte) == MFRC531_NOT_REFUSED); }

static void pass(uint32_t clocks) { CHECK(mfrc531_advance(&chip, clocks) == MFRC531_NOT_REFUSED); }

static void start(void) { CHECK(mfrc531_start(&chip, mfrc531_shipped_image(), MFRC531_EEPROM_SIZE) == MFRC531_NOT_REFUSED); }

static void version(void)
{
    char text[32];
    snprintf(text, sizeof text, "%d.%d.%d", MFRC531_VERSION_MAJOR, MFRC531_VERSION_MINOR, MFRC531_VERSION_PATCH);
    CHECK(strcmp(text, MFRC531_VERSION_STRING) == 0);
}

/* Each number has a text of its own and of one line; every other number has one text. */
static void refusal_texts(void)
{
    const char *unknown = mfrc531_refusal_text(MFRC531_BUFFER_SHORTER_THAN_PACK + 1);
    for (unsigned i = MFRC531_NOT_REFUSED; i <= 256; i++) {
        if (i > MFRC531_BUFFER_SHORTER_THAN_PACK && i != MFRC531_IMAGE_OF_NO_EDITION) {
            CHECK(strcmp(mfrc531_refusal_text(i), unknown) == 0);
            continue;
        }
        CHECK(strlen(mfrc531_refusal_text(i)) > 0 && strchr(mfrc531_refusal_text(i), '\n') == NULL);
        CHECK(strcmp(mfrc531_refusal_text(i), unknown) != 0);
        for (unsigned k = 0; k < i; k++)
            CHECK(strcmp(mfrc531_refusal_text(i), mfrc531_refusal_text(k)) != 0);
    }
    CHECK(strlen(unknown) > 0 && strcmp(mfrc531_refusal_text(0xFFFFFFFFu), unknown) == 0);
}

/* Each call but a start refuses the chip, and changes nothing. */
static void malformed(void)
{
    static const uint8_t byte[] = {0x12}, parity[] = {1};
    uint8_t buffer[MFRC531_TAKE_BUFFER_SIZE] = {0xA5}, buffer_before[sizeof buffer];
    memcpy(buffer_before, buffer, sizeof buffer);
    mfrc531_chip before = chip;
    CHECK(mfrc531_read(&chip, MFRC531_REG_PAGE) == MFRC531_CHIP_MALFORMED);
    CHECK(mfrc531_write(&chip, MFRC531_REG_PAGE, 0x00) == MFRC531_CHIP_MALFORMED);
    CHECK(mfrc531_advance(&chip, 1) == MFRC531_CHIP_MALFORMED);
    CHECK(mfrc531_take(&chip, buffer, sizeof buffer) == MFRC531_CHIP_MALFORMED);
    CHECK(mfrc531_deliver(&chip, byte, sizeof byte, parity, sizeof parity, 0) == MFRC531_CHIP_MALFORMED);
    CHECK(mfrc531_lost_sum(&chip) == MFRC531_CHIP_MALFORMED);
    CHECK(memcmp(&chip, &before, sizeof chip) == 0 && memcmp(buffer, buffer_before, sizeof buffer) == 0);
}

/* Memory that is no chip's, also of zeros, is refused without a start, and a start takes it. */
static void any_memory(void)
{
    malformed();
    start();
    CHECK(chip.stage == MFRC531_STAGE_IDLE && get(MFRC531_REG_PAGE) == 0x80);
    memset(&chip, 0xFF, sizeof chip);
    malformed();
    start();
    CHECK(chip.stage == MFRC531_STAGE_IDLE && get(MFRC531_REG_PAGE) == 0x80);
}

/* A chip is of the edition with whose product type its image begins. An image of neither is refused, after its length, and leaves the chip as it was.
 * A chip whose EEPROM begins with another product type than its edition's is malformed. */
static void editions(void)
{
    static const uint8_t neither[][MFRC531_PRODUCT_TYPE_SIZE] = {{0x30, 0x88, 0xFF, 0x0F}, {0x30, 0xCC, 0xFE, 0x03}, {0x30, 0xCC, 0xFF, 0x0E}};
    const uint8_t *const shipped[] = {mfrc531_shipped_image(), mfrc531_shipped_image_rc530()};
    uint8_t image[MFRC531_EEPROM_SIZE];
    for (uint8_t edition = MFRC531_EDITION_MFRC531; edition <= MFRC531_EDITION_RC530; edition++) {
        memcpy(image, shipped[edition], sizeof image);
        image[MFRC531_PRODUCT_TYPE_SIZE] = 0x5A; /* the version, which decides nothing */
        memset(&chip, 0xFF, sizeof chip);
        CHECK(mfrc531_start(&chip, image, sizeof image) == MFRC531_NOT_REFUSED);
        CHECK(chip.edition == edition && memcmp(chip.eeprom, image, sizeof image) == 0);
        mfrc531_chip before = chip;
        for (size_t i = 0; i < sizeof neither / sizeof *neither; i++) {
            memcpy(image, neither[i], sizeof neither[i]);
            CHECK(mfrc531_start(&chip, image, sizeof image - 1) == MFRC531_IMAGE_NOT_512_BYTES);
            CHECK(mfrc531_start(&chip, image, sizeof image) == MFRC531_IMAGE_OF_NO_EDITION);
            CHECK(memcmp(&chip, &before, sizeof chip) == 0);
        }
        memset(image, 0, sizeof image);
        CHECK(mfrc531_start(&chip, image, sizeof image - 1) == MFRC531_IMAGE_NOT_512_BYTES);
        CHECK(mfrc531_start(&chip, image, sizeof image) == MFRC531_IMAGE_OF_NO_EDITION && memcmp(&chip, &before, sizeof chip) == 0);
        for (unsigned number = 0; number < 256; number++) {
            chip.edition = number;
            if (number != edition)
                malformed();
        }
        chip = before;
        for (size_t i = 0; i < MFRC531_PRODUCT_TYPE_SIZE; i++) {
            chip.eeprom[i] ^= 0x01;
            malformed();
            chip = before;
        }
        chip.eeprom[MFRC531_PRODUCT_TYPE_SIZE] ^= 0xFF;
        CHECK(get(MFRC531_REG_FIFO_LENGTH) == 0 && chip.edition == edition);
    }
}

/* After a start address 22h is FIFOData, until Page is written. */
static void pages(void)
{
    start();
    CHECK(get(MFRC531_REG_PAGE) == MFRC531_USE_PAGE_SELECT);
    put(MFRC531_REG_CHANNEL_REDUNDANCY, 0x55);
    CHECK(get(MFRC531_REG_FIFO_LENGTH) == 1 && get(MFRC531_REG_CHANNEL_REDUNDANCY) == 0x55 && get(MFRC531_REG_FIFO_LENGTH) == 0);
    put(MFRC531_REG_PAGE, 0x00);
    CHECK(get(MFRC531_REG_CHANNEL_REDUNDANCY) == (MFRC531_PARITY_EN | MFRC531_PARITY_ODD));
    CHECK(get(MFRC531_REG_ERROR_FLAG) == MFRC531_KEY_ERR && get(MFRC531_REG_PRIMARY_STATUS) == (MFRC531_ERR | MFRC531_LO_ALERT));
    CHECK(get(MFRC531_REG_SECONDARY_STATUS) == (MFRC531_E2_READY | MFRC531_CRC_READY));
}

/* Time passes by mfrc531_advance alone: a byte is programmed after so many clocks, and polls do nothing for it. */
static void time_passes(void)
{
    start();
    put(MFRC531_REG_PAGE, 0x00);
    put(MFRC531_REG_COMMAND, MFRC531_CMD_WRITE_E2);
    put(MFRC531_REG_FIFO_DATA, 0x30);
    put(MFRC531_REG_FIFO_DATA, 0x00);
    put(MFRC531_REG_FIFO_DATA, 0xA5);
    for (int i = 0; i < 100000; i++)
        CHECK((get(MFRC531_REG_SECONDARY_STATUS) & MFRC531_E2_READY) == 0);
    CHECK(mfrc531_advance(&chip, MFRC531_PROGRAMMING_CLOCKS - 1) == MFRC531_NOT_REFUSED);
    CHECK((get(MFRC531_REG_SECONDARY_STATUS) & MFRC531_E2_READY) == 0 && chip.eeprom[0x30] == 0x00);
    CHECK(mfrc531_advance(&chip, 1) == MFRC531_NOT_REFUSED);
    CHECK((get(MFRC531_REG_SECONDARY_STATUS) & MFRC531_E2_READY) != 0 && chip.eeprom[0x30] == 0xA5);
    CHECK((get(MFRC531_REG_INTERRUPT_RQ) & MFRC531_TX_IRQ) != 0);
    CHECK(MFRC531_MOST_CLOCKS == UINT32_MAX && mfrc531_advance(&chip, MFRC531_MOST_CLOCKS) == MFRC531_NOT_REFUSED);
}

static int modem_state(void) { return (get(MFRC531_REG_PRIMARY_STATUS) & MFRC531_MODEM_STATE_MASK) >> MFRC531_MODEM_STATE_SHIFT; }

/* The frame is what the FIFO holds at the take; TxIRq and the timer's start come with it, and a delivery ends it all. */
static void frames(void)
{
    static const uint8_t byte[] = {0x12}, parity[] = {1};
    uint8_t frame[MFRC531_TAKE_BUFFER_SIZE];
    start();
    put(MFRC531_REG_PAGE, 0x00);
    put(MFRC531_REG_COMMAND, MFRC531_CMD_TRANSCEIVE);
    CHECK(mfrc531_take(&chip, frame, sizeof frame) == MFRC531_NOT_SENDING_OR_RECEIVING && modem_state() == MFRC531_MODEM_IDLE);
    put(MFRC531_REG_FIFO_DATA, 0x93);
    put(MFRC531_REG_FIFO_DATA, 0x20);
    CHECK((get(MFRC531_REG_INTERRUPT_RQ) & MFRC531_TX_IRQ) == 0 && (get(MFRC531_REG_SECONDARY_STATUS) & MFRC531_T_RUNNING) == 0);
    put(MFRC531_REG_BIT_FRAMING, 3 & MFRC531_TX_LAST_BITS_MASK);
    CHECK(modem_state() == MFRC531_MODEM_TX_DATA);
    mfrc531_answer taken = mfrc531_take(&chip, frame, sizeof frame);
    CHECK(mfrc531_refusal_of(taken) == MFRC531_NOT_REFUSED && mfrc531_value_of(taken) == 2 && mfrc531_last_bits_of(taken) == 3);
    CHECK(frame[0] == 0x93 && frame[1] == 0x20 && get(MFRC531_REG_BIT_FRAMING) == 3);
    CHECK((get(MFRC531_REG_INTERRUPT_RQ) & MFRC531_TX_IRQ) != 0 && (get(MFRC531_REG_SECONDARY_STATUS) & MFRC531_T_RUNNING) != 0);
    CHECK(chip.stage == MFRC531_STAGE_TRANSCEIVE_RECEIVING && modem_state() == MFRC531_MODEM_AWAITING_RX);
    CHECK(mfrc531_deliver(&chip, byte, sizeof byte, parity, sizeof parity, 0) == MFRC531_NOT_REFUSED);
    CHECK((get(MFRC531_REG_INTERRUPT_RQ) & MFRC531_RX_IRQ) != 0 && get(MFRC531_REG_FIFO_DATA) == 0x12);
}

/* The alerts of a call: a byte that CalcCRC takes at once raises none, and the twelfth byte of LoadKey empties the FIFO. */
static void alerts(void)
{
    start();
    put(MFRC531_REG_PAGE, 0x00);
    put(MFRC531_REG_FIFO_LEVEL, 0 & MFRC531_WATER_LEVEL_MASK);
    put(MFRC531_REG_COMMAND, MFRC531_CMD_CALC_CRC);
    put(MFRC531_REG_INTERRUPT_RQ, 0x7F);
    put(MFRC531_REG_FIFO_DATA, 0x01);
    CHECK((get(MFRC531_REG_INTERRUPT_RQ) & MFRC531_LO_ALERT_IRQ) == 0);
    put(MFRC531_REG_COMMAND, MFRC531_CMD_LOAD_KEY);
    for (int i = 0; i < 12; i++) {
        CHECK((get(MFRC531_REG_INTERRUPT_RQ) & MFRC531_LO_ALERT_IRQ) == 0);
        put(MFRC531_REG_FIFO_DATA, 0xF0);
    }
    CHECK((get(MFRC531_REG_INTERRUPT_RQ) & MFRC531_LO_ALERT_IRQ) != 0);
}

/* The parts of an answer do not overlap, but for the sum of mfrc531_lost_sum and the number of the functions for packs. */
static void answer_parts(void)
{
    CHECK(mfrc531_refusal_of(0x7D030142) == 0x42 && mfrc531_value_of(0x7D030142) == 0x01 && mfrc531_last_bits_of(0x7D030142) == 0x03);
    CHECK(mfrc531_lost_of(0x7D030142) == 125 && mfrc531_lost_sum_of(0x7D030142) == 0x0301);
    CHECK(mfrc531_lost_of(0xFF000000) == 255 && mfrc531_lost_sum_of(0x00FFFF00) == 65535);
    CHECK(mfrc531_number_of(0x7D030142) == 0x7D0301 && mfrc531_number_of(0xFFFFFF00) == 0xFFFFFF);
}

/* A chip with linear addresses and 64 bytes held: ReadE2's arguments, for so many bytes from 000h on, and 61 others. */
static void fill(uint8_t count)
{
    start();
    put(MFRC531_REG_PAGE, 0x00);
    put(MFRC531_REG_FIFO_DATA, 0x00);
    put(MFRC531_REG_FIFO_DATA, 0x00);
    put(MFRC531_REG_FIFO_DATA, count);
    for (int i = 3; i < MFRC531_FIFO_SIZE; i++)
        put(MFRC531_REG_FIFO_DATA, 0x55);
}

/* The latest call was accepted, lost so many bytes and answers nothing else; the sum is then so many, and FIFOOvfl is set where it is above 0. */
static void lost(mfrc531_answer answer, uint32_t in_call, uint32_t sum)
{
    mfrc531_chip before = chip;
    CHECK(answer == in_call << 24 && mfrc531_lost_of(answer) == in_call);
    CHECK(mfrc531_lost_sum(&chip) == sum << 8 && mfrc531_lost_sum_of(mfrc531_lost_sum(&chip)) == sum);
    CHECK(chip.lost_sum == sum && memcmp(&chip, &before, sizeof chip) == 0);
    CHECK(((get(MFRC531_REG_ERROR_FLAG) & MFRC531_FIFO_OVFL) != 0) == (sum > 0));
}

/* Bytes offered to the FIFO while it holds 64: in the answer of the call, and in the sum until a flush or a start. */
static void lost_bytes(void)
{
    static const uint8_t card[MFRC531_FIFO_SIZE] = {0x12, 0x34, 0x26, 0xCF}, parities[MFRC531_FIFO_SIZE] = {1, 0, 0, 1};
    uint8_t frame[MFRC531_TAKE_BUFFER_SIZE];
    fill(128);
    lost(mfrc531_write(&chip, MFRC531_REG_FIFO_LEVEL, 8), 0, 0);
    lost(mfrc531_write(&chip, MFRC531_REG_FIFO_DATA, 0xAA), 1, 1);
    lost(mfrc531_write(&chip, MFRC531_REG_COMMAND, MFRC531_CMD_READ_E2), 125, 126); /* 61 bytes stay: 3 of 128 fit */
    CHECK(get(MFRC531_REG_FIFO_LENGTH) == MFRC531_FIFO_SIZE);
    lost(mfrc531_write(&chip, MFRC531_REG_COMMAND, MFRC531_CMD_RECEIVE), 0, 126);
    lost(mfrc531_deliver(&chip, card, sizeof card, parities, sizeof parities, 0), 64, 190);
    put(MFRC531_REG_CHANNEL_REDUNDANCY, MFRC531_RX_CRC_EN);
    put(MFRC531_REG_COMMAND, MFRC531_CMD_RECEIVE);
    CHECK(get(MFRC531_REG_FIFO_DATA) == 0x55);
    lost(mfrc531_deliver(&chip, card, 4, parities, 4, 0), 1, 191); /* one fits, and the checksum is dropped, not lost */

    /* What does not set it to 0: refused calls, Command, a take, reads, also of an empty FIFO, clocks. */
    CHECK(mfrc531_deliver(&chip, card, 4, parities, 4, 0) == MFRC531_NOT_SENDING_OR_RECEIVING);
    CHECK(mfrc531_write(&chip, 64, 0xAA) == MFRC531_ADDRESS_ABOVE_63);
    CHECK(mfrc531_start(&chip, card, sizeof card) == MFRC531_IMAGE_NOT_512_BYTES);
    put(MFRC531_REG_COMMAND, MFRC531_CMD_TRANSMIT);
    CHECK(mfrc531_take(&chip, frame, sizeof frame) == MFRC531_FIFO_SIZE << 8);
    CHECK(get(MFRC531_REG_FIFO_LENGTH) == 0 && get(MFRC531_REG_FIFO_DATA) == 0x00);
    lost(mfrc531_advance(&chip, MFRC531_MOST_CLOCKS), 0, 191);

    /* A flush; ReadE2 by its last argument, into an empty FIFO; a start. */
    lost(mfrc531_write(&chip, MFRC531_REG_CONTROL, MFRC531_FLUSH_FIFO), 0, 0);
    put(MFRC531_REG_COMMAND, MFRC531_CMD_READ_E2);
    put(MFRC531_REG_FIFO_DATA, 0x00);
    put(MFRC531_REG_FIFO_DATA, 0x00);
    lost(mfrc531_write(&chip, MFRC531_REG_FIFO_DATA, 128), 64, 64);
    start();
    put(MFRC531_REG_PAGE, 0x00);
    lost(MFRC531_NOT_REFUSED, 0, 0);

    /* ReadE2 that loses nothing: no bytes, as many as fit, and with AccessErr. */
    static const uint8_t counts[] = {0, 3, 129};
    for (size_t i = 0; i < sizeof counts; i++) {
        fill(counts[i]);
        lost(mfrc531_write(&chip, MFRC531_REG_COMMAND, MFRC531_CMD_READ_E2), 0, 0);
    }

    /* The sum stays at 65,535, and the call's number is whole. A sum is well formed beside a clear FIFOOvfl, and 0 beside a set one. */
    static const uint32_t sums[] = {65409, 65410, 65411, 65535};
    for (size_t i = 0; i < sizeof sums / sizeof *sums; i++) {
        fill(128);
        chip.lost_sum = sums[i];
        CHECK(mfrc531_lost_sum(&chip) == sums[i] << 8);
        lost(mfrc531_write(&chip, MFRC531_REG_COMMAND, MFRC531_CMD_READ_E2), 125, i == 0 ? 65534 : 65535);
    }
    chip.lost_sum = 0;
    CHECK(mfrc531_lost_sum(&chip) == 0 && get(MFRC531_REG_ERROR_FLAG) & MFRC531_FIFO_OVFL);
}

/* The two modes: the bit of Control, the clocks of its leaving, and the number in the chip. */
static const struct { uint8_t bit; uint16_t clocks, *number; } modes[] = {
    {MFRC531_STAND_BY, MFRC531_STAND_BY_CLOCKS, &chip.stand_by},
    {MFRC531_POWER_DOWN, MFRC531_POWER_DOWN_CLOCKS, &chip.power_down},
};
enum { MODES = sizeof modes / sizeof *modes, BOTH = MFRC531_STAND_BY | MFRC531_POWER_DOWN };

/* A chip with linear addresses and a timer that falls by one at every clock, from 255; and where it is then. */
static void run_timer(void)
{
    start();
    CHECK(chip.stand_by == 0 && chip.power_down == 0);
    put(MFRC531_REG_PAGE, 0x00);
    put(MFRC531_REG_TIMER_CLOCK, 0);
    put(MFRC531_REG_TIMER_RELOAD, 255);
    put(MFRC531_REG_CONTROL, MFRC531_T_START_NOW);
}

static void timer_at(uint8_t value) { CHECK(get(MFRC531_REG_TIMER_VALUE) == value && (get(MFRC531_REG_SECONDARY_STATUS) & MFRC531_T_RUNNING) != 0); }

/* WriteE2 from an address on, with so many bytes. */
static void write_e2(uint8_t address, int count)
{
    put(MFRC531_REG_COMMAND, MFRC531_CMD_WRITE_E2);
    put(MFRC531_REG_FIFO_DATA, address);
    put(MFRC531_REG_FIFO_DATA, 0x00);
    for (int i = 0; i < count; i++)
        put(MFRC531_REG_FIFO_DATA, 0xA5);
    CHECK((get(MFRC531_REG_SECONDARY_STATUS) & MFRC531_E2_READY) == 0 && chip.programming_left == MFRC531_PROGRAMMING_CLOCKS);
}

/* In either mode time stands still and no frame is taken or delivered; reads, writes and commands work. Its leaving takes its own clocks. */
static void power_modes(void)
{
    static const uint8_t byte[] = {0x12}, parity[] = {1}, no_parity[] = {2};
    uint8_t frame[MFRC531_TAKE_BUFFER_SIZE];
    for (size_t i = 0; i < MODES; i++) {
        run_timer();
        pass(1);
        put(MFRC531_REG_CONTROL, modes[i].bit);
        CHECK(get(MFRC531_REG_CONTROL) == modes[i].bit && *modes[i].number == MFRC531_MODE_HOLD);
        pass(MFRC531_MOST_CLOCKS);
        timer_at(254);
        put(MFRC531_REG_COMMAND, MFRC531_CMD_CALC_CRC);
        put(MFRC531_REG_FIFO_DATA, 0x12);
        put(MFRC531_REG_FIFO_DATA, 0x34);
        CHECK(get(MFRC531_REG_CRC_RESULT_LSB) == 0x26 && get(MFRC531_REG_CRC_RESULT_MSB) == 0xCF);
        put(MFRC531_REG_COMMAND, MFRC531_CMD_TRANSCEIVE);
        put(MFRC531_REG_FIFO_DATA, 0x26);
        put(MFRC531_REG_CONTROL, 0);
        for (uint16_t left = modes[i].clocks; left > 0; left--) { /* a clock in each round */
            CHECK(get(MFRC531_REG_CONTROL) == modes[i].bit && *modes[i].number == (MFRC531_MODE_HOLD | left));
            CHECK((*modes[i].number & MFRC531_MODE_TO_GO) == left && modem_state() == MFRC531_MODEM_TX_DATA);
            mfrc531_chip before = chip;
            CHECK(mfrc531_take(&chip, frame, sizeof frame - 1) == MFRC531_BUFFER_UNDER_66_BYTES);
            CHECK(mfrc531_take(&chip, frame, sizeof frame) == MFRC531_NOT_SENDING_OR_RECEIVING);
            CHECK(memcmp(&chip, &before, sizeof chip) == 0);
            timer_at(254);
            pass(1);
        }
        CHECK(get(MFRC531_REG_CONTROL) == 0 && *modes[i].number == 0 && get(MFRC531_REG_INTERRUPT_RQ) == MFRC531_TX_IRQ); /* that of CalcCRC */
        timer_at(254);
        pass(1);
        timer_at(253);
        CHECK(mfrc531_value_of(mfrc531_take(&chip, frame, sizeof frame)) == 1 && frame[0] == 0x26);
        put(MFRC531_REG_CONTROL, modes[i].bit);
        CHECK(mfrc531_deliver(&chip, byte, sizeof byte, no_parity, sizeof no_parity, 0) == MFRC531_FRAME_MALFORMED);
        CHECK(mfrc531_deliver(&chip, byte, sizeof byte, parity, sizeof parity, 0) == MFRC531_NOT_SENDING_OR_RECEIVING);
        put(MFRC531_REG_CONTROL, MFRC531_FLUSH_FIFO); /* which writes both bits too */
        pass(modes[i].clocks - 1);
        CHECK(mfrc531_deliver(&chip, byte, sizeof byte, parity, sizeof parity, 0) == MFRC531_NOT_SENDING_OR_RECEIVING);
        pass(1);
        CHECK(mfrc531_deliver(&chip, byte, sizeof byte, parity, sizeof parity, 0) == MFRC531_NOT_REFUSED);

        /* During a leaving: another 0 changes nothing, a 1 keeps the mode, and the next 0 begins the whole count. */
        put(MFRC531_REG_CONTROL, modes[i].bit);
        put(MFRC531_REG_CONTROL, 0);
        pass(modes[i].clocks - 1);
        put(MFRC531_REG_CONTROL, 0);
        CHECK(*modes[i].number == (MFRC531_MODE_HOLD | 1));
        put(MFRC531_REG_CONTROL, get(MFRC531_REG_CONTROL) | MFRC531_FLUSH_FIFO);
        CHECK(*modes[i].number == MFRC531_MODE_HOLD);
        pass(MFRC531_MOST_CLOCKS);
        CHECK(get(MFRC531_REG_CONTROL) == modes[i].bit);
        put(MFRC531_REG_CONTROL, 0);
        CHECK(*modes[i].number == (MFRC531_MODE_HOLD | modes[i].clocks));
        start();
        CHECK(chip.control == 0 && *modes[i].number == 0);
    }

    /* Both, left side by side: the timer waits for the later end. */
    run_timer();
    put(MFRC531_REG_CONTROL, BOTH);
    put(MFRC531_REG_CONTROL, 0);
    pass(MFRC531_STAND_BY_CLOCKS - 1);
    CHECK(get(MFRC531_REG_CONTROL) == BOTH);
    pass(1);
    CHECK(get(MFRC531_REG_CONTROL) == MFRC531_POWER_DOWN && chip.stand_by == 0);
    pass(MFRC531_POWER_DOWN_CLOCKS - MFRC531_STAND_BY_CLOCKS - 1);
    CHECK(get(MFRC531_REG_CONTROL) == MFRC531_POWER_DOWN && chip.power_down == (MFRC531_MODE_HOLD | 1));
    pass(11);
    CHECK(get(MFRC531_REG_CONTROL) == 0);
    timer_at(245);
    put(MFRC531_REG_CONTROL, BOTH);
    put(MFRC531_REG_CONTROL, MFRC531_POWER_DOWN); /* StandBy alone is left, while PowerDown has hold */
    pass(MFRC531_STAND_BY_CLOCKS);
    CHECK(get(MFRC531_REG_CONTROL) == MFRC531_POWER_DOWN && chip.power_down == MFRC531_MODE_HOLD);
    timer_at(245);
}

/* A bit that is set over a programming waits for its end. */
static void power_modes_wait(void)
{
    for (size_t i = 0; i < MODES; i++) {
        const uint8_t other = modes[i].bit ^ BOTH;
        run_timer();
        write_e2(0x3F, 2); /* in two blocks, so in two programmings */
        put(MFRC531_REG_CONTROL, modes[i].bit);
        CHECK(get(MFRC531_REG_CONTROL) == modes[i].bit && *modes[i].number == 0);
        pass(10);
        timer_at(245);
        CHECK(chip.programming_left == MFRC531_PROGRAMMING_CLOCKS - 10);
        put(MFRC531_REG_CONTROL, 0); /* takes it back at once */
        CHECK(get(MFRC531_REG_CONTROL) == 0 && *modes[i].number == 0);
        put(MFRC531_REG_CONTROL, modes[i].bit);
        pass(MFRC531_PROGRAMMING_CLOCKS - 11);
        CHECK(*modes[i].number == 0 && chip.programming_left == 1);
        put(MFRC531_REG_CONTROL, modes[i].bit | MFRC531_T_START_NOW);
        pass(1000); /* the first of them ends the programming and counts for the timer, the others for nothing */
        timer_at(254);
        CHECK(*modes[i].number == MFRC531_MODE_HOLD && chip.eeprom[0x3F] == 0xA5 && chip.eeprom[0x40] == 0x00);
        CHECK(chip.programming_left == MFRC531_PROGRAMMING_CLOCKS && get(MFRC531_REG_FIFO_LENGTH) == 0);
        CHECK((get(MFRC531_REG_SECONDARY_STATUS) & MFRC531_E2_READY) == 0);
        put(MFRC531_REG_COMMAND, MFRC531_CMD_IDLE); /* ignored, though the programming stands still */
        CHECK(get(MFRC531_REG_COMMAND) == MFRC531_CMD_WRITE_E2);
        put(MFRC531_REG_CONTROL, other); /* the one is left, the other waits for the programming that stands still */
        CHECK(get(MFRC531_REG_CONTROL) == BOTH && *modes[1 - i].number == 0);
        pass(modes[i].clocks);
        CHECK(get(MFRC531_REG_CONTROL) == other && *modes[1 - i].number == 0);
        pass(MFRC531_PROGRAMMING_CLOCKS - 1);
        CHECK(chip.eeprom[0x40] == 0x00);
        pass(1);
        CHECK(chip.eeprom[0x40] == 0xA5 && *modes[1 - i].number == MFRC531_MODE_HOLD);
        CHECK((get(MFRC531_REG_SECONDARY_STATUS) & MFRC531_E2_READY) != 0);

        /* Bytes that are written in the mode are latched, and stand still; a 1 during the leaving keeps the mode though there is a programming. */
        put(MFRC531_REG_FIFO_DATA, 0x5A);
        pass(MFRC531_MOST_CLOCKS);
        CHECK(chip.programming_left == MFRC531_PROGRAMMING_CLOCKS && chip.eeprom[0x41] == 0x00);
        put(MFRC531_REG_CONTROL, 0);
        pass(modes[1 - i].clocks - 1);
        put(MFRC531_REG_CONTROL, other);
        pass(MFRC531_MOST_CLOCKS);
        CHECK(*modes[1 - i].number == MFRC531_MODE_HOLD && chip.programming_left == MFRC531_PROGRAMMING_CLOCKS);
        put(MFRC531_REG_CONTROL, 0);
        pass(modes[1 - i].clocks + MFRC531_PROGRAMMING_CLOCKS);
        CHECK(chip.programming_left == 0 && chip.eeprom[0x41] == 0x5A);
    }
}

/* Every number of a mode, with its bit and without, with a programming and without: what is malformed, and nothing else. */
static void malformed_modes(void)
{
    for (size_t i = 0; i < MODES; i++)
        for (int programming = 0; programming < 2; programming++) {
            start();
            put(MFRC531_REG_PAGE, 0x00);
            if (programming)
                write_e2(0x30, 1);
            const mfrc531_chip before = chip;
            for (unsigned set = 0; set < 2; set++)
                for (uint32_t number = 0; number < 65536; number++) {
                    int hold = (number & MFRC531_MODE_HOLD) != 0, to_go = number & MFRC531_MODE_TO_GO;
                    chip.control = set ? modes[i].bit : 0;
                    *modes[i].number = number;
                    if (set ? (hold ? to_go > modes[i].clocks : to_go > 0 || !programming) : number > 0)
                        malformed();
                    else {
                        pass(0);
                        CHECK(get(MFRC531_REG_CONTROL) == (set ? modes[i].bit : 0));
                    }
                    chip = before;
                }
        }
}

/* Codes that the bench does not execute. */
static void unknown_codes(void)
{
    static const uint8_t codes[] = {MFRC531_CMD_AUTHENT1, MFRC531_CMD_AUTHENT2, MFRC531_CMD_START_UP};
    start();
    put(MFRC531_REG_PAGE, 0x00);
    for (size_t i = 0; i < sizeof codes; i++) {
        put(MFRC531_REG_INTERRUPT_RQ, 0x7F);
        put(MFRC531_REG_COMMAND, codes[i]);
        CHECK(get(MFRC531_REG_COMMAND) == MFRC531_CMD_IDLE && get(MFRC531_REG_INTERRUPT_RQ) == MFRC531_IDLE_IRQ);
    }
}

/* Every refusal by its name, and nothing changed by it. */
static void refusals(void)
{
    uint8_t image[MFRC531_EEPROM_SIZE], buffer[MFRC531_TAKE_BUFFER_SIZE] = {0}, *profile = image + MFRC531_PROFILE_ADDRESS;
    memcpy(image, mfrc531_shipped_image(), sizeof image);
    start();
    mfrc531_chip before = chip;
    CHECK(mfrc531_read(&chip, 64) == MFRC531_ADDRESS_ABOVE_63 && mfrc531_write(&chip, 64, 0) == MFRC531_ADDRESS_ABOVE_63);
    CHECK(mfrc531_start(&chip, image, sizeof image - 1) == MFRC531_IMAGE_NOT_512_BYTES);
    CHECK(mfrc531_take(&chip, buffer, sizeof buffer - 1) == MFRC531_BUFFER_UNDER_66_BYTES);
    CHECK(mfrc531_take(&chip, buffer, sizeof buffer) == MFRC531_NOT_SENDING_OR_RECEIVING);
    CHECK(mfrc531_deliver(&chip, image, 0, buffer, 0, 0) == MFRC531_FRAME_MALFORMED);
    CHECK(memcmp(&chip, &before, sizeof chip) == 0);

    const uint8_t *shipped = mfrc531_shipped_image();
    CHECK(mfrc531_check_profile(MFRC531_EDITION_MFRC531, profile, MFRC531_PROFILE_SIZE) == MFRC531_NOT_REFUSED);
    CHECK(mfrc531_check_profile(MFRC531_EDITION_MFRC531, profile, MFRC531_PROFILE_SIZE - 1) == MFRC531_PROFILE_NOT_32_BYTES);
    CHECK(mfrc531_value_of(mfrc531_choose(image, sizeof image, shipped, MFRC531_EEPROM_SIZE)) == 1);
    static const struct { uint8_t address, byte, refusal, bit; } faults[] = {
        {MFRC531_REG_CHANNEL_REDUNDANCY, 0x40, MFRC531_FIXED_BIT_DIFFERS, 6},
        {MFRC531_REG_TIMER_CLOCK, 22, MFRC531_PRESCALER_ABOVE_21, 0},
        {MFRC531_REG_TIMER_RELOAD, 0, MFRC531_RELOAD_0_WITH_START, 0},
        {MFRC531_REG_FIFO_LEVEL, 32, MFRC531_WATER_LEVEL_ABOVE_31, 0},
    };
    for (size_t i = 0; i < sizeof faults / sizeof *faults; i++) {
        memcpy(image, shipped, sizeof image);
        image[faults[i].address] = faults[i].byte;
        mfrc531_answer answer = mfrc531_check_profile(MFRC531_EDITION_MFRC531, profile, MFRC531_PROFILE_SIZE);
        CHECK(mfrc531_refusal_of(answer) == faults[i].refusal && mfrc531_value_of(answer) == faults[i].address);
        CHECK(mfrc531_last_bits_of(answer) == faults[i].bit);
        CHECK(mfrc531_value_of(mfrc531_choose(image, sizeof image, shipped, MFRC531_EEPROM_SIZE)) == 2);
        CHECK(mfrc531_choose(image, sizeof image, image, sizeof image) == MFRC531_BOTH_PROFILES_FAIL);
    }
}

/* The check goes by the edition's fixed bits, and the choice by that of each image. The MF RC530's shipped profile differs at 17h. */
static void profiles(void)
{
    const uint8_t first = MFRC531_EDITION_MFRC531, second = MFRC531_EDITION_RC530, *shipped = mfrc531_shipped_image();
    uint8_t image[MFRC531_EEPROM_SIZE], *profile = image + MFRC531_PROFILE_ADDRESS;
    CHECK(mfrc531_check_profile(second, shipped + MFRC531_PROFILE_ADDRESS, 32) == (MFRC531_FIXED_BIT_DIFFERS | 0x16u << 8));
    memcpy(image, mfrc531_shipped_image_rc530(), sizeof image);
    CHECK(mfrc531_check_profile(first, profile, 32) == MFRC531_NOT_REFUSED);
    CHECK(mfrc531_check_profile(second, profile, 32) == (MFRC531_FIXED_BIT_DIFFERS | 0x17u << 8));
    CHECK(mfrc531_value_of(mfrc531_choose(image, sizeof image, shipped, sizeof image)) == 2);
    CHECK(mfrc531_choose(image, sizeof image, image, sizeof image) == MFRC531_BOTH_PROFILES_FAIL);
    image[0x17] = 0x00;
    CHECK(mfrc531_check_profile(second, profile, 32) == MFRC531_NOT_REFUSED);
    CHECK(mfrc531_value_of(mfrc531_choose(image, sizeof image, shipped, sizeof image)) == 1);
    CHECK(mfrc531_value_of(mfrc531_choose(shipped, sizeof image, image, sizeof image)) == 1);

    /* Bits that the MF RC530 fixes, most of these at 1; then what is alike. */
    static const struct { uint8_t address, byte; mfrc531_answer of_first, of_second; } changes[] = {
        {0x11, 0x48, 0, 0x04110A}, {0x11, 0xC8, 0x07110A, 0x04110A}, {0x13, 0x3E, 0, 0x00130A}, {0x14, 0x18, 0, 0x00140A},
        {0x19, 0x63, 0, 0x04190A}, {0x1A, 0x00, 0, 0x031A0A}, {0x1D, 0x3E, 0, 0x051D0A},
        {0x25, 0x80, 0x07250A, 0x07250A}, {0x29, 32, 0x00290D, 0x00290D}, {0x2A, 22, 0x002A0B, 0x002A0B}, {0x2C, 0, 0x002C0C, 0x002C0C},
    };
    for (size_t i = 0; i < sizeof changes / sizeof *changes; i++) {
        uint8_t kept = image[changes[i].address];
        image[changes[i].address] = changes[i].byte;
        CHECK(mfrc531_check_profile(first, profile, 32) == changes[i].of_first);
        CHECK(mfrc531_check_profile(second, profile, 32) == changes[i].of_second);
        image[changes[i].address] = kept;
    }

    /* 9 goes first, and 7 follows where the number is no edition's. */
    for (unsigned number = 0; number < 256; number++) {
        CHECK(mfrc531_check_profile(number, profile, 31) == MFRC531_PROFILE_NOT_32_BYTES);
        CHECK(mfrc531_check_profile(number, image, 512) == MFRC531_PROFILE_NOT_32_BYTES);
        CHECK(mfrc531_check_profile(number, profile, 32) == (number < 2 ? MFRC531_NOT_REFUSED : MFRC531_CHIP_MALFORMED));
        CHECK(number < 2 || mfrc531_check_profile(number, image, 32) == MFRC531_CHIP_MALFORMED);
    }

    /* An image of neither edition fails in the choice, though its profile passes by both tables. The lengths go first. */
    image[3] = 0x0F;
    CHECK(mfrc531_value_of(mfrc531_choose(image, sizeof image, shipped, sizeof image)) == 2);
    CHECK(mfrc531_value_of(mfrc531_choose(shipped, sizeof image, image, sizeof image)) == 1);
    CHECK(mfrc531_choose(image, sizeof image, image, sizeof image) == MFRC531_BOTH_PROFILES_FAIL);
    CHECK(mfrc531_choose(image, sizeof image, shipped, sizeof image - 1) == MFRC531_IMAGE_NOT_512_BYTES);
    CHECK(mfrc531_choose(shipped, sizeof image - 1, image, sizeof image) == MFRC531_IMAGE_NOT_512_BYTES);
}

/* Names and bodies for one profile more than a pack takes, and a buffer for them with 20 bytes more. */
enum { TOO_MANY = MFRC531_PACK_MOST_PROFILES + 1, NAME = MFRC531_PACK_NAME_SIZE, BODY = MFRC531_PROFILE_SIZE };
static uint8_t pack_names[NAME * TOO_MANY], pack_bodies[BODY * TOO_MANY];
static uint8_t pack[MFRC531_PACK_SIZE(TOO_MANY) + 20], pack_before[sizeof pack];

/* Ascending names, the first of zeros, and above half of them with bytes FFh at the end; bodies of all values, most of which fail the check. */
static void name_profiles(void)
{
    memset(pack_names, 0, sizeof pack_names);
    for (int i = 0; i < TOO_MANY; i++) {
        pack_names[NAME * i] = i >> 1;
        if (i > TOO_MANY / 2)
            memset(pack_names + NAME * i + 1, 0xFF, NAME - 1);
        pack_names[NAME * i + NAME - 1] = i & 1 ? 0x80 : 0x7F; /* above 7Fh only as unsigned bytes */
        for (int k = 0; k < BODY; k++)
            pack_bodies[BODY * i + k] = i * 7 + k;
    }
    memset(pack_names, 0, NAME);
}

static void put_number(uint8_t *at, uint32_t number)
{
    for (int i = 0; i < 4; i++)
        at[i] = number >> 8 * i & 0xFF;
}

/* The first n names and bodies, laid out as the header says, in place of the first bytes of `pack`. */
static void lay_out(size_t n)
{
    for (size_t i = 0; i < n; i++) {
        memcpy(pack + 32 * i, pack_bodies + BODY * i, BODY);
        memcpy(pack + 32 * n + 20 * i, pack_names + NAME * i, NAME);
        put_number(pack + 32 * n + 20 * i + 16, 32 * i);
    }
    put_number(pack + 52 * n, 32 * n);
    put_number(pack + 52 * n + 4, n);
    memcpy(pack + 52 * n + 8, "RC53", 4);
}

static mfrc531_answer write_pack(size_t names, size_t bodies, size_t length)
{
    return mfrc531_pack_write(pack_names, names, pack_bodies, bodies, pack, length);
}

/* Packs of several numbers of profiles: what is written, read and found, and that each function but the writer only reads. */
static void packs(void)
{
    static const uint16_t numbers[] = {0, 1, 2, 3, 255, 256};
    name_profiles();
    CHECK(MFRC531_PACK_SIZE(0) == MFRC531_PACK_TRAILER_SIZE && MFRC531_PACK_SIZE(MFRC531_PACK_MOST_PROFILES) == MFRC531_PACK_MOST_SIZE);
    for (size_t k = 0; k < sizeof numbers / sizeof *numbers; k++) {
        const size_t n = numbers[k], length = MFRC531_PACK_SIZE(n);
        memset(pack, 0xA5, sizeof pack);
        lay_out(n);
        memcpy(pack_before, pack, sizeof pack);
        memset(pack, 0xA5, sizeof pack);
        CHECK(write_pack(NAME * n, BODY * n, length) == length << 8 && memcmp(pack, pack_before, sizeof pack) == 0);
        memset(pack, 0xA5, sizeof pack);
        CHECK(mfrc531_number_of(write_pack(NAME * n, BODY * n, sizeof pack)) == length && memcmp(pack, pack_before, sizeof pack) == 0);
        CHECK(mfrc531_pack_read(pack, length) == n << 8 && mfrc531_pack_profiles(length) == n);
        for (size_t i = 0; i < TOO_MANY; i++) {
            const uint8_t *name = pack_names + NAME * i;
            const mfrc531_answer found = mfrc531_pack_find(pack, length, name, NAME);
            CHECK(found == mfrc531_pack_find_checked(pack, length, name, NAME));
            CHECK(mfrc531_pack_find(pack, length, name, NAME - 1) == MFRC531_NAME_NOT_FOUND);
            CHECK(mfrc531_pack_find_checked(pack, length, name, NAME - 1) == MFRC531_NAME_NOT_FOUND);
            CHECK(i + 1 == TOO_MANY || mfrc531_pack_find(pack, length, name, NAME + 1) == MFRC531_NAME_NOT_FOUND);
            if (i < n) {
                CHECK(found == 32 * i << 8);
                CHECK(mfrc531_pack_name(pack, length, i) == pack + 32 * n + 20 * i && memcmp(mfrc531_pack_name(pack, length, i), name, NAME) == 0);
                CHECK(mfrc531_pack_body(pack, length, i) == pack + mfrc531_number_of(found));
                CHECK(memcmp(mfrc531_pack_body(pack, length, i), pack_bodies + BODY * i, BODY) == 0);
            } else {
                CHECK(found == MFRC531_NAME_NOT_FOUND);
                CHECK(mfrc531_pack_name(pack, length, i) == NULL && mfrc531_pack_body(pack, length, i) == NULL);
            }
        }
        CHECK(mfrc531_pack_name(pack, length, SIZE_MAX) == NULL && mfrc531_pack_body(pack, length, SIZE_MAX) == NULL);
        CHECK(memcmp(pack, pack_before, sizeof pack) == 0);
    }
}

/* Bytes that are no pack: each refused with 14, a name in them or not. */
static void no_pack(const uint8_t *bytes, size_t length)
{
    CHECK(mfrc531_pack_read(bytes, length) == MFRC531_PACK_MALFORMED);
    CHECK(mfrc531_pack_find(bytes, length, pack_names, NAME) == MFRC531_PACK_MALFORMED);
    CHECK(mfrc531_pack_find(bytes, length, pack_names, NAME - 1) == MFRC531_PACK_MALFORMED);
}

static void malformed_packs(void)
{
    const size_t n = 3, length = MFRC531_PACK_SIZE(n);
    name_profiles();
    memset(pack, 0, sizeof pack);
    lay_out(n);
    for (size_t other = 0; other < sizeof pack; other++)
        if (other != length)
            no_pack(pack, other);
    for (size_t bit = 0; bit < 8 * length; bit++) { /* only the bodies, and names that stay ascending, may change */
        const size_t at = bit / 8;
        pack[at] ^= 1 << bit % 8;
        const int in_name = at >= 32 * n && at < 52 * n && (at - 32 * n) % 20 < NAME;
        const int ascending = memcmp(pack + 32 * n, pack + 32 * n + 20, NAME) < 0 && memcmp(pack + 32 * n + 20, pack + 32 * n + 40, NAME) < 0;
        if (at < 32 * n || (in_name && ascending))
            CHECK(mfrc531_pack_read(pack, length) == n << 8);
        else
            no_pack(pack, length);
        /* What was accepted is not judged again: the entries alone decide, so nothing of the trailer does. */
        if (at >= 52 * n)
            CHECK(mfrc531_pack_find_checked(pack, length, pack_names + NAME, NAME) == 32 << 8);
        pack[at] ^= 1 << bit % 8;
    }
    CHECK(mfrc531_pack_read(pack, length) == n << 8);
    memmove(pack + 1, pack, length); /* a byte in front */
    no_pack(pack, length + 1);
    lay_out(n);
    memcpy(pack, pack_bodies + BODY, BODY); /* two bodies change places, with their offsets */
    memcpy(pack + BODY, pack_bodies, BODY);
    put_number(pack + 32 * n + 16, 32);
    put_number(pack + 32 * n + 36, 0);
    no_pack(pack, length);
    lay_out(n);
    memcpy(pack + 32 * n, pack + 32 * n + 20, NAME); /* equal names */
    no_pack(pack, length);
    memset(pack, 0, sizeof pack);
    no_pack(pack, length);

    /* One profile too many, but else as a pack is laid out; and where no pack has the length, there is no profile. */
    static const uint16_t lengths[] = {0, 11, 13, 51, 52, 63, 65, MFRC531_PACK_MOST_SIZE - 1, MFRC531_PACK_MOST_SIZE + 1, MFRC531_PACK_SIZE(TOO_MANY)};
    lay_out(TOO_MANY);
    for (size_t i = 0; i < sizeof lengths / sizeof *lengths; i++) {
        no_pack(pack, lengths[i]);
        CHECK(mfrc531_pack_find_checked(pack, lengths[i], pack_names, NAME) == MFRC531_NAME_NOT_FOUND);
        CHECK(mfrc531_pack_profiles(lengths[i]) == 0);
        CHECK(mfrc531_pack_name(pack, lengths[i], 0) == NULL && mfrc531_pack_body(pack, lengths[i], 0) == NULL);
    }
    CHECK(mfrc531_pack_profiles(SIZE_MAX) == 0);
}

/* The writer's refusals in their order, each with all later ones true as well, and the buffer as it was. */
static void unwritten_packs(void)
{
    name_profiles();
    memset(pack, 0xA5, sizeof pack);
    memcpy(pack_before, pack, sizeof pack);
    for (size_t names = 0; names <= 70; names++)
        for (size_t bodies = 0; bodies <= 140; bodies++)
            if (names % NAME != 0 || bodies % BODY != 0 || names / NAME != bodies / BODY)
                CHECK(write_pack(names, bodies, sizeof pack) == MFRC531_NAMES_AND_BODIES_UNPAIRED);
    for (size_t n = 0; n <= MFRC531_PACK_MOST_PROFILES; n += 64)
        CHECK(write_pack(NAME * n, BODY * n, MFRC531_PACK_SIZE(n) - 1) == MFRC531_BUFFER_SHORTER_THAN_PACK);
    CHECK(write_pack(NAME * TOO_MANY, BODY * TOO_MANY, sizeof pack) == MFRC531_OVER_256_PROFILES);
    memcpy(pack_names, pack_names + NAME, NAME); /* the first two are equal */
    CHECK(write_pack(NAME * TOO_MANY, BODY * TOO_MANY - 1, 0) == MFRC531_NAMES_AND_BODIES_UNPAIRED);
    CHECK(write_pack(NAME * TOO_MANY, BODY * TOO_MANY, 0) == MFRC531_OVER_256_PROFILES);
    CHECK(write_pack(NAME * 2, BODY * 2, 0) == MFRC531_NAMES_NOT_ASCENDING);
    pack_names[0]++; /* and now descending */
    CHECK(write_pack(NAME * 2, BODY * 2, sizeof pack) == MFRC531_NAMES_NOT_ASCENDING);
    CHECK(memcmp(pack, pack_before, sizeof pack) == 0);
}

int main(void)
{
    version();
    refusal_texts();
    any_memory();
    editions();
    pages();
    time_passes();
    frames();
    alerts();
    answer_parts();
    lost_bytes();
    power_modes();
    power_modes_wait();
    malformed_modes();
    unknown_codes();
    refusals();
    profiles();
    packs();
    malformed_packs();
    unwritten_packs();
    for (size_t i = 0; i < sizeof names / sizeof *names; i++)
        printf("%s %ld\n", names[i].name, names[i].value);
    printf("image");
    for (int i = 0; i < MFRC531_EEPROM_SIZE; i++)
        printf(" %02X", mfrc531_shipped_image()[i]);
    printf("\nimage_rc530");
    for (int i = 0; i < MFRC531_EEPROM_SIZE; i++)
        printf(" %02X", mfrc531_shipped_image_rc530()[i]);
    printf("\n");
    return 0;
}
