/* Edges of the hardware layer and of the driver, one case a run: edges NAME; without a name the names of all cases. tests/hal runs each. */
#include "driver.h"
#include "hal.h"

#include <inttypes.h>
#include <stdio.h>
#include <stdlib.h>
#include <string.h>

static struct hal hal;

#define CHECK(test) check((test), #test, __LINE__)

static void check(bool holds, const char *test, int line)
{
    if (!holds) {
        printf("line %d fails: %s\n", line, test);
        exit(1);
    }
}

/* ---- Cards and hooks ----------------------------------------------------------------------------------------------------------------- */

/* A card whose answer is written beforehand, and which keeps the latest frame. */
struct scripted {
    struct hal_answer answer;
    struct hal_frame latest;
    unsigned frames;
};
static struct scripted script;

static void scripted_card(void *context, const struct hal_frame *sent, struct hal_answer *answer)
{
    struct scripted *card = context;
    uint32_t clocks = answer->clocks;
    card->latest = *sent;
    card->frames++;
    *answer = card->answer;
    if (answer->clocks == 0)
        answer->clocks = clocks;
}

/* The refusals met, instead of an abort. */
static struct {
    unsigned count;
    const char *call;
    uint32_t argument;
    uint8_t refusal;
} met;

static void note_refusal(void *context, const char *call, uint32_t argument, uint8_t refusal)
{
    (void)context;
    met.count++;
    met.call = call;
    met.argument = argument;
    met.refusal = refusal;
}

static void answers(const uint8_t *bytes, size_t count)
{
    memset(&script.answer, 0, sizeof script.answer);
    for (size_t i = 0; i < count; i++)
        script.answer.bytes[i] = bytes[i];
    script.answer.count = count;
}

static void begin(void)
{
    hal_prepare(&hal);
    hal_start(&hal, mfrc531_shipped_image(), MFRC531_EEPROM_SIZE);
    hal.card = scripted_card;
    hal.card_context = &script;
    CHECK(driver_start() == DRIVER_OK);
}

static const uint8_t two_bytes[] = {0x12, 0x34};
static struct driver_exchange exchange;

/* READ of block 4, with what the driver makes of the answer. */
static enum driver_result exchanged(uint32_t timeout)
{
    static const uint8_t read_block[] = {0x30, 0x04};
    memset(&exchange, 0, sizeof exchange);
    exchange.bytes = read_block;
    exchange.count = sizeof read_block;
    exchange.timeout = timeout;
    return driver_transceive(&exchange);
}

/* Whether the timer ran when the latest event came. */
static bool ran;

static void note_timer(void *context, const struct hal *from, enum hal_event event, const uint8_t *bytes, size_t count, uint8_t last_bits)
{
    (void)context, (void)event, (void)bytes, (void)count, (void)last_bits;
    ran = from->chip.timer_running;
}

/* The sum of lost bytes when the latest answer was received. */
static uint16_t lost_by_then;

static void note_lost(void *context, const struct hal *from, enum hal_event event, const uint8_t *bytes, size_t count, uint8_t last_bits)
{
    (void)context, (void)bytes, (void)count, (void)last_bits;
    if (event == HAL_ANSWER_RECEIVED)
        lost_by_then = hal_lost_sum(from);
}

/* ---- Cards that do wrong, or nothing ------------------------------------------------------------------------------------------------- */

static void right_answer(void)
{
    begin();
    WriteIO(MFRC531_REG_CHANNEL_REDUNDANCY, 0x0F); /* odd parity, a CRC added and checked */
    answers(two_bytes, 2);
    hal_append_crc_a(&script.answer);
    CHECK(script.answer.bytes[2] == 0x26 && script.answer.bytes[3] == 0xCF); /* ISO/IEC 14443-3 */
    CHECK(exchanged(5000) == DRIVER_OK);
    CHECK(exchange.answer_count == 2 && memcmp(exchange.answer, two_bytes, 2) == 0 && exchange.answer_last_bits == 0);
    CHECK(script.frames == 1 && script.latest.count == 4 && script.latest.last_bits == 0);
    hal.trace = note_timer;
    WriteIO(MFRC531_REG_FIFO_DATA, 0x30);
    WriteIO(MFRC531_REG_COMMAND, MFRC531_CMD_TRANSCEIVE);
    hal_delay(0);
    CHECK(ran); /* from the end of sending */
    hal_delay(100);
    CHECK(!ran); /* to the answer */
}

static void wrong_parity(void)
{
    begin();
    answers(two_bytes, 2);
    script.answer.inverted_parities = 2;
    CHECK(exchanged(5000) == DRIVER_PARITY_ERROR);
    CHECK(exchange.answer_count == 2 && memcmp(exchange.answer, two_bytes, 2) == 0);
    script.answer.inverted_parities = 0;
    CHECK(exchanged(5000) == DRIVER_OK);
}

/* Every setting of ParityEn and its odd bit, every byte: what the layer makes fits, and inverted it does not where parity is on. */
static void every_parity(void)
{
    begin();
    for (unsigned setting = 0; setting < 4; setting++)
        for (unsigned byte = 0; byte < 256; byte++) {
            WriteIO(MFRC531_REG_CHANNEL_REDUNDANCY, (uint8_t)setting);
            answers((const uint8_t[]){(uint8_t)byte}, 1);
            CHECK(exchanged(5000) == DRIVER_OK);
            script.answer.inverted_parities = 1;
            CHECK(exchanged(5000) == (setting & 1 ? DRIVER_PARITY_ERROR : DRIVER_OK));
        }
}

static void wrong_crc(void)
{
    begin();
    WriteIO(MFRC531_REG_CHANNEL_REDUNDANCY, 0x0F);
    answers(two_bytes, 2);
    hal_append_crc_a(&script.answer);
    script.answer.bytes[3] ^= 0x01;
    CHECK(exchanged(5000) == DRIVER_CRC_ERROR);
    CHECK(exchange.answer_count == 2 && memcmp(exchange.answer, two_bytes, 2) == 0); /* the wrong CRC is dropped too */
    answers(two_bytes, 1);
    CHECK(exchanged(5000) == DRIVER_CRC_ERROR); /* shorter than a CRC: it passes whole */
    CHECK(exchange.answer_count == 1);
}

static void last_bits(void)
{
    begin();
    answers((const uint8_t[]){0x0A}, 1); /* an acknowledgement has 4 bits */
    script.answer.last_bits = 4;
    CHECK(exchanged(5000) == DRIVER_OK);
    CHECK(exchange.answer_count == 1 && exchange.answer[0] == 0x0A && exchange.answer_last_bits == 4);
}

static void longest_frames(void)
{
    uint8_t long_frame[64];
    for (size_t i = 0; i < sizeof long_frame; i++)
        long_frame[i] = (uint8_t)(3 * i + 1);
    begin();
    answers(long_frame, 64);
    CHECK(exchanged(5000) == DRIVER_OK);
    CHECK(exchange.answer_count == 64 && memcmp(exchange.answer, long_frame, 64) == 0);
    WriteIO(MFRC531_REG_CHANNEL_REDUNDANCY, 0x0F);
    answers(long_frame, 62);
    hal_append_crc_a(&script.answer);
    exchange.bytes = long_frame;
    exchange.count = 64;
    CHECK(driver_transceive(&exchange) == DRIVER_OK);
    CHECK(script.latest.count == 66 && memcmp(script.latest.bytes, long_frame, 64) == 0);
    CHECK(exchange.answer_count == 62 && memcmp(exchange.answer, long_frame, 62) == 0);
}

/* 5 ms are 67,800 clocks, rounded up to steps of the timer, and the loop's own accesses. */
static void silent_with_timer(void)
{
    begin();
    answers(NULL, 0);
    for (enum driver_wait wait = DRIVER_BY_INTERRUPT_RQ; wait <= DRIVER_BY_PIN; wait++) {
        exchanged(5000);
        exchange.wait = wait;
        uint64_t before = hal.clocks;
        CHECK(driver_transceive(&exchange) == DRIVER_TIMEOUT);
        CHECK(hal.clocks - before >= 67800 && hal.clocks - before < 67800 + 512 + 40 * HAL_ACCESS_CLOCKS);
        CHECK(exchange.answer_count == 0);
    }
}

static void silent_without_timer(void)
{
    begin();
    answers(NULL, 0);
    for (enum driver_wait wait = DRIVER_BY_INTERRUPT_RQ; wait <= DRIVER_BY_PIN; wait++) {
        exchanged(5000);
        exchange.timeout = 0;
        exchange.wait = wait;
        CHECK(driver_transceive(&exchange) == DRIVER_STUCK);
    }
    hal.access_clocks = 0; /* no time passes: the timer cannot end it either */
    CHECK(exchanged(5000) == DRIVER_STUCK);
}

static void no_card(void)
{
    begin();
    hal.card = NULL;
    CHECK(exchanged(5000) == DRIVER_TIMEOUT);
}

/* It comes after the timeout, when the chip is idle: missed, and the next exchange has nothing of it. */
static void late_answer(void)
{
    begin();
    answers(two_bytes, 2);
    script.answer.clocks = 100000;
    CHECK(exchanged(5000) == DRIVER_TIMEOUT);
    CHECK(hal.answers_missed == 0 && hal.answering);
    hal_delay(5000);
    CHECK(hal.answers_missed == 1 && !hal.answering);
    CHECK(exchanged(5000) == DRIVER_TIMEOUT); /* under way again, when the next frame leaves */
    answers((const uint8_t[]){0x77}, 1);
    CHECK(exchanged(5000) == DRIVER_OK);
    CHECK(hal.answers_missed == 2 && exchange.answer_count == 1 && exchange.answer[0] == 0x77);
    script.answer.clocks = 1; /* within the poll's own access */
    CHECK(exchanged(5000) == DRIVER_OK);
    script.answer.clocks = 60000;
    CHECK(exchanged(5000) == DRIVER_OK);
    CHECK(hal.answers_missed == 2);
    script.answer.clocks = 100000;
    CHECK(exchanged(5000) == DRIVER_TIMEOUT);
    hal_reset(&hal); /* and by a reset */
    CHECK(hal.answers_missed == 3 && !hal.answering);
}

static void at_once_card(void *context, const struct hal_frame *sent, struct hal_answer *answer)
{
    (void)context;
    (void)sent;
    answer->bytes[0] = 0x55;
    answer->count = 1;
    answer->clocks = 0;
}

static void answer_at_once(void)
{
    begin();
    hal.card = at_once_card;
    CHECK(exchanged(5000) == DRIVER_OK);
    CHECK(exchange.answer_count == 1 && exchange.answer[0] == 0x55);
    hal.access_clocks = 0; /* no clock needs to pass for it */
    CHECK(exchanged(5000) == DRIVER_OK);
}

/* ---- Firmware of other habits -------------------------------------------------------------------------------------------------------- */

/* Which reads are polls, by address; a refused read is none. */
static void polls(void)
{
    static const uint8_t polled[] = {MFRC531_REG_COMMAND,      MFRC531_REG_PRIMARY_STATUS, MFRC531_REG_FIFO_LENGTH, MFRC531_REG_SECONDARY_STATUS,
                                     MFRC531_REG_INTERRUPT_RQ, MFRC531_REG_ERROR_FLAG,     MFRC531_REG_COLL_POS,    MFRC531_REG_TIMER_VALUE};
    begin();
    hal.refused = note_refusal;
    for (unsigned address = 0; address < 256; address++) {
        unsigned before = script.frames;
        WriteIO(MFRC531_REG_CONTROL, MFRC531_FLUSH_FIFO);
        WriteIO(MFRC531_REG_FIFO_DATA, 0x30);
        WriteIO(MFRC531_REG_FIFO_DATA, 0x04);
        WriteIO(MFRC531_REG_COMMAND, MFRC531_CMD_TRANSMIT);
        if (address > 63)
            WriteIO(0x00, 0x80); /* page 0, where these addresses would be polls */
        ReadIO((uint8_t)address);
        WriteIO(0x00, 0x00);
        CHECK((script.frames > before) == (memchr(polled, (int)address, sizeof polled) != NULL));
    }
    CHECK(met.count == 192);
}

static int modem_state(void) { return (ReadIO(MFRC531_REG_PRIMARY_STATUS) & MFRC531_MODEM_STATE_MASK) >> MFRC531_MODEM_STATE_SHIFT; }

/* ModemState alone: the first poll finds the frame gone, and the answer's delivery ends it. */
static void by_modem_state(void)
{
    begin();
    answers(two_bytes, 2);
    WriteIO(MFRC531_REG_COMMAND, MFRC531_CMD_TRANSCEIVE);
    CHECK(modem_state() == MFRC531_MODEM_IDLE);
    WriteIO(MFRC531_REG_FIFO_DATA, 0x30);
    CHECK(modem_state() == MFRC531_MODEM_AWAITING_RX && script.frames == 1);
    hal_delay(100);
    CHECK(modem_state() == MFRC531_MODEM_IDLE && ReadIO(MFRC531_REG_FIFO_LENGTH) == 2);
}

/* Page by page, three address lines: the registers are polled under the addresses of their page. */
static void by_pages(void)
{
    begin();
    answers(two_bytes, 2);
    WriteIO(0x00, 0x80);
    WriteIO(0x02, 0x30);
    WriteIO(0x01, MFRC531_CMD_TRANSCEIVE);
    WriteIO(0x00, 0x85); /* 28h-2Fh */
    CHECK(ReadIO(0x03) == 0x06); /* TimerControl, no poll though PrimaryStatus has this address on page 0 */
    CHECK(ReadIO(0x05) == 0x02);
    CHECK(script.frames == 0);
    WriteIO(0x00, 0x81); /* 08h-0Fh */
    ReadIO(0x02);        /* ErrorFlag */
    CHECK(script.frames == 1);
    hal_delay(100);
    WriteIO(0x00, 0x80);
    CHECK(ReadIO(0x04) == 2);
    CHECK(ReadIO(0x02) == 0x12 && ReadIO(0x02) == 0x34);
}

/* Command first, then the bytes, with bits of registers changed in between. */
static void command_first(void)
{
    begin();
    answers(two_bytes, 2);
    WriteIO(MFRC531_REG_COMMAND, MFRC531_CMD_TRANSCEIVE);
    CHECK(ReadIO(MFRC531_REG_FIFO_LENGTH) == 0); /* a poll, but nothing to send */
    WriteIO(MFRC531_REG_FIFO_DATA, 0x30);
    WriteIO(MFRC531_REG_CHANNEL_REDUNDANCY, ReadIO(MFRC531_REG_CHANNEL_REDUNDANCY) | 0x04);
    WriteIO(MFRC531_REG_BIT_FRAMING, ReadIO(MFRC531_REG_BIT_FRAMING));
    WriteIO(MFRC531_REG_CONTROL, ReadIO(MFRC531_REG_CONTROL));
    WriteIO(MFRC531_REG_INTERRUPT_EN, ReadIO(MFRC531_REG_INTERRUPT_EN));
    WriteIO(MFRC531_REG_FIFO_DATA, 0x04);
    CHECK(script.frames == 0);
    CHECK(ReadIO(MFRC531_REG_INTERRUPT_RQ) & MFRC531_TX_IRQ);
    CHECK(script.frames == 1 && script.latest.count == 4);
    hal_delay(100);
    CHECK(ReadIO(MFRC531_REG_FIFO_LENGTH) == 2);
}

/* Transmit, and then Receive. */
static void two_commands(void)
{
    begin();
    answers(two_bytes, 2);
    WriteIO(MFRC531_REG_FIFO_DATA, 0x30);
    WriteIO(MFRC531_REG_COMMAND, MFRC531_CMD_TRANSMIT);
    CHECK(ReadIO(MFRC531_REG_COMMAND) == MFRC531_CMD_IDLE);
    CHECK(script.frames == 1);
    WriteIO(MFRC531_REG_COMMAND, MFRC531_CMD_RECEIVE);
    hal_delay(100);
    CHECK(ReadIO(MFRC531_REG_INTERRUPT_RQ) & MFRC531_RX_IRQ);
    CHECK(ReadIO(MFRC531_REG_FIFO_LENGTH) == 2);
    WriteIO(MFRC531_REG_COMMAND, MFRC531_CMD_TRANSMIT); /* the two bytes go out again, and nobody receives */
    hal_delay(0);
    CHECK(script.frames == 2 && hal.answers_missed == 0);
    hal_delay(100);
    CHECK(hal.answers_missed == 1 && ReadIO(MFRC531_REG_FIFO_LENGTH) == 0);
}

/* A FIFO that is filled while the answer is under way: 2 of 66 writes are lost, 125 of the 128 bytes that ReadE2 reads behind 61 others, and the
 * answer's two. The driver's flush sets the sum to 0. */
static void full_fifo(void)
{
    begin();
    hal.trace = note_lost;
    answers(two_bytes, 2);
    script.answer.clocks = 100000;
    WriteIO(MFRC531_REG_FIFO_DATA, 0x30);
    WriteIO(MFRC531_REG_COMMAND, MFRC531_CMD_TRANSMIT);
    hal_delay(0);
    for (unsigned i = 0; i < 66; i++) {
        CHECK(hal_lost_sum(&hal) == (i > 64 ? 1 : 0));
        WriteIO(MFRC531_REG_FIFO_DATA, i == 2 ? 0x80 : 0x00); /* ReadE2's arguments: from 000h on, 128 bytes */
    }
    uint64_t before = hal.clocks;
    CHECK(hal_lost_sum(&hal) == 2 && hal.clocks == before);
    mfrc531_chip copy = hal.chip; /* for the number that the call itself answers */
    CHECK(mfrc531_lost_of(mfrc531_write(&copy, MFRC531_REG_COMMAND, MFRC531_CMD_READ_E2)) == 125);
    WriteIO(MFRC531_REG_COMMAND, MFRC531_CMD_READ_E2);
    CHECK(hal_lost_sum(&hal) == 127);
    WriteIO(MFRC531_REG_COMMAND, MFRC531_CMD_RECEIVE);
    hal_delay(10000);
    CHECK(lost_by_then == 129 && hal.answers_missed == 0 && ReadIO(MFRC531_REG_ERROR_FLAG) & MFRC531_FIFO_OVFL);
    script.answer.clocks = 0;
    CHECK(exchanged(5000) == DRIVER_OK && exchange.answer_count == 2);
    CHECK(lost_by_then == 0 && hal_lost_sum(&hal) == 0);
}

/* Reads Control until a bit is 0, and gives how many reads found it 1. */
static unsigned awaited(uint8_t bit)
{
    unsigned reads = 0;
    while (ReadIO(MFRC531_REG_CONTROL) & bit)
        reads++;
    return reads;
}

/* StandBy and PowerDown: no frame leaves at a poll and an answer is missed, until the mode is left. Waiting for that by reads of Control ends, by their
 * own clocks. */
static void power_modes(void)
{
    static const struct { uint8_t bit; uint32_t clocks; } modes[] = {
        {MFRC531_STAND_BY, MFRC531_STAND_BY_CLOCKS}, {MFRC531_POWER_DOWN, MFRC531_POWER_DOWN_CLOCKS}};
    begin();
    for (unsigned i = 0; i < 2; i++) {
        uint8_t bit = modes[i].bit;
        unsigned frames = script.frames;
        answers(two_bytes, 2);
        WriteIO(MFRC531_REG_CONTROL, bit);
        WriteIO(MFRC531_REG_COMMAND, MFRC531_CMD_TRANSCEIVE);
        WriteIO(MFRC531_REG_FIFO_DATA, 0x30);
        CHECK(modem_state() == MFRC531_MODEM_TX_DATA && ReadIO(MFRC531_REG_FIFO_LENGTH) == 1);
        hal_delay(1000000);
        CHECK(hal_irq_pin() == 1 && script.frames == frames);
        WriteIO(MFRC531_REG_CONTROL, 0x00);
        uint64_t before = hal.clocks;
        CHECK(awaited(bit) == (modes[i].clocks - 1) / HAL_ACCESS_CLOCKS);
        CHECK(hal.clocks - before >= modes[i].clocks && hal.clocks - before < modes[i].clocks + HAL_ACCESS_CLOCKS);
        CHECK(ReadIO(MFRC531_REG_CONTROL) == 0x00 && script.frames == frames); /* a read of Control is no poll */
        CHECK(modem_state() == MFRC531_MODEM_AWAITING_RX && script.frames == frames + 1);

        WriteIO(MFRC531_REG_CONTROL, bit); /* the answer comes while the chip cannot receive */
        hal_delay(100);
        CHECK(hal.answers_missed == 2 * i + 1 && modem_state() == MFRC531_MODEM_AWAITING_RX);
        WriteIO(MFRC531_REG_CONTROL, 0x00);
        hal_delay(38); /* 515 clocks */
        CHECK(ReadIO(MFRC531_REG_CONTROL) == 0x00);
        WriteIO(MFRC531_REG_CONTROL, bit);
        CHECK(exchanged(5000) == DRIVER_OK && exchange.answer_count == 2); /* it begins with a flush, which writes the bit too */
        CHECK(ReadIO(MFRC531_REG_CONTROL) == 0x00);

        hal.access_clocks = 3; /* of a bus at its quickest; an answer that comes with the leaving's last clock but one, and with the last */
        script.answer.clocks = modes[i].clocks + 2;
        for (unsigned late = 0; late < 2; late++) {
            WriteIO(MFRC531_REG_FIFO_DATA, 0x30);
            WriteIO(MFRC531_REG_COMMAND, MFRC531_CMD_TRANSMIT);
            hal_delay(0); /* the frame leaves */
            hal.access_clocks = 0;
            WriteIO(MFRC531_REG_COMMAND, MFRC531_CMD_RECEIVE);
            WriteIO(MFRC531_REG_CONTROL, bit);
            hal.access_clocks = 3 - late;
            ReadIO(MFRC531_REG_CONTROL);
            hal.access_clocks = 0;
            WriteIO(MFRC531_REG_CONTROL, 0x00);
            hal.access_clocks = 3;
            CHECK(awaited(bit) == (modes[i].clocks - 1) / 3);
            hal_delay(1);
            CHECK(hal.answers_missed == 2 * i + 2 && ReadIO(MFRC531_REG_FIFO_LENGTH) == (late ? 2 : 0));
            WriteIO(MFRC531_REG_CONTROL, MFRC531_FLUSH_FIFO);
        }
        hal.access_clocks = HAL_ACCESS_CLOCKS;
    }
}

/* A Command written before any poll ends the sending. */
static void taken_back(void)
{
    begin();
    WriteIO(MFRC531_REG_FIFO_DATA, 0x30);
    WriteIO(MFRC531_REG_COMMAND, MFRC531_CMD_TRANSCEIVE);
    WriteIO(MFRC531_REG_COMMAND, MFRC531_CMD_IDLE);
    CHECK(ReadIO(MFRC531_REG_FIFO_LENGTH) == 1 && script.frames == 0);
}

/* Both polarities, on every page, with and without a request that is enabled. */
static void pin(void)
{
    begin();
    for (unsigned inverted = 0; inverted < 2; inverted++)
        for (unsigned page = 0; page < 8; page++) {
            WriteIO(0x00, 0x00);
            WriteIO(MFRC531_REG_IRQ_PIN_CONFIG, inverted ? MFRC531_IRQ_INV : 0);
            WriteIO(MFRC531_REG_INTERRUPT_EN, HAL_IRQ_ALL);
            WriteIO(MFRC531_REG_INTERRUPT_RQ, MFRC531_SET_IRQ | MFRC531_IDLE_IRQ);
            WriteIO(0x00, (uint8_t)(0x80 | page));
            CHECK(hal_irq_pin() == (int)inverted); /* not enabled */
            WriteIO(0x00, 0x00);
            WriteIO(MFRC531_REG_INTERRUPT_EN, MFRC531_SET_IRQ | MFRC531_IDLE_IRQ);
            CHECK(ReadIO(MFRC531_REG_PRIMARY_STATUS) & MFRC531_IRQ);
            WriteIO(0x00, (uint8_t)(0x80 | page));
            CHECK(hal_irq_pin() == (int)!inverted);
        }
    WriteIO(0x00, 0x00);
    uint64_t before = hal.clocks;
    hal_irq_pin();
    CHECK(hal.clocks - before == HAL_ACCESS_CLOCKS);
}

/* Short delays add up, long ones are split, and the timer of the chip counts the same clocks. */
static void delays(void)
{
    begin();
    uint64_t before = hal.clocks;
    for (unsigned i = 0; i < 100; i++)
        hal_delay(1);
    CHECK(hal.clocks - before == 1356);
    before = hal.clocks;
    for (unsigned i = 0; i < 333; i++)
        hal_delay(3);
    hal_delay(1);
    CHECK(hal.clocks - before == 13560);
    before = hal.clocks;
    hal_delay(1000000);
    CHECK(hal.clocks - before == 13560000);
    before = hal.clocks;
    hal_delay(3600000000); /* an hour, in twelve advances */
    CHECK(hal.clocks - before == 48816000000);
    before = hal.clocks;
    hal_delay(0);
    CHECK(hal.clocks == before);
    hal.access_clocks = 0;
    WriteIO(MFRC531_REG_TIMER_CLOCK, 2);
    WriteIO(MFRC531_REG_TIMER_RELOAD, 250);
    WriteIO(MFRC531_REG_CONTROL, 0x02); /* TStartNow: 1,000 clocks */
    for (unsigned i = 0; i < 73; i++)
        hal_delay(1); /* 989.88 */
    CHECK(ReadIO(MFRC531_REG_TIMER_VALUE) == 250 - 989 / 4);
    CHECK(!(ReadIO(MFRC531_REG_INTERRUPT_RQ) & MFRC531_TIMER_IRQ));
    hal_delay(1); /* 1,003.44 */
    CHECK(ReadIO(MFRC531_REG_INTERRUPT_RQ) & MFRC531_TIMER_IRQ);
    before = hal.clocks;
    hal.access_clocks = 100000;
    ReadIO(MFRC531_REG_COMMAND);
    CHECK(hal.clocks - before == 100000);
}

static void memory(void)
{
    uint8_t bytes[64], read[64];
    for (size_t i = 0; i < sizeof bytes; i++)
        bytes[i] = (uint8_t)(i + 1);
    begin();
    uint64_t before = hal.clocks;
    CHECK(driver_write_e2(0x03D, bytes, 35) == DRIVER_OK); /* 3, 16 and 16 bytes */
    CHECK(hal.clocks - before >= 3 * 78648 && hal.clocks - before < 3 * 78648 + 5000);
    CHECK(driver_read_e2(0x03D, read, 35) == DRIVER_OK && memcmp(read, bytes, 35) == 0);
    CHECK(driver_write_e2(0x03D, bytes, 62) == DRIVER_OK); /* five programmings */
    CHECK(driver_read_e2(0x03D, read, 62) == DRIVER_OK && memcmp(read, bytes, 62) == 0);
    CHECK(driver_write_e2(0x1F0, bytes, 16) == DRIVER_OK);
    CHECK(memcmp(hal.chip.eeprom + 0x1F0, bytes, 16) == 0);
    CHECK(driver_read_e2(0x1F0, read, 16) == DRIVER_ACCESS_ERROR);
    CHECK(driver_read_e2(0x07F, read, 1) == DRIVER_OK);
    CHECK(driver_read_e2(0x07F, read, 2) == DRIVER_ACCESS_ERROR);
    CHECK(driver_write_e2(0x00F, bytes, 2) == DRIVER_ACCESS_ERROR);
    CHECK(driver_write_e2(0x200, bytes, 1) == DRIVER_ARGUMENT);
    CHECK(driver_write_e2(0x1FF, bytes, 2) == DRIVER_ARGUMENT);
    CHECK(driver_write_e2(0x040, bytes, 63) == DRIVER_ARGUMENT);
    CHECK(driver_read_e2(0x040, read, 65) == DRIVER_ARGUMENT);
    hal_reset(&hal);
    CHECK(hal.chip.page == 0x80 && memcmp(hal.chip.eeprom + 0x03D, bytes, 62) == 0);
    exchanged(5000);
    exchange.count = 65;
    CHECK(driver_transceive(&exchange) == DRIVER_ARGUMENT);
}

/* Two readers side by side, one of each edition, which a reset does not change. */
static void two_chips(void)
{
    static struct hal other;
    begin();
    hal_prepare(&other);
    hal_start(&other, mfrc531_shipped_image_rc530(), MFRC531_EEPROM_SIZE);
    hal_reset(&other);
    CHECK(hal.chip.edition == MFRC531_EDITION_MFRC531 && other.chip.edition == MFRC531_EDITION_RC530);
    CHECK(driver_start() == DRIVER_OK);
    answers(two_bytes, 2);
    CHECK(exchanged(5000) == DRIVER_TIMEOUT); /* no card there */
    hal_use(&hal);
    CHECK(exchanged(5000) == DRIVER_OK);
    CHECK(other.clocks > hal.clocks);
}

/* ---- Refusals ------------------------------------------------------------------------------------------------------------------------ */

static void refusals_by_hook(void)
{
    begin();
    hal.refused = note_refusal;
    CHECK(ReadIO(64) == 0x00);
    CHECK(met.count == 1 && met.refusal == MFRC531_ADDRESS_ABOVE_63 && met.argument == 64 && strcmp(met.call, "ReadIO") == 0);
    WriteIO(255, 0x00);
    CHECK(met.count == 2 && met.refusal == MFRC531_ADDRESS_ABOVE_63 && met.argument == 255 && strcmp(met.call, "WriteIO") == 0);
    hal_start(&hal, mfrc531_shipped_image(), 511);
    CHECK(met.count == 3 && met.refusal == MFRC531_IMAGE_NOT_512_BYTES && strcmp(met.call, "start") == 0);
    static const uint8_t zeros[MFRC531_EEPROM_SIZE];
    hal_start(&hal, zeros, sizeof zeros);
    CHECK(met.count == 4 && met.refusal == MFRC531_IMAGE_OF_NO_EDITION && met.argument == 512 && strcmp(met.call, "start") == 0);
    answers(two_bytes, 2);
    script.answer.count = 65;
    CHECK(exchanged(5000) == DRIVER_TIMEOUT);
    CHECK(met.count == 5 && met.refusal == MFRC531_FRAME_MALFORMED && met.argument == 65 && strcmp(met.call, "deliver") == 0);
    script.answer.count = 2;
    script.answer.last_bits = 8;
    CHECK(exchanged(5000) == DRIVER_TIMEOUT);
    CHECK(met.count == 6 && met.refusal == MFRC531_FRAME_MALFORMED && met.argument == 2);
    answers(mfrc531_shipped_image(), 63);
    hal_append_crc_a(&script.answer); /* no room for it */
    CHECK(exchanged(5000) == DRIVER_TIMEOUT);
    CHECK(met.count == 7 && met.refusal == MFRC531_FRAME_MALFORMED && met.argument == 65);
    hal.chip.stage = 0x3E; /* no chip's state */
    CHECK(hal_lost_sum(&hal) == 0);
    CHECK(met.count == 8 && met.refusal == MFRC531_CHIP_MALFORMED && strcmp(met.call, "lost_sum") == 0);
    hal_irq_pin();
    CHECK(met.count > 8 && met.refusal == MFRC531_CHIP_MALFORMED);
    unsigned before = met.count;
    CHECK(exchanged(5000) == DRIVER_STUCK);
    CHECK(met.count > before && met.refusal == MFRC531_CHIP_MALFORMED);
}

/* These four end by abort, with a text: tests/hal looks at both. */
static void abort_by_address(void)
{
    begin();
    ReadIO(64);
}

static void abort_by_answer(void)
{
    begin();
    answers(two_bytes, 2);
    script.answer.last_bits = 8;
    exchanged(5000);
}

static void abort_without_chip(void) { ReadIO(MFRC531_REG_COMMAND); }

static void abort_without_start(void)
{
    hal_prepare(&hal);
    ReadIO(MFRC531_REG_COMMAND);
}

static const struct {
    const char *name;
    void (*run)(void);
} cases[] = {
    {"right_answer", right_answer},
    {"wrong_parity", wrong_parity},
    {"every_parity", every_parity},
    {"wrong_crc", wrong_crc},
    {"last_bits", last_bits},
    {"longest_frames", longest_frames},
    {"silent_with_timer", silent_with_timer},
    {"silent_without_timer", silent_without_timer},
    {"no_card", no_card},
    {"late_answer", late_answer},
    {"answer_at_once", answer_at_once},
    {"polls", polls},
    {"by_modem_state", by_modem_state},
    {"by_pages", by_pages},
    {"command_first", command_first},
    {"two_commands", two_commands},
    {"full_fifo", full_fifo},
    {"power_modes", power_modes},
    {"taken_back", taken_back},
    {"pin", pin},
    {"delays", delays},
    {"memory", memory},
    {"two_chips", two_chips},
    {"refusals_by_hook", refusals_by_hook},
    {"abort_by_address", abort_by_address},
    {"abort_by_answer", abort_by_answer},
    {"abort_without_chip", abort_without_chip},
    {"abort_without_start", abort_without_start},
};

int main(int argc, char **argv)
{
    bool found = false;
    for (size_t i = 0; i < sizeof cases / sizeof cases[0]; i++) {
        if (argc < 2)
            printf("%s\n", cases[i].name);
        else if (strcmp(argv[1], cases[i].name) == 0) {
            cases[i].run();
            found = true;
        }
    }
    return argc < 2 || found ? 0 : 2;
}
