/* The hardware layer under firmware: see hal.h for when time passes, and when frames leave and arrive. */
#include "hal.h"

#include <stdio.h>
#include <stdlib.h>
#include <string.h>

static _Thread_local struct hal *in_use;

/* ---- Refusals ------------------------------------------------------------------------------------------------------------------------ */

static void refuse(const struct hal *hal, const char *call, uint32_t argument, uint8_t refusal)
{
    if (hal->refused != NULL) {
        hal->refused(hal->hook_context, call, argument, refusal);
        return;
    }
    fprintf(stderr, "hal: %s, argument %lu: refused with %u, %s\n", call, (unsigned long)argument, refusal, mfrc531_refusal_text(refusal));
    abort();
}

static bool accepted(const struct hal *hal, const char *call, uint32_t argument, mfrc531_answer answer)
{
    uint8_t refusal = mfrc531_refusal_of(answer);
    if (refusal == MFRC531_NOT_REFUSED)
        return true;
    refuse(hal, call, argument, refusal);
    return false;
}

static struct hal *current(void)
{
    if (in_use == NULL) {
        fprintf(stderr, "hal: no chip is in use in this thread; call hal_prepare or hal_use\n");
        abort();
    }
    return in_use;
}

/* ---- The chip's state, looked at from outside ---------------------------------------------------------------------------------------- */

/* A register, whatever Page is: a read from a copy with linear addresses. Costs no clocks, and removes no byte. */
static uint8_t looked_at(const struct hal *hal, uint8_t reg)
{
    mfrc531_chip copy = hal->chip;
    copy.page = 0x00;
    mfrc531_answer answer = mfrc531_read(&copy, reg);
    return accepted(hal, "look", reg, answer) ? mfrc531_value_of(answer) : 0;
}

/* In StandBy or PowerDown, in which no frame is taken or delivered. A bit that waits for a programming is 1 too, but then the chip neither sends nor
 * receives. */
static bool rests(const mfrc531_chip *chip) { return (chip->control & (MFRC531_STAND_BY | MFRC531_POWER_DOWN)) != 0; }

/* A frame can be taken. */
static bool sends(const mfrc531_chip *chip)
{
    bool sending = chip->stage == MFRC531_STAGE_TRANSMIT || chip->stage == MFRC531_STAGE_TRANSCEIVE_SENDING;
    return sending && chip->fifo_write != chip->fifo_read && !rests(chip);
}

static bool receives(const mfrc531_chip *chip)
{
    return (chip->stage == MFRC531_STAGE_RECEIVE || chip->stage == MFRC531_STAGE_TRANSCEIVE_RECEIVING) && !rests(chip);
}

/* The register that Page makes of an address is one that firmware waits on. */
static bool polls(const mfrc531_chip *chip, uint8_t address)
{
    if (address > 63)
        return false;
    switch (chip->page & 0x80 ? 8 * (chip->page & 0x07) + address % 8 : address) {
    case MFRC531_REG_COMMAND:
    case MFRC531_REG_PRIMARY_STATUS:
    case MFRC531_REG_FIFO_LENGTH:
    case MFRC531_REG_SECONDARY_STATUS:
    case MFRC531_REG_INTERRUPT_RQ:
    case MFRC531_REG_ERROR_FLAG:
    case MFRC531_REG_COLL_POS:
    case MFRC531_REG_TIMER_VALUE: return true;
    default: return false;
    }
}

/* ---- The field ----------------------------------------------------------------------------------------------------------------------- */

static void traced(const struct hal *hal, enum hal_event event, const uint8_t *bytes, size_t count, uint8_t last_bits)
{
    if (hal->trace != NULL)
        hal->trace(hal->hook_context, hal, event, bytes, count, last_bits);
}

static void miss_answer(struct hal *hal)
{
    hal->answering = false;
    hal->answers_missed++;
    traced(hal, HAL_ANSWER_MISSED, hal->answer.bytes, hal->answer.count, hal->answer.last_bits);
}

/* The parity bit that the chip finds right: with it the count of ones is odd, or even, as ChannelRedundancy has it. */
static uint8_t fitting_parity(uint8_t byte, uint8_t channel_redundancy)
{
    uint8_t ones = 0;
    for (; byte != 0; byte >>= 1)
        ones ^= byte & 1;
    return channel_redundancy & MFRC531_PARITY_ODD ? ones ^ 1 : ones;
}

static void deliver_answer(struct hal *hal)
{
    const struct hal_answer *answer = &hal->answer;
    uint8_t parities[MFRC531_FIFO_SIZE];
    if (!receives(&hal->chip)) {
        miss_answer(hal);
        return;
    }
    hal->answering = false;
    uint8_t channel_redundancy = looked_at(hal, MFRC531_REG_CHANNEL_REDUNDANCY);
    for (size_t i = 0; i < answer->count; i++)
        parities[i] = fitting_parity(answer->bytes[i], channel_redundancy) ^ (uint8_t)(answer->inverted_parities >> i & 1);
    if (accepted(hal, "deliver", (uint32_t)answer->count,
                 mfrc531_deliver(&hal->chip, answer->bytes, answer->count, parities, answer->count, answer->last_bits)))
        traced(hal, HAL_ANSWER_RECEIVED, answer->bytes, answer->count, answer->last_bits);
}

static void ask_card(struct hal *hal, const struct hal_frame *frame)
{
    memset(&hal->answer, 0, sizeof hal->answer);
    hal->answer.clocks = HAL_ANSWER_CLOCKS;
    hal->card(hal->card_context, frame, &hal->answer);
    if (hal->answer.count == 0)
        return;
    if (hal->answer.count > MFRC531_FIFO_SIZE) { /* the library would refuse it; but there are no such bytes to lend */
        refuse(hal, "deliver", (uint32_t)hal->answer.count, MFRC531_FRAME_MALFORMED);
        return;
    }
    hal->answering = true;
    hal->answer_left = hal->answer.clocks;
    if (hal->answer_left == 0)
        deliver_answer(hal);
}

/* What a poll begins with. */
static void send_frame(struct hal *hal)
{
    struct hal_frame frame = {{0}, 0, 0};
    if (!sends(&hal->chip))
        return;
    mfrc531_answer taken = mfrc531_take(&hal->chip, frame.bytes, sizeof frame.bytes);
    if (!accepted(hal, "take", sizeof frame.bytes, taken))
        return;
    frame.count = mfrc531_value_of(taken);
    frame.last_bits = mfrc531_last_bits_of(taken);
    if (hal->answering)
        miss_answer(hal);
    traced(hal, HAL_FRAME_SENT, frame.bytes, frame.count, frame.last_bits);
    if (hal->card != NULL)
        ask_card(hal, &frame);
}

void hal_append_crc_a(struct hal_answer *answer)
{
    uint16_t crc = 0x6363;
    if (answer->count <= MFRC531_FIFO_SIZE - 2) {
        for (size_t i = 0; i < answer->count; i++) {
            crc ^= answer->bytes[i];
            for (int bit = 0; bit < 8; bit++)
                crc = crc & 1 ? (uint16_t)(crc >> 1 ^ 0x8408) : crc >> 1;
        }
        answer->bytes[answer->count] = (uint8_t)(crc & 0xFF);
        answer->bytes[answer->count + 1] = (uint8_t)(crc >> 8);
    }
    answer->count += 2;
}

/* ---- Time ---------------------------------------------------------------------------------------------------------------------------- */

/* Passes clocks, in parts that an advance takes, and delivers the answer under way at its own clock. */
static void pass(struct hal *hal, uint64_t clocks)
{
    while (clocks > 0) {
        uint32_t part = clocks < MFRC531_MOST_CLOCKS ? (uint32_t)clocks : MFRC531_MOST_CLOCKS;
        if (hal->answering && hal->answer_left < part)
            part = hal->answer_left;
        if (!accepted(hal, "advance", part, mfrc531_advance(&hal->chip, part)))
            return;
        clocks -= part;
        hal->clocks += part;
        if (hal->answering) {
            hal->answer_left -= part;
            if (hal->answer_left == 0)
                deliver_answer(hal);
        }
    }
}

/* ---- What the firmware calls --------------------------------------------------------------------------------------------------------- */

uint8_t ReadIO(uint8_t address)
{
    struct hal *hal = current();
    if (polls(&hal->chip, address))
        send_frame(hal);
    pass(hal, hal->access_clocks);
    mfrc531_answer answer = mfrc531_read(&hal->chip, address);
    return accepted(hal, "ReadIO", address, answer) ? mfrc531_value_of(answer) : 0;
}

void WriteIO(uint8_t address, uint8_t value)
{
    struct hal *hal = current();
    pass(hal, hal->access_clocks);
    accepted(hal, "WriteIO", address, mfrc531_write(&hal->chip, address, value));
}

int hal_irq_pin(void)
{
    struct hal *hal = current();
    send_frame(hal);
    pass(hal, hal->access_clocks);
    bool request = (looked_at(hal, MFRC531_REG_PRIMARY_STATUS) & MFRC531_IRQ) != 0;
    bool inverted = (looked_at(hal, MFRC531_REG_IRQ_PIN_CONFIG) & MFRC531_IRQ_INV) != 0;
    return request != inverted;
}

void hal_delay(uint32_t microseconds)
{
    struct hal *hal = current();
    send_frame(hal);
    uint64_t hundredths = (uint64_t)microseconds * 1356 + hal->part_of_clock; /* 13.56 clocks are a microsecond */
    hal->part_of_clock = (uint32_t)(hundredths % 100);
    pass(hal, hundredths / 100);
}

/* ---- What the program around it calls ------------------------------------------------------------------------------------------------ */

void hal_prepare(struct hal *hal)
{
    memset(hal, 0, sizeof *hal);
    hal->access_clocks = HAL_ACCESS_CLOCKS;
    hal_use(hal);
}

void hal_use(struct hal *hal) { in_use = hal; }

void hal_start(struct hal *hal, const uint8_t *image, size_t length)
{
    if (accepted(hal, "start", (uint32_t)length, mfrc531_start(&hal->chip, image, length)) && hal->answering)
        miss_answer(hal);
}

uint16_t hal_lost_sum(const struct hal *hal)
{
    mfrc531_answer answer = mfrc531_lost_sum(&hal->chip);
    return accepted(hal, "lost_sum", 0, answer) ? mfrc531_lost_sum_of(answer) : 0;
}

void hal_reset(struct hal *hal)
{
    uint8_t image[sizeof hal->chip.eeprom]; /* memory lent to one call may not overlap */
    memcpy(image, hal->chip.eeprom, sizeof image);
    hal_start(hal, image, sizeof image);
}
