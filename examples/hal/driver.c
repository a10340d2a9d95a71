/* A reader driver as firmware has it. From hal.h it takes ReadIO, WriteIO, hal_irq_pin, hal_delay and the names of registers and bits. */
#include "driver.h"
#include "hal.h"

/* The driver's own bounds, for a chip that shows nothing. A poll takes 2 microseconds here, so that the first is twice the longest timeout. */
enum { MOST_POLLS = 1000000, MOST_COMMAND_POLLS = 1000 };
/* EEPROM: a look every 100 microseconds, and 10 ms for each programming of 5.8 ms. */
enum { E2_DELAY = 100, E2_POLLS = 100 };

const char *driver_text(enum driver_result result)
{
    static const char *const texts[] = {"ok", "timeout", "parity error", "CRC error", "FIFO overflow", "access error", "stuck", "argument"};
    return texts[result];
}

static void put_bytes(const uint8_t *bytes, size_t count)
{
    for (size_t i = 0; i < count; i++)
        WriteIO(MFRC531_REG_FIFO_DATA, bytes[i]);
}

/* No command, no byte in the FIFO, no request, and a timer that stands. */
static void settle(void)
{
    WriteIO(MFRC531_REG_COMMAND, MFRC531_CMD_IDLE);
    WriteIO(MFRC531_REG_CONTROL, MFRC531_T_STOP_NOW | MFRC531_FLUSH_FIFO);
    WriteIO(MFRC531_REG_INTERRUPT_EN, HAL_IRQ_ALL);
    WriteIO(MFRC531_REG_INTERRUPT_RQ, HAL_IRQ_ALL);
}

/* The chip has ended its command. */
static bool idle(void)
{
    for (unsigned polls = 0; polls < MOST_COMMAND_POLLS; polls++)
        if (ReadIO(MFRC531_REG_COMMAND) == MFRC531_CMD_IDLE)
            return true;
    return false;
}

/* As the data sheet has it for the bus: 80h to Page, Command until it is 00h, then 00h to Page for linear addresses. */
enum driver_result driver_start(void)
{
    WriteIO(MFRC531_REG_PAGE, 0x80);
    if (!idle())
        return DRIVER_STUCK;
    WriteIO(MFRC531_REG_PAGE, 0x00);
    settle();
    return DRIVER_OK;
}

/* ---- Cards --------------------------------------------------------------------------------------------------------------------------- */

/* A timeout by the smallest prescaler whose steps, at most 255, reach it; 0 keeps the timer out of it. */
static void set_timer(uint32_t microseconds)
{
    uint32_t clocks = (uint32_t)(((uint64_t)microseconds * 1356 + 99) / 100), steps = clocks;
    uint8_t prescaler = 0;
    while (steps > 255) {
        prescaler++;
        steps = (clocks + (1u << prescaler) - 1) >> prescaler;
    }
    WriteIO(MFRC531_REG_TIMER_CLOCK, prescaler);
    WriteIO(MFRC531_REG_TIMER_RELOAD, (uint8_t)steps);
    WriteIO(MFRC531_REG_TIMER_CONTROL, microseconds == 0 ? 0 : MFRC531_T_START_TX_END | MFRC531_T_STOP_RX_BEGIN);
}

/* Waits for a request out of three, and gives all that there are; none of the three at the bound. */
static uint8_t wait_for_request(enum driver_wait wait)
{
    int active = wait == DRIVER_BY_PIN && ReadIO(MFRC531_REG_IRQ_PIN_CONFIG) & MFRC531_IRQ_INV ? 0 : 1;
    for (unsigned long polls = 0; polls < MOST_POLLS; polls++) {
        switch (wait) {
        case DRIVER_BY_INTERRUPT_RQ: {
            uint8_t requests = ReadIO(MFRC531_REG_INTERRUPT_RQ);
            if (requests & (MFRC531_RX_IRQ | MFRC531_IDLE_IRQ | MFRC531_TIMER_IRQ))
                return requests;
            break;
        }
        case DRIVER_BY_PRIMARY_STATUS:
            if (ReadIO(MFRC531_REG_PRIMARY_STATUS) & MFRC531_IRQ)
                return ReadIO(MFRC531_REG_INTERRUPT_RQ);
            break;
        case DRIVER_BY_MODEM_STATE: /* Idle again; a card that stays silent leaves it at AwaitingRx, so the timer is asked for too */
            if ((ReadIO(MFRC531_REG_PRIMARY_STATUS) & MFRC531_MODEM_STATE_MASK) >> MFRC531_MODEM_STATE_SHIFT == MFRC531_MODEM_IDLE ||
                ReadIO(MFRC531_REG_INTERRUPT_RQ) & MFRC531_TIMER_IRQ)
                return ReadIO(MFRC531_REG_INTERRUPT_RQ);
            break;
        case DRIVER_BY_PIN:
            if (hal_irq_pin() == active)
                return ReadIO(MFRC531_REG_INTERRUPT_RQ);
            break;
        }
    }
    return 0;
}

static enum driver_result judged(uint8_t error_flag)
{
    if (error_flag & MFRC531_FIFO_OVFL)
        return DRIVER_OVERFLOW;
    if (error_flag & MFRC531_PARITY_ERR)
        return DRIVER_PARITY_ERROR;
    if (error_flag & MFRC531_CRC_ERR)
        return DRIVER_CRC_ERROR;
    return DRIVER_OK;
}

/* Reads the answer before Command is written again, since that clears CRCErr and ParityErr. */
static enum driver_result read_answer(struct driver_exchange *exchange)
{
    exchange->error_flag = ReadIO(MFRC531_REG_ERROR_FLAG);
    exchange->answer_count = ReadIO(MFRC531_REG_FIFO_LENGTH);
    exchange->answer_last_bits = ReadIO(MFRC531_REG_SECONDARY_STATUS) & MFRC531_RX_LAST_BITS_MASK;
    if (exchange->answer_count > DRIVER_FRAME_BYTES) /* a FIFO of 64 bytes never says so */
        return DRIVER_OVERFLOW;
    for (size_t i = 0; i < exchange->answer_count; i++)
        exchange->answer[i] = ReadIO(MFRC531_REG_FIFO_DATA);
    return judged(exchange->error_flag);
}

enum driver_result driver_transceive(struct driver_exchange *exchange)
{
    enum driver_result result;
    exchange->answer_count = 0;
    exchange->answer_last_bits = 0;
    exchange->error_flag = 0;
    if (exchange->count == 0 || exchange->count > DRIVER_FRAME_BYTES || exchange->last_bits > 7 || exchange->timeout > DRIVER_LONGEST_TIMEOUT)
        return DRIVER_ARGUMENT;
    settle();
    set_timer(exchange->timeout);
    WriteIO(MFRC531_REG_INTERRUPT_EN, MFRC531_SET_IRQ | MFRC531_RX_IRQ | MFRC531_IDLE_IRQ | MFRC531_TIMER_IRQ);
    WriteIO(MFRC531_REG_BIT_FRAMING, exchange->last_bits); /* every time: TxLastBits stay after a frame */
    put_bytes(exchange->bytes, exchange->count);
    WriteIO(MFRC531_REG_COMMAND, MFRC531_CMD_TRANSCEIVE);
    uint8_t requests = wait_for_request(exchange->wait);
    if (requests & MFRC531_RX_IRQ)
        result = read_answer(exchange);
    else if (requests & MFRC531_TIMER_IRQ)
        result = DRIVER_TIMEOUT;
    else
        result = DRIVER_STUCK;
    settle();
    return result;
}

/* ---- EEPROM -------------------------------------------------------------------------------------------------------------------------- */

/* The bytes wait in the FIFO before the command begins, so that each block of 16 takes one programming. Written after the command, the first
 * byte would be programmed alone. */
enum driver_result driver_write_e2(uint16_t address, const uint8_t *bytes, size_t count)
{
    if (count == 0 || count > DRIVER_EEPROM_BYTES || address > 0x1FF || address + count > 0x200)
        return DRIVER_ARGUMENT;
    const uint8_t argument[2] = {(uint8_t)(address & 0xFF), (uint8_t)(address >> 8)};
    unsigned programmings = (unsigned)((address % 16 + count + 15) / 16);
    bool ready = false;
    settle();
    put_bytes(argument, sizeof argument);
    put_bytes(bytes, count);
    WriteIO(MFRC531_REG_COMMAND, MFRC531_CMD_WRITE_E2);
    for (unsigned polls = 0; !ready && polls < E2_POLLS * programmings; polls++) {
        ready = (ReadIO(MFRC531_REG_SECONDARY_STATUS) & MFRC531_E2_READY) != 0;
        if (!ready)
            hal_delay(E2_DELAY);
    }
    uint8_t error_flag = ReadIO(MFRC531_REG_ERROR_FLAG); /* before Command is written, which clears AccessErr */
    uint8_t left = ReadIO(MFRC531_REG_FIFO_LENGTH);
    settle(); /* Idle: WriteE2 does not end by itself */
    if (error_flag & MFRC531_ACCESS_ERR)
        return DRIVER_ACCESS_ERROR;
    return ready && left == 0 ? DRIVER_OK : DRIVER_STUCK;
}

enum driver_result driver_read_e2(uint16_t address, uint8_t *bytes, size_t count)
{
    if (count == 0 || count > DRIVER_FRAME_BYTES || address > 0x1FF)
        return DRIVER_ARGUMENT;
    const uint8_t arguments[3] = {(uint8_t)(address & 0xFF), (uint8_t)(address >> 8), (uint8_t)count};
    settle();
    put_bytes(arguments, sizeof arguments);
    WriteIO(MFRC531_REG_COMMAND, MFRC531_CMD_READ_E2);
    bool ended = idle();
    enum driver_result result = DRIVER_STUCK;
    if (ended && ReadIO(MFRC531_REG_ERROR_FLAG) & MFRC531_ACCESS_ERR) {
        result = DRIVER_ACCESS_ERROR;
    } else if (ended && ReadIO(MFRC531_REG_FIFO_LENGTH) == count) {
        for (size_t i = 0; i < count; i++)
            bytes[i] = ReadIO(MFRC531_REG_FIFO_DATA);
        result = DRIVER_OK;
    }
    settle();
    return result;
}
