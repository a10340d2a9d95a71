/* A first firmware, as a lock maker would write it: the chip is started from the shipped image, interrupts are enabled, a key is loaded, a
 * checksum is compared with a known one, a card answers a Transceive, and the chip rests in PowerDown. Every step prints what the registers show.
 *
 * make run builds and runs it; by hand:  cc -Iinclude examples/lock.c build/libmfrc531.a -o lock
 */
#include <mfrc531.h>

#include <stdio.h>
#include <stdlib.h>

static mfrc531_chip chip;

/* Stops with one line where a call is refused. */
static mfrc531_answer done(const char *what, mfrc531_answer answer)
{
    if (mfrc531_refusal_of(answer) != MFRC531_NOT_REFUSED) {
        fprintf(stderr, "lock: %s: refused with %u: %s\n", what, mfrc531_refusal_of(answer), mfrc531_refusal_text(mfrc531_refusal_of(answer)));
        exit(1);
    }
    return answer;
}

static uint8_t get(uint8_t address) { return mfrc531_value_of(done("read", mfrc531_read(&chip, address))); }
static void put(uint8_t address, uint8_t byte) { done("write", mfrc531_write(&chip, address, byte)); }

static void send_bytes(const uint8_t *bytes, size_t count)
{
    for (size_t i = 0; i < count; i++)
        put(MFRC531_REG_FIFO_DATA, bytes[i]);
}

/* One line about the chip, as a polling loop sees it. */
static void show(const char *step)
{
    printf("%-34s PrimaryStatus %02X  FIFOLength %2u  InterruptRq %02X  ErrorFlag %02X\n", step, get(MFRC531_REG_PRIMARY_STATUS),
           get(MFRC531_REG_FIFO_LENGTH), get(MFRC531_REG_INTERRUPT_RQ), get(MFRC531_REG_ERROR_FLAG));
}

static void start(void)
{
    const uint8_t *image = mfrc531_shipped_image();
    done("profile", mfrc531_check_profile(MFRC531_EDITION_MFRC531, image + MFRC531_PROFILE_ADDRESS, MFRC531_PROFILE_SIZE));
    done("start", mfrc531_start(&chip, image, MFRC531_EEPROM_SIZE));
    put(MFRC531_REG_PAGE, 0x00); /* linear addresses */
    show("started from the shipped image");
}

static void enable_interrupts(void)
{
    put(MFRC531_REG_INTERRUPT_EN, 0x7F); /* clear all enables */
    put(MFRC531_REG_INTERRUPT_EN, MFRC531_SET_IEN | MFRC531_RX_IEN | MFRC531_TX_IEN | MFRC531_IDLE_IEN);
    put(MFRC531_REG_INTERRUPT_RQ, 0x7F); /* clear all requests */
    show("Rx, Tx and Idle enabled");
}

/* The key A0 A1 A2 A3 A4 A5 in its stored form: each nibble complemented, then true, the upper one first. */
static void load_key(void)
{
    static const uint8_t key[6] = {0xA0, 0xA1, 0xA2, 0xA3, 0xA4, 0xA5};
    uint8_t stored[12];
    for (int i = 0; i < 6; i++) {
        uint8_t upper = key[i] >> 4, lower = key[i] & 0x0F;
        stored[2 * i] = (uint8_t)((~upper & 0x0F) << 4 | upper);
        stored[2 * i + 1] = (uint8_t)((~lower & 0x0F) << 4 | lower);
    }
    put(MFRC531_REG_COMMAND, MFRC531_CMD_LOAD_KEY);
    send_bytes(stored, sizeof stored);
    show("LoadKey, twelve bytes");
}

/* ISO/IEC 14443-3: the checksum of 12 34 is 26 CF, low byte first. */
static void check_crc(void)
{
    static const uint8_t bytes[] = {0x12, 0x34};
    put(MFRC531_REG_COMMAND, MFRC531_CMD_CALC_CRC);
    send_bytes(bytes, sizeof bytes);
    printf("CalcCRC of 12 34                   %02X %02X, expected 26 CF\n", get(MFRC531_REG_CRC_RESULT_LSB), get(MFRC531_REG_CRC_RESULT_MSB));
    put(MFRC531_REG_COMMAND, MFRC531_CMD_IDLE);
}

/* READ block 4 goes out with its checksum, and a card answers with two bytes and their checksum. */
static void transceive(void)
{
    static const uint8_t command[] = {0x30, 0x04};
    static const uint8_t card[] = {0x12, 0x34, 0x26, 0xCF}, parities[] = {1, 0, 0, 1};
    uint8_t frame[MFRC531_TAKE_BUFFER_SIZE];
    put(MFRC531_REG_INTERRUPT_RQ, 0x7F);
    /* odd parity, checksum added when sending and checked when receiving */
    put(MFRC531_REG_CHANNEL_REDUNDANCY, MFRC531_PARITY_EN | MFRC531_PARITY_ODD | MFRC531_TX_CRC_EN | MFRC531_RX_CRC_EN);
    send_bytes(command, sizeof command);
    put(MFRC531_REG_COMMAND, MFRC531_CMD_TRANSCEIVE);
    mfrc531_answer taken = done("take", mfrc531_take(&chip, frame, sizeof frame));
    printf("frame sent                        ");
    for (int i = 0; i < mfrc531_value_of(taken); i++)
        printf(" %02X", frame[i]);
    printf("\n");
    done("deliver", mfrc531_deliver(&chip, card, sizeof card, parities, sizeof parities, 0));
    show("card's answer delivered");
    printf("bytes received                    ");
    while (get(MFRC531_REG_FIFO_LENGTH) > 0)
        printf(" %02X", get(MFRC531_REG_FIFO_DATA));
    printf("\n");
}

/* The battery is spared until the next card: registers, key and FIFO stay as they are. A 0 begins the leaving, and the bit reads 1 until its end. */
static void power_down(void)
{
    unsigned clocks = 0;
    put(MFRC531_REG_CONTROL, MFRC531_POWER_DOWN);
    done("advance", mfrc531_advance(&chip, MFRC531_CLOCKS_PER_SECOND));
    show("a second in PowerDown");
    put(MFRC531_REG_CONTROL, 0);
    for (; get(MFRC531_REG_CONTROL) & MFRC531_POWER_DOWN; clocks++)
        done("advance", mfrc531_advance(&chip, 1));
    printf("PowerDown left                     in %u clocks\n", clocks);
}

/* What a wrong call gets: a number, and nothing changes. */
static void show_refusal(const char *call, mfrc531_answer answer)
{
    printf("%-34s refused with %u: %s\n", call, mfrc531_refusal_of(answer), mfrc531_refusal_text(mfrc531_refusal_of(answer)));
}

static void refused(void)
{
    show_refusal("read at address 64", mfrc531_read(&chip, 64));
    mfrc531_chip broken = chip;
    broken.stage = 0x3E; /* no command of the chip has this stage */
    show_refusal("write on a chip with stage 3E", mfrc531_write(&broken, MFRC531_REG_FIFO_DATA, 0x55));
}

int main(void)
{
    start();
    enable_interrupts();
    load_key();
    check_crc();
    transceive();
    power_down();
    refused();
    return 0;
}
