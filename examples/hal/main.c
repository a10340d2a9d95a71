/* The hardware layer at work: a card that answers, one that stays silent, and two blocks of EEPROM. The driver knows nothing of the bench.
 *
 * tests/hal builds and runs it; by hand, from the repository:
 *   cc -std=c11 -Iinclude examples/hal/{main,hal,driver}.c build/libmfrc531.a -o hal
 */
#include "driver.h"
#include "hal.h"

#include <inttypes.h>
#include <stdio.h>
#include <string.h>

static struct hal hal;

static void print_bytes(const uint8_t *bytes, size_t count, uint8_t last_bits)
{
    for (size_t i = 0; i < count; i++)
        printf(" %02X", bytes[i]);
    if (last_bits != 0)
        printf(", %u bits of the last byte", last_bits);
    printf("\n");
}

/* The field's side of it. */
static void show_event(void *context, const struct hal *from, enum hal_event event, const uint8_t *bytes, size_t count, uint8_t last_bits)
{
    static const char *const texts[] = {"the chip sends", "the card answers", "the chip misses"};
    (void)context;
    printf("  %9" PRIu64 "  %-17s", from->clocks, texts[event]);
    print_bytes(bytes, count, last_bits);
}

/* The firmware's side of it. */
static void show_result(const char *what, enum driver_result result)
{
    printf("  %9" PRIu64 "  %s: %s\n", hal.clocks, what, driver_text(result));
}

/* A card that answers REQA, 26h in 7 bits, with ATQA 04 00, and nothing else. */
static void answering_card(void *context, const struct hal_frame *sent, struct hal_answer *answer)
{
    (void)context;
    if (sent->count == 1 && sent->bytes[0] == 0x26 && sent->last_bits == 7) {
        answer->bytes[0] = 0x04;
        answer->bytes[1] = 0x00;
        answer->count = 2;
    }
}

static void silent_card(void *context, const struct hal_frame *sent, struct hal_answer *answer)
{
    (void)context;
    (void)sent;
    (void)answer;
}

static void request(const char *title, hal_card card, enum driver_wait wait)
{
    static const uint8_t reqa[] = {0x26};
    struct driver_exchange exchange = {.bytes = reqa, .count = sizeof reqa, .last_bits = 7, .timeout = 1000, .wait = wait};
    printf("%s\n", title);
    hal.card = card;
    enum driver_result result = driver_transceive(&exchange);
    show_result("REQA", result);
    if (result == DRIVER_OK) {
        printf("             received         ");
        print_bytes(exchange.answer, exchange.answer_count, exchange.answer_last_bits);
    }
}

/* Two blocks, 030h-04Fh: written, read back, and still there after a reset. */
static void memory(void)
{
    uint8_t written[32], read[32];
    printf("EEPROM\n");
    for (size_t i = 0; i < sizeof written; i++)
        written[i] = (uint8_t)(0xC0 + i);
    show_result("32 bytes written at 030h", driver_write_e2(0x030, written, sizeof written));
    show_result("32 bytes read at 030h", driver_read_e2(0x030, read, sizeof read));
    printf("             %s\n", memcmp(written, read, sizeof read) == 0 ? "the same" : "not the same");
    hal_reset(&hal);
    memset(read, 0, sizeof read);
    show_result("reset", driver_start());
    show_result("32 bytes read at 030h", driver_read_e2(0x030, read, sizeof read));
    printf("             %s\n", memcmp(written, read, sizeof read) == 0 ? "the same" : "not the same");
    show_result("a byte written at 00Fh", driver_write_e2(0x00F, written, 1));
}

int main(void)
{
    hal_prepare(&hal);
    hal.trace = show_event;
    hal_start(&hal, mfrc531_shipped_image(), MFRC531_EEPROM_SIZE);
    printf("clocks of 13.56 MHz, %" PRIu32 " for each access\n", hal.access_clocks);
    show_result("start", driver_start());
    request("A card answers; the driver polls InterruptRq", answering_card, DRIVER_BY_INTERRUPT_RQ);
    request("A card answers; the driver polls PrimaryStatus", answering_card, DRIVER_BY_PRIMARY_STATUS);
    request("A card answers; the driver polls ModemState", answering_card, DRIVER_BY_MODEM_STATE);
    request("A card answers; the driver polls pin IRQ", answering_card, DRIVER_BY_PIN);
    request("A card stays silent; the timer ends it after 1 ms", silent_card, DRIVER_BY_INTERRUPT_RQ);
    memory();
    return 0;
}
