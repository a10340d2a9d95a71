/* The hardware layer under firmware: registers on a bus, the IRQ pin, a delay, and a card in the field.
 *
 * Firmware of a card reader writes registers, then waits in a loop until a register or a pin shows that something happened. It makes no call
 * that takes or delivers a frame, and none that passes time. This layer does it for the firmware, over the six calls of include/mfrc531.h:
 *
 * Time. Each ReadIO, each WriteIO and each look at the IRQ pin passes access_clocks, and a delay passes its own. The access itself comes at
 * the end of its clocks. Nothing else passes time: what the firmware computes in between costs nothing.
 *
 * Sending. A frame leaves at the first poll that finds Transmit or Transceive active with bytes in the FIFO. A poll is
 *   - a ReadIO of Command, PrimaryStatus, FIFOLength, SecondaryStatus, InterruptRq, ErrorFlag, CollPos or TimerValue, by the register that
 *     Page makes of the address;
 *   - a look at the IRQ pin;
 *   - a delay, also one of 0 microseconds.
 * The frame leaves at the begin of the poll, before its clocks, so that the poll shows TxIRq, and a timer with TStartTxEnd runs from there.
 * Sending takes no clocks. A write is no poll, and neither is a read of FIFOData, InterruptEn, Control, BitFraming or a register from 10h on:
 * firmware may write Command before the bytes, and change single bits of a register in between. A Command written before any poll ends the
 * sending, and the bytes stay in the FIFO.
 *
 * Receiving. The card is asked when the frame leaves, and its answer is delivered so many clocks later as it says, in the middle of an access
 * or a delay if that is where they end. If the chip does not receive at that clock (Receive, or Transceive after its frame), or another frame
 * left meanwhile, the answer is missed, as a real chip would miss it: it is counted in answers_missed and traced.
 *
 * Power modes. In StandBy and PowerDown, also while they are being left, no frame leaves, and an answer is missed. A frame that waits leaves at the
 * first poll that begins once Control reads 0 for both. A read of Control is no poll, but passes its clocks as every access does: a loop that reads it
 * until the bit is 0 ends.
 *
 * Lost bytes. How many bytes the FIFO had no room for is not passed on by WriteIO, which returns nothing; hal_lost_sum has their sum.
 *
 * Refusals. No refusal of the library is dropped: a refused call goes to the hook `refused`, or, where there is none, is written to standard
 * error with its reason, and the program aborts.
 */
#ifndef HAL_H
#define HAL_H

#include <mfrc531.h>

#include <stdbool.h>

#ifdef __cplusplus
extern "C" {
#endif

/* ---- For the firmware: four functions ------------------------------------------------------------------------------------------------ */

/* One read or write on the bus of the chip in use. The address goes to the chip as it is: firmware that selects pages writes Page (00h) by
 * WriteIO, and firmware with linear addresses writes 00h there once, since Page is 80h after a start. A refused read gives 00h. */
uint8_t ReadIO(uint8_t address);
void WriteIO(uint8_t address, uint8_t value);

/* The level of pin IRQ, 1 high or 0 low: IRq of PrimaryStatus, inverted where IRQInv (2Dh bit 1) is set, as it is in the shipped profile.
 * IRQPushPull (2Dh bit 0) decides only who drives the high level, and changes nothing here. */
int hal_irq_pin(void);

/* Waits so many microseconds. A microsecond is 13.56 clocks: what is left of a clock is kept for the next delay, so that a hundred delays of
 * one microsecond pass 1,356 clocks. */
void hal_delay(uint32_t microseconds);

/* ---- For the program around it: a chip, a card, hooks -------------------------------------------------------------------------------- */

enum {
    /* A bus access. By the data sheet (table 158) a strobe is low for 65 ns and then high for 150 ns at least: 3 clocks is the shortest. The
     * bus is rarely the limit: an 8051 at 12 MHz takes 24 of its clocks for one MOVX, 2 microseconds or 27 clocks of 13.56 MHz. */
    HAL_ACCESS_CLOCKS = 27,

    /* An answer. ISO/IEC 14443-3 gives a card of type A 1,236 clocks from the last pause of a frame whose last bit is 1, and 1,172 else. */
    HAL_ANSWER_CLOCKS = 1236
};

/* A frame that the chip has sent, with its CRC if one was added. Of the last byte, last_bits bits count (0: all). */
struct hal_frame {
    uint8_t bytes[MFRC531_TAKE_BUFFER_SIZE];
    size_t count;
    uint8_t last_bits;
};

/* What a card answers. The layer hands it over as no answer, with HAL_ANSWER_CLOCKS; a card fills in the rest. */
struct hal_answer {
    uint8_t bytes[MFRC531_FIFO_SIZE]; /* with the CRC, if the card sends one */
    size_t count;                    /* 0: no answer */
    uint8_t last_bits;               /* of the last byte so many bits count (0: all) */
    uint32_t clocks;                 /* from the end of the chip's frame until the chip has the whole answer */
    uint64_t inverted_parities;      /* bit n: byte n comes with the wrong parity bit */
};

/* A card. It may keep anything in its context; it may not call the firmware or this layer. Its parity bits are made by the layer, to fit bit 1
 * (odd) of ChannelRedundancy when the answer is delivered. */
typedef void (*hal_card)(void *context, const struct hal_frame *sent, struct hal_answer *answer);

/* Adds the CRC of ISO/IEC 14443-3 type A to an answer, low byte first. Where it has no room the answer becomes longer than 64 bytes, which is
 * refused when it is handed back. */
void hal_append_crc_a(struct hal_answer *answer);

struct hal;

/* A refused call: its name and its argument (an address, a count or clocks), and the number of the refusal. */
typedef void (*hal_refused)(void *context, const char *call, uint32_t argument, uint8_t refusal);

/* What happens in the field, for a log: hal->clocks says when. */
enum hal_event { HAL_FRAME_SENT, HAL_ANSWER_RECEIVED, HAL_ANSWER_MISSED };
typedef void (*hal_trace)(void *context, const struct hal *hal, enum hal_event event, const uint8_t *bytes, size_t count, uint8_t last_bits);

struct hal {
    mfrc531_chip chip;       /* to look at; the layer changes it by the six calls alone */
    uint64_t clocks;         /* passed since hal_prepare */
    uint64_t answers_missed; /* how many answers came when the chip did not receive */

    /* To be set after hal_prepare, and at any time. */
    uint32_t access_clocks;  /* of one access. With 0 only delays pass time, and a loop that waits for anything by reads alone never ends */
    hal_card card;           /* null: no card in the field */
    void *card_context;
    hal_refused refused;     /* null: the reason on standard error, and abort */
    hal_trace trace;         /* null: none */
    void *hook_context;      /* of refused and trace */

    /* The layer's own. */
    uint32_t part_of_clock;  /* hundredths of a clock that delays have left over */
    bool answering;          /* an answer is under way */
    uint32_t answer_left;    /* in so many clocks it is there */
    struct hal_answer answer;
};

/* Sets everything to 0 but access_clocks, and makes this the one in use. There is no chip yet: before hal_start every access is refused with 7. */
void hal_prepare(struct hal *hal);

/* Power on: the chip starts from an EEPROM image of 512 bytes, whose first four say whether it is an MFRC531 or an MF RC530. An answer under way is
 * missed. The clocks go on. */
void hal_start(struct hal *hal, const uint8_t *image, size_t length);

/* A pulse on RSTPD: the chip starts from its own EEPROM. */
void hal_reset(struct hal *hal);

/* The sum of lost bytes, as mfrc531_lost_sum has it; 0 where that is refused. Passes no time, and is no poll. A flush sets the sum to 0: with firmware
 * that flushes at the end of each exchange, ask before it does, such as in the hook `trace` at HAL_ANSWER_RECEIVED. */
uint16_t hal_lost_sum(const struct hal *hal);

/* Which one ReadIO, WriteIO, hal_irq_pin and hal_delay speak to, in this thread. */
void hal_use(struct hal *hal);

/* All six requests of InterruptRq. */
enum { HAL_IRQ_ALL = 0x3F };

#ifdef __cplusplus
}
#endif
#endif
