/* A reader driver as firmware has it: it knows registers, a pin and a delay, and nothing of the bench. */
#ifndef DRIVER_H
#define DRIVER_H

#include <stddef.h>
#include <stdint.h>

enum driver_result {
    DRIVER_OK,
    DRIVER_TIMEOUT,      /* the chip's timer ran out before an answer */
    DRIVER_PARITY_ERROR, /* the answer is there, with a wrong parity bit */
    DRIVER_CRC_ERROR,    /* the answer is there, with a wrong CRC, or none; a CRC that is there is dropped, wrong or not */
    DRIVER_OVERFLOW,     /* more bytes than the FIFO holds */
    DRIVER_ACCESS_ERROR, /* an EEPROM address that may not be written or read */
    DRIVER_STUCK,        /* the chip showed nothing within the driver's own bound */
    DRIVER_ARGUMENT      /* what was asked cannot be done; the chip was not touched */
};

/* What the driver waits on. */
enum driver_wait { DRIVER_BY_INTERRUPT_RQ, DRIVER_BY_PRIMARY_STATUS, DRIVER_BY_MODEM_STATE, DRIVER_BY_PIN };

enum {
    DRIVER_FRAME_BYTES = 64,
    DRIVER_EEPROM_BYTES = 62,        /* of one write: the address is in the FIFO too */
    DRIVER_LONGEST_TIMEOUT = 1000000 /* microseconds */
};

/* One exchange with a card. */
struct driver_exchange {
    const uint8_t *bytes; /* to send */
    size_t count;
    uint8_t last_bits;    /* of the last byte so many bits are sent (0: all) */
    uint32_t timeout;     /* microseconds from the end of sending; 0: without the timer */
    enum driver_wait wait;

    uint8_t answer[DRIVER_FRAME_BYTES]; /* what was received, also with a parity or CRC error */
    size_t answer_count;
    uint8_t answer_last_bits;
    uint8_t error_flag;   /* ErrorFlag, as it was right after */
};

const char *driver_text(enum driver_result result);

/* After a power on or a reset. STUCK: the chip does not become idle. */
enum driver_result driver_start(void);

enum driver_result driver_transceive(struct driver_exchange *exchange);

/* 1 to DRIVER_EEPROM_BYTES bytes, anywhere from 010h to 1FFh. */
enum driver_result driver_write_e2(uint16_t address, const uint8_t *bytes, size_t count);

/* 1 to DRIVER_FRAME_BYTES bytes, below 080h: keys, from there on, can be written but not read. */
enum driver_result driver_read_e2(uint16_t address, uint8_t *bytes, size_t count);

#endif
