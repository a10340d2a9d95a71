/* The reader bench: an MFRC531 or MF RC530 card-reader chip in software.
 *
 * The functions of the library are proved: for every chip, argument and buffer each one ends, and what it answers and leaves in memory is what
 * the definitions in crates/machine/specs give. What is not proved is this header, with the functions that stand in it, the C compiler, and that
 * the pointers are good.
 *
 * Any bytes are a valid argument, a chip's among them: memory that is no chip's state gets refusal 7 and stays as it is. A null pointer, or
 * one to less memory than its length says, is the caller's fault, as with memcpy. Memory lent to one call may not overlap, but where the call only reads
 * it: a name that is looked for may stand in the pack.
 *
 * A refused call changes nothing: the chip and every buffer are bit for bit as before, and the answer is the refusal's number alone (for a
 * profile with its register and bit). So look at the answer of each call; a refused one has not happened.
 *
 * What a driver written for the chip has to know besides:
 *
 * Start. A chip is whatever memory you pass. mfrc531_start makes any memory a chip, an MFRC531 or an MF RC530 by the first four bytes of the image,
 * and refuses an image that begins with neither edition's (22). Zeros are no chip's state: with a static mfrc531_chip a forgotten start shows at
 * once, as every other call is refused with 7.
 *
 * Page. A start leaves Page at 80h: UsePageSelect is set and PageSelect 0, so only the three low bits of an address count and they reach
 * registers 00h-07h. Address 22h then is FIFOData (02h), not ChannelRedundancy. Write 00h to Page first, and addresses are linear.
 *
 * Time. Only mfrc531_advance gives the chip clocks. Reads, writes, takes and deliveries take no time, however many there are: a loop that polls
 * E2Ready, TimerIRq or the end of PowerDown ends only if it advances too. EEPROM programming lasts MFRC531_PROGRAMMING_CLOCKS.
 *
 * Frames. Transmit and Transceive send nothing by themselves. The frame is what the FIFO holds when you call mfrc531_take, so take once all bytes
 * are written; TxIRq and the timer's start by TStartTxBegin or TStartTxEnd come with the take. Transceive receives from then on, Receive at
 * once: mfrc531_deliver brings the card's answer. A card that stays silent is no delivery; advance, and let the timer run out.
 *
 * Alerts. LoAlertIRq and HiAlertIRq are judged over a whole call: set where LoAlert or HiAlert was 0 before it and is 1 after it. What the FIFO
 * held in between counts for nothing, such as a byte that CalcCRC takes in the call that writes it.
 *
 * Power modes. StandBy and PowerDown are bits of Control (09h). In either mode the timer and EEPROM programming stand still and no frame is taken or
 * delivered; all else works. A 0 does not end a mode at once: its leaving takes 4 or 512 clocks, and the bit reads 1 until then. Every write of
 * Control writes both bits: a flush by 01h begins the leaving of both. The rules stand with enum mfrc531_control_bits.
 *
 * Lost bytes. A byte that is offered to the FIFO while it holds 64 is lost, and FIFOOvfl is set. A write or a delivery answers how many were lost in
 * it (mfrc531_lost_of). So its answer need not be 0 where it is not refused: compare mfrc531_refusal_of(answer) with MFRC531_NOT_REFUSED, not the
 * answer itself. mfrc531_lost_sum answers how many were lost since the latest flush or start.
 *
 * Where the bench and the chip differ, and why, is docs/MANUAL.md, section 14 "Differences from the chip"; calls and time are its section 9.
 *
 * C11 or C++11, or later; x86-64, System V calling convention. Nothing here allocates, blocks, prints or keeps state outside the chip. Two threads
 * may call at the same time on two chips.
 */
#ifndef MFRC531_H
#define MFRC531_H

#include <stddef.h>
#include <stdint.h>

/* The version of this header and of the library. MINOR rises by one with each request that lands (docs/landings); 11 is the state with R-2,
 * 12 brought R-4, 13 R-3, 14 R-10, 15 R-9, 16 R-8, 17 R-1. With a new MINOR compile firmware again, as the chip's layout may have
 * changed. PATCH rises with any other change. MAJOR is 0 until the layout is final; from then on it rises when a name, the layout or an answer changes,
 * so that firmware has to be looked at. */
#define MFRC531_VERSION_MAJOR 0
#define MFRC531_VERSION_MINOR 17
#define MFRC531_VERSION_PATCH 0
#define MFRC531_VERSION_STRING "0.17.0"

/* Sizes in bytes, and clocks of 13.56 MHz. */
#define MFRC531_FIFO_SIZE 64
#define MFRC531_EEPROM_SIZE 512
#define MFRC531_PRODUCT_TYPE_SIZE 4 /* the first bytes of an image, by which it is an edition's */
#define MFRC531_PROFILE_ADDRESS 0x10 /* of the start-up profile in EEPROM, 010h-02Fh */
#define MFRC531_PROFILE_SIZE 32
#define MFRC531_TAKE_BUFFER_SIZE 66 /* the FIFO and a checksum of two bytes */
#define MFRC531_PACK_MOST_PROFILES 256 /* of one pack; no profile at all is a pack too */
#define MFRC531_PACK_NAME_SIZE 16
#define MFRC531_PACK_ENTRY_SIZE 20 /* a name and the offset of its body */
#define MFRC531_PACK_TRAILER_SIZE 12
#define MFRC531_PACK_SIZE(profiles) ((MFRC531_PROFILE_SIZE + MFRC531_PACK_ENTRY_SIZE) * (profiles) + MFRC531_PACK_TRAILER_SIZE)
#define MFRC531_PACK_MOST_SIZE 13324 /* MFRC531_PACK_SIZE(MFRC531_PACK_MOST_PROFILES) */
#define MFRC531_CLOCKS_PER_SECOND 13560000
#define MFRC531_MOST_CLOCKS 4294967295u  /* of one advance: every number of 32 bits */
#define MFRC531_PROGRAMMING_CLOCKS 78648 /* from the latching of bytes by WriteE2 until they are in EEPROM, 5.8 ms */
#define MFRC531_STAND_BY_CLOCKS 4        /* that StandBy takes to be left */
#define MFRC531_POWER_DOWN_CLOCKS 512    /* that PowerDown takes to be left */

#ifdef __cplusplus
extern "C" {
#endif

/* ---- What a call answers ------------------------------------------------------------------------------------------------------------- */

/* One number: bits 7-0 the refusal, 0 for none; bits 15-8 the byte read or the number of bytes written; bits 23-16 the last bits of a frame; bits
 * 31-24 the number of bytes lost in a write or a delivery. In the answer of mfrc531_lost_sum bits 23-8 are the sum, in those of the functions for packs
 * bits 31-8 are one number. What a call does not answer is 0. A refused call answers its refusal alone, and leaves chip and buffers as they were. */
typedef uint32_t mfrc531_answer;

/* Each number goes by one name; mfrc531_refusal_text has it in words. Which call gives which, and in which order they are judged, stands with
 * the call below. Of a call on a chip 7 goes before all others. */
enum mfrc531_refusal {
    MFRC531_NOT_REFUSED = 0,
    MFRC531_ADDRESS_ABOVE_63 = 1,
    MFRC531_IMAGE_NOT_512_BYTES = 2,
    MFRC531_RESERVED_3 = 3, /* no call is refused with it */
    MFRC531_NOT_SENDING_OR_RECEIVING = 4,
    MFRC531_FRAME_MALFORMED = 5,
    MFRC531_BUFFER_UNDER_66_BYTES = 6,
    MFRC531_CHIP_MALFORMED = 7,
    MFRC531_BOTH_PROFILES_FAIL = 8,
    MFRC531_PROFILE_NOT_32_BYTES = 9,
    MFRC531_FIXED_BIT_DIFFERS = 10,
    MFRC531_PRESCALER_ABOVE_21 = 11,
    MFRC531_RELOAD_0_WITH_START = 12,
    MFRC531_WATER_LEVEL_ABOVE_31 = 13,
    MFRC531_PACK_MALFORMED = 14,
    MFRC531_NAME_NOT_FOUND = 15,
    MFRC531_NAMES_AND_BODIES_UNPAIRED = 16,
    MFRC531_OVER_256_PROFILES = 17,
    MFRC531_NAMES_NOT_ASCENDING = 18,
    MFRC531_BUFFER_SHORTER_THAN_PACK = 19,
    /* No call is refused with 20 and 21. */
    MFRC531_IMAGE_OF_NO_EDITION = 22
};

/* The refusal of an answer; the byte or count; the last bits; the number of bytes lost in the call; the sum of mfrc531_lost_sum; the number that a
 * function for packs answers. */
static inline uint8_t mfrc531_refusal_of(mfrc531_answer answer) { return answer & 0xFFu; }
static inline uint8_t mfrc531_value_of(mfrc531_answer answer) { return answer >> 8 & 0xFFu; }
static inline uint8_t mfrc531_last_bits_of(mfrc531_answer answer) { return answer >> 16 & 0xFFu; }
static inline uint8_t mfrc531_lost_of(mfrc531_answer answer) { return answer >> 24 & 0xFFu; }
static inline uint16_t mfrc531_lost_sum_of(mfrc531_answer answer) { return answer >> 8 & 0xFFFFu; }
static inline uint32_t mfrc531_number_of(mfrc531_answer answer) { return answer >> 8; }

/* One line of text for a refusal's number, without a full stop and a line's end; any number has one, 0 and numbers that are no refusal too. */
static inline const char *mfrc531_refusal_text(unsigned number)
{
    switch (number) {
    case MFRC531_NOT_REFUSED: return "not refused";
    case MFRC531_ADDRESS_ABOVE_63: return "the host address is above 63";
    case MFRC531_IMAGE_NOT_512_BYTES: return "the image is not 512 bytes";
    case MFRC531_RESERVED_3: return "reserved: no call is refused with it";
    case MFRC531_NOT_SENDING_OR_RECEIVING: return "the chip does not send, holds no byte, does not receive, or is in a power mode";
    case MFRC531_FRAME_MALFORMED: return "the received frame is malformed";
    case MFRC531_BUFFER_UNDER_66_BYTES: return "the buffer is under 66 bytes";
    case MFRC531_CHIP_MALFORMED: return "the memory is no chip's state";
    case MFRC531_BOTH_PROFILES_FAIL: return "neither profile passes";
    case MFRC531_PROFILE_NOT_32_BYTES: return "the profile is not 32 bytes";
    case MFRC531_FIXED_BIT_DIFFERS: return "a bit that the data sheet fixes differs";
    case MFRC531_PRESCALER_ABOVE_21: return "TPreScaler is above 21";
    case MFRC531_RELOAD_0_WITH_START: return "TStartTxBegin or TStartTxEnd is set, but TimerReload is 0";
    case MFRC531_WATER_LEVEL_ABOVE_31: return "WaterLevel is above 31";
    case MFRC531_PACK_MALFORMED: return "the bytes are no pack";
    case MFRC531_NAME_NOT_FOUND: return "no profile of the pack has the name";
    case MFRC531_NAMES_AND_BODIES_UNPAIRED: return "the names and bodies do not pair up, 16 and 32 bytes for each profile";
    case MFRC531_OVER_256_PROFILES: return "there are over 256 profiles";
    case MFRC531_NAMES_NOT_ASCENDING: return "the names are not strictly ascending";
    case MFRC531_BUFFER_SHORTER_THAN_PACK: return "the buffer is shorter than the pack";
    case MFRC531_IMAGE_OF_NO_EDITION: return "the image's first four bytes are no edition's";
    default: return "unknown: the library has no refusal of this number";
    }
}

/* ---- Registers and commands by name -------------------------------------------------------------------------------------------------- */

/* Registers by their address, with the data sheet's names. Addresses that it only calls reserved have none. Page is one register, seen at every
 * address that is a multiple of 8.
 *
 * While UsePageSelect is set, as after a start, the register is 8 * PageSelect + address % 8; else it is the address itself. */
enum mfrc531_register {
    MFRC531_REG_PAGE = 0x00,
    MFRC531_REG_COMMAND = 0x01,
    MFRC531_REG_FIFO_DATA = 0x02,
    MFRC531_REG_PRIMARY_STATUS = 0x03,
    MFRC531_REG_FIFO_LENGTH = 0x04,
    MFRC531_REG_SECONDARY_STATUS = 0x05,
    MFRC531_REG_INTERRUPT_EN = 0x06,
    MFRC531_REG_INTERRUPT_RQ = 0x07,
    MFRC531_REG_CONTROL = 0x09,
    MFRC531_REG_ERROR_FLAG = 0x0A,
    MFRC531_REG_COLL_POS = 0x0B, /* reads 0 */
    MFRC531_REG_TIMER_VALUE = 0x0C,
    MFRC531_REG_CRC_RESULT_LSB = 0x0D,
    MFRC531_REG_CRC_RESULT_MSB = 0x0E,
    MFRC531_REG_BIT_FRAMING = 0x0F,
    /* From here to 2Fh all eight bits are stored. 22h-24h and 29h-2Ch have an effect, the others none. */
    MFRC531_REG_TX_CONTROL = 0x11,
    MFRC531_REG_CW_CONDUCTANCE = 0x12,
    MFRC531_REG_MOD_CONDUCTANCE = 0x13,
    MFRC531_REG_CODER_CONTROL = 0x14,
    MFRC531_REG_MOD_WIDTH = 0x15,
    MFRC531_REG_MOD_WIDTH_SOF = 0x16, /* in another table PreSet16 */
    MFRC531_REG_TYPE_B_FRAMING = 0x17,
    MFRC531_REG_RX_CONTROL1 = 0x19,
    MFRC531_REG_DECODER_CONTROL = 0x1A,
    MFRC531_REG_BIT_PHASE = 0x1B,
    MFRC531_REG_RX_THRESHOLD = 0x1C,
    MFRC531_REG_BPSK_DEM_CONTROL = 0x1D,
    MFRC531_REG_RX_CONTROL2 = 0x1E,
    MFRC531_REG_CLOCK_Q_CONTROL = 0x1F,
    MFRC531_REG_RX_WAIT = 0x21,
    MFRC531_REG_CHANNEL_REDUNDANCY = 0x22,
    MFRC531_REG_CRC_PRESET_LSB = 0x23,
    MFRC531_REG_CRC_PRESET_MSB = 0x24,
    MFRC531_REG_PRESET25 = 0x25,
    MFRC531_REG_MFOUT_SELECT = 0x26,
    MFRC531_REG_PRESET27 = 0x27,
    MFRC531_REG_FIFO_LEVEL = 0x29,
    MFRC531_REG_TIMER_CLOCK = 0x2A,
    MFRC531_REG_TIMER_CONTROL = 0x2B,
    MFRC531_REG_TIMER_RELOAD = 0x2C,
    MFRC531_REG_IRQ_PIN_CONFIG = 0x2D,
    MFRC531_REG_PRESET2E = 0x2E,
    MFRC531_REG_PRESET2F = 0x2F,
    /* The test registers read 0, and a write to them does nothing. */
    MFRC531_REG_TEST_ANA_SELECT = 0x3A,
    MFRC531_REG_TEST_DIGI_SELECT = 0x3D
};

/* Codes for the register Command. Any code but the first ten is unknown to the bench: the chip goes to Idle and sets IdleIRq. */
enum mfrc531_command {
    MFRC531_CMD_IDLE = 0x00,
    MFRC531_CMD_WRITE_E2 = 0x01,
    MFRC531_CMD_READ_E2 = 0x03,
    MFRC531_CMD_LOAD_CONFIG = 0x07,
    MFRC531_CMD_LOAD_KEY_E2 = 0x0B,
    MFRC531_CMD_CALC_CRC = 0x12,
    MFRC531_CMD_RECEIVE = 0x16,
    MFRC531_CMD_LOAD_KEY = 0x19,
    MFRC531_CMD_TRANSMIT = 0x1A,
    MFRC531_CMD_TRANSCEIVE = 0x1E,
    /* Commands of the chip that the bench leaves out. */
    MFRC531_CMD_AUTHENT1 = 0x0C,
    MFRC531_CMD_AUTHENT2 = 0x14,
    MFRC531_CMD_START_UP = 0x3F
};

/* ---- Bits and fields of registers ---------------------------------------------------------------------------------------------------- */

/* By the data sheet's symbols. A field of several bits has its mask, and a shift where it does not begin at bit 0. */

enum mfrc531_page_bits {
    MFRC531_USE_PAGE_SELECT = 0x80,
    MFRC531_PAGE_SELECT_MASK = 0x07
};

enum mfrc531_command_bits {
    MFRC531_IF_DETECT_BUSY = 0x80, /* reads 0 */
    MFRC531_COMMAND_MASK = 0x3F
};

enum mfrc531_primary_status_bits {
    MFRC531_MODEM_STATE_MASK = 0x70, /* an mfrc531_modem_state */
    MFRC531_MODEM_STATE_SHIFT = 4,
    MFRC531_IRQ = 0x08,      /* a request of InterruptRq is set that InterruptEn enables */
    MFRC531_ERR = 0x04,      /* a bit of ErrorFlag is set */
    MFRC531_HI_ALERT = 0x02, /* the FIFO has room for at most WaterLevel bytes */
    MFRC531_LO_ALERT = 0x01  /* the FIFO holds at most WaterLevel bytes */
};

/* ModemState, as it is once shifted down: those of the data sheet's eight codes that the bench shows. */
enum mfrc531_modem_state {
    MFRC531_MODEM_IDLE = 0,       /* also of a chip that sends, and holds no byte */
    MFRC531_MODEM_TX_DATA = 2,    /* the chip sends, and holds a byte */
    MFRC531_MODEM_AWAITING_RX = 6 /* the chip receives */
};

enum mfrc531_fifo_length_bits {
    MFRC531_FIFO_LENGTH_MASK = 0x7F
};

enum mfrc531_secondary_status_bits {
    MFRC531_T_RUNNING = 0x80,
    MFRC531_E2_READY = 0x40,  /* no programming runs, and none stands still in a power mode */
    MFRC531_CRC_READY = 0x20, /* reads 1 */
    MFRC531_RX_LAST_BITS_MASK = 0x07
};

/* InterruptEn. A write changes the sources whose bits are 1: it enables them with SetIEn, and disables them without. SetIEn reads 0. */
enum mfrc531_interrupt_en_bits {
    MFRC531_SET_IEN = 0x80,
    MFRC531_TIMER_IEN = 0x20,
    MFRC531_TX_IEN = 0x10,
    MFRC531_RX_IEN = 0x08,
    MFRC531_IDLE_IEN = 0x04,
    MFRC531_HI_ALERT_IEN = 0x02,
    MFRC531_LO_ALERT_IEN = 0x01
};

/* InterruptRq. A write changes the requests whose bits are 1: it sets them with SetIRq, and clears them without. SetIRq reads 0. */
enum mfrc531_interrupt_rq_bits {
    MFRC531_SET_IRQ = 0x80,
    MFRC531_TIMER_IRQ = 0x20,
    MFRC531_TX_IRQ = 0x10,
    MFRC531_RX_IRQ = 0x08,
    MFRC531_IDLE_IRQ = 0x04,
    MFRC531_HI_ALERT_IRQ = 0x02,
    MFRC531_LO_ALERT_IRQ = 0x01
};

/* Control. Only StandBy and PowerDown read back, and every write writes both. A write with several of the others flushes the FIFO, then stops the
 * timer, then starts it.
 *
 * While either mode has hold, no clock counts for the timer or the programming, and a take or a delivery is refused with 4. All else goes on: reads,
 * writes and commands, a flush, a start or stop of the timer, the latching of bytes by WriteE2. A programming that stands still is one all the same:
 * E2Ready is 0, and writes of Command are ignored.
 *
 * A 1 takes hold at once, but not while there is a programming, running or standing still. Then the bit reads 1 and waits, without other effect, and
 * takes hold at the end of the clock that ends this programming. Bytes that wait are latched in that clock, for a programming that stands still.
 *
 * A 0 takes back a bit that waits, at once. Else it begins the leaving: MFRC531_STAND_BY_CLOCKS or MFRC531_POWER_DOWN_CLOCKS more clocks, in which the
 * bit reads 1 and the mode has hold. Both modes are left side by side; the clock after the later end counts again. During a leaving another 0 changes
 * nothing, and a 1 keeps the mode, so that the next 0 begins the whole count: firmware that reads Control, sets a bit and writes it back writes this
 * 1. */
enum mfrc531_control_bits {
    MFRC531_STAND_BY = 0x20,
    MFRC531_POWER_DOWN = 0x10,
    MFRC531_CRYPTO1_ON = 0x08, /* reads 0 */
    MFRC531_T_STOP_NOW = 0x04,
    MFRC531_T_START_NOW = 0x02,
    MFRC531_FLUSH_FIFO = 0x01
};

enum mfrc531_error_flag_bits {
    MFRC531_KEY_ERR = 0x40, /* set after a start */
    MFRC531_ACCESS_ERR = 0x20,
    MFRC531_FIFO_OVFL = 0x10,
    MFRC531_CRC_ERR = 0x08,
    MFRC531_FRAMING_ERR = 0x04, /* reads 0 */
    MFRC531_PARITY_ERR = 0x02,
    MFRC531_COLL_ERR = 0x01 /* reads 0 */
};

enum mfrc531_bit_framing_bits {
    MFRC531_RX_ALIGN_MASK = 0x70, /* stored, without effect */
    MFRC531_RX_ALIGN_SHIFT = 4,
    MFRC531_TX_LAST_BITS_MASK = 0x07 /* stays as it is after a take */
};

enum mfrc531_channel_redundancy_bits {
    MFRC531_CRC3309 = 0x20, /* complements a checksum of 16 bits */
    MFRC531_CRC8 = 0x10,
    MFRC531_RX_CRC_EN = 0x08,
    MFRC531_TX_CRC_EN = 0x04,
    MFRC531_PARITY_ODD = 0x02,
    MFRC531_PARITY_EN = 0x01
};

enum mfrc531_fifo_level_bits {
    MFRC531_WATER_LEVEL_MASK = 0x3F
};

/* TimerClock. A timer step takes 2 to the power of TPreScaler clocks. If it is above 21, a start of the timer leaves it stopped at 0. */
enum mfrc531_timer_clock_bits {
    MFRC531_T_AUTO_RESTART = 0x20,
    MFRC531_T_PRESCALER_MASK = 0x1F
};

enum mfrc531_timer_control_bits {
    MFRC531_T_STOP_RX_END = 0x08,   /* either stop bit stops the timer at a delivery */
    MFRC531_T_STOP_RX_BEGIN = 0x04,
    MFRC531_T_START_TX_END = 0x02,  /* either start bit starts it at a take */
    MFRC531_T_START_TX_BEGIN = 0x01
};

enum mfrc531_irq_pin_config_bits { /* stored, without effect: the bench has no pins */
    MFRC531_IRQ_INV = 0x02,
    MFRC531_IRQ_PUSH_PULL = 0x01
};

/* ---- Editions, and the shipped EEPROM ------------------------------------------------------------------------------------------------ */

/* A chip is of the edition with whose product type its image begins, bytes 000h-003h: 30h CCh FFh 0Fh for the MFRC531, 30h 88h FEh 03h for the
 * MF RC530. No other byte of the image counts for it, and no call but a start changes it. The editions differ in the bits that their data sheets fix,
 * so in the check of a profile, and in nothing else: registers, commands and time are the same. */
enum mfrc531_edition {
    MFRC531_EDITION_MFRC531 = 0,
    MFRC531_EDITION_RC530 = 1
};

/* MFRC531_EEPROM_SIZE bytes for mfrc531_start: the MFRC531's product type at 000h-003h, the start-up profile that it is shipped with at 010h-02Fh,
 * and zeros elsewhere. The profile alone begins at MFRC531_PROFILE_ADDRESS. */
static inline const uint8_t *mfrc531_shipped_image(void)
{
    static const uint8_t image[MFRC531_EEPROM_SIZE] = {
        0x30, 0xCC, 0xFF, 0x0F, 0x00, 0x00, 0x00, 0x00, 0x00, 0x00, 0x00, 0x00, 0x00, 0x00, 0x00, 0x00, /* 000h */
        0x00, 0x58, 0x3F, 0x3F, 0x19, 0x13, 0x3F, 0x3B, 0x00, 0x73, 0x08, 0xAD, 0xFF, 0x1E, 0x41, 0x00, /* 010h */
        0x00, 0x06, 0x03, 0x63, 0x63, 0x00, 0x00, 0x00, 0x00, 0x08, 0x07, 0x06, 0x0A, 0x02, 0x00, 0x00, /* 020h */
    };
    return image;
}

/* The same of the MF RC530, whose profile has another byte at 16h. The check refuses this profile, 10 at 17h bit 0: the data sheet fixes all bits of
 * 17h at 0, and ships 3Bh there. With 00h at 17h it passes. */
static inline const uint8_t *mfrc531_shipped_image_rc530(void)
{
    static const uint8_t image[MFRC531_EEPROM_SIZE] = {
        0x30, 0x88, 0xFE, 0x03, 0x00, 0x00, 0x00, 0x00, 0x00, 0x00, 0x00, 0x00, 0x00, 0x00, 0x00, 0x00, /* 000h */
        0x00, 0x58, 0x3F, 0x3F, 0x19, 0x13, 0x00, 0x3B, 0x00, 0x73, 0x08, 0xAD, 0xFF, 0x1E, 0x41, 0x00, /* 010h */
        0x00, 0x06, 0x03, 0x63, 0x63, 0x00, 0x00, 0x00, 0x00, 0x08, 0x07, 0x06, 0x0A, 0x02, 0x00, 0x00, /* 020h */
    };
    return image;
}

/* ---- The chip ------------------------------------------------------------------------------------------------------------------------ */

/* The active command, and how far it is: its code in bits 5-0; bit 6 set where WriteE2 has its address or the chip sends, bit 7 where it
 * receives. A stage that is not listed is malformed. WriteE2 programs exactly while programming_left is above 0; its bit 6 means nothing then. */
enum mfrc531_stage {
    MFRC531_STAGE_IDLE = 0x00,
    MFRC531_STAGE_WRITE_E2 = 0x01, /* waits for its address */
    MFRC531_STAGE_READ_E2 = 0x03,
    MFRC531_STAGE_LOAD_CONFIG = 0x07,
    MFRC531_STAGE_LOAD_KEY_E2 = 0x0B,
    MFRC531_STAGE_CALC_CRC = 0x12,
    MFRC531_STAGE_LOAD_KEY = 0x19,
    MFRC531_STAGE_WRITE_E2_ADDRESSED = 0x41, /* waits for data */
    MFRC531_STAGE_TRANSMIT = 0x5A,
    MFRC531_STAGE_TRANSCEIVE_SENDING = 0x5E,
    MFRC531_STAGE_RECEIVE = 0x96,
    MFRC531_STAGE_TRANSCEIVE_RECEIVING = 0x9E
};

/* What stand_by and power_down are, each beside its bit of Control. 0: the mode is off, or waits where the bit is 1. MFRC531_MODE_HOLD: it has hold.
 * With clocks to go besides: it is being left. Malformed, for each by itself: the bit 1 without hold where there is no programming; hold where the bit
 * is 0; clocks to go without hold, or more than MFRC531_STAND_BY_CLOCKS or MFRC531_POWER_DOWN_CLOCKS of them. */
enum mfrc531_mode {
    MFRC531_MODE_HOLD = 0x8000,
    MFRC531_MODE_TO_GO = 0x7FFF /* a mask: clocks until the mode is left, 0 where it is not being left */
};

/* A chip's whole state. Begin with mfrc531_start, which takes any memory. Read it freely; what you write into it is judged by the next call.
 *
 * The reserved fields are for later requests, so that these move nothing: no call looks at them, and a start leaves them 0. */
typedef struct {
    uint32_t timer_phase;      /* clocks since the latest timer step; 0 while the timer stands */
    uint32_t programming_left; /* clocks until WriteE2's programming ends, not counting those in power modes; 0 where there is none */
    uint16_t crc_register;     /* the CRC register, before CRC3309 complements it */
    uint16_t next_address;     /* where WriteE2's next byte goes */
    uint16_t lost_sum;         /* what mfrc531_lost_sum answers; no value is malformed */
    uint16_t reserved_number;
    uint16_t stand_by;         /* StandBy, as enum mfrc531_mode has it */
    uint16_t power_down;       /* PowerDown, likewise */
    uint8_t page;                  /* Page */
    uint8_t control;               /* Control, of which bits 5 and 4 are kept, as they read */
    uint8_t key_loaded;            /* 1 where the key buffer holds a key, else 0 */
    uint8_t rx_last_bits;          /* RxLastBits of SecondaryStatus */
    uint8_t interrupt_en;          /* InterruptEn */
    uint8_t crc_mode;              /* ChannelRedundancy as the latest CalcCRC read it */
    uint8_t interrupt_rq;          /* InterruptRq */
    uint8_t error_flag;            /* ErrorFlag */
    uint8_t timer_running;         /* TRunning, 1 or 0 */
    uint8_t timer_prescaler;       /* TPreScaler as the timer's start read it; 0 while the timer stands */
    uint8_t latched;               /* while WriteE2 programs: how many bytes of the latch, which go right before next_address */
    uint8_t edition;               /* one of enum mfrc531_edition: that of the product type in eeprom */
    uint8_t stage;                 /* one of enum mfrc531_stage */
    uint8_t fifo_read, fifo_write; /* the FIFO's positions: slot = position % 64, held = write - read, wrapped to eight bits */
    uint8_t timer_value;           /* TimerValue */
    uint8_t bit_framing;           /* BitFraming */
    uint8_t reserved_17[7];
    uint8_t registers[32];         /* 10h-2Fh: register r is element r - 10h; those of the Page addresses are not used */
    uint8_t slots[64];             /* of the FIFO */
    uint8_t latch[16];             /* the bytes that WriteE2 programs */
    uint8_t key[6];                /* the key buffer, or zeros */
    uint8_t eeprom[512];
} mfrc531_chip;

#if defined(__cplusplus)
#define MFRC531_ASSERT(test, text) static_assert(test, text)
#else
#define MFRC531_ASSERT(test, text) _Static_assert(test, text)
#endif
#define MFRC531_AT(field, offset) MFRC531_ASSERT(offsetof(mfrc531_chip, field) == (offset), #field " lies where the library has it")
MFRC531_ASSERT(sizeof(mfrc531_chip) == 676, "a chip is as large as the library has it");
MFRC531_AT(timer_phase, 0);
MFRC531_AT(programming_left, 4);
MFRC531_AT(crc_register, 8);
MFRC531_AT(next_address, 10);
MFRC531_AT(lost_sum, 12);
MFRC531_AT(reserved_number, 14);
MFRC531_AT(stand_by, 16);
MFRC531_AT(power_down, 18);
MFRC531_AT(page, 20);
MFRC531_AT(control, 21);
MFRC531_AT(key_loaded, 22);
MFRC531_AT(rx_last_bits, 23);
MFRC531_AT(interrupt_en, 24);
MFRC531_AT(crc_mode, 25);
MFRC531_AT(interrupt_rq, 26);
MFRC531_AT(error_flag, 27);
MFRC531_AT(timer_running, 28);
MFRC531_AT(timer_prescaler, 29);
MFRC531_AT(latched, 30);
MFRC531_AT(edition, 31);
MFRC531_AT(stage, 32);
MFRC531_AT(fifo_read, 33);
MFRC531_AT(fifo_write, 34);
MFRC531_AT(timer_value, 35);
MFRC531_AT(bit_framing, 36);
MFRC531_AT(reserved_17, 37);
MFRC531_AT(registers, 44);
MFRC531_AT(slots, 76);
MFRC531_AT(latch, 140);
MFRC531_AT(key, 156);
MFRC531_AT(eeprom, 162);
#undef MFRC531_AT

/* ---- The six events ------------------------------------------------------------------------------------------------------------------ */

/* A start from an EEPROM image, whose first four bytes say the chip's edition. Judges no old chip: any memory becomes a chip, Idle, with Page 80h
 * and ErrorFlag 40h.
 * Refuses: 2 the image is not 512 bytes; 22 its first four bytes are no edition's, as those of an image of zeros. */
mfrc531_answer mfrc531_start(mfrc531_chip *chip, const uint8_t *image, size_t length);

/* A host read. Value: the register's byte. A read of FIFOData (02h) removes it from the FIFO; no other read changes anything.
 * Refuses: 7 the chip is malformed; 1 the address is above 63. */
mfrc531_answer mfrc531_read(mfrc531_chip *chip, uint8_t address);

/* A host write of a byte. The active command then does what it can with the bytes that wait. Lost: up to 125 where a write of Command (01h) makes
 * ReadE2 run, up to 64 where a write of its last argument to FIFOData (02h) does; by any other write of FIFOData up to 1, by any other write 0.
 * Refuses: 7 the chip is malformed; 1 the address is above 63. */
mfrc531_answer mfrc531_write(mfrc531_chip *chip, uint8_t address, uint8_t byte);

/* An advance by clocks of 13.56 MHz, for the timer and the EEPROM programming, or in a power mode for its leaving alone: the only call in which time
 * passes. n clocks are n times one clock, and cost no more than one does, but for the programmings that end, at most six, and leavings, at most two.
 * Refuses: 7 the chip is malformed. */
mfrc531_answer mfrc531_advance(mfrc531_chip *chip, uint32_t clocks);

/* A take of the frame that the chip sends, into a buffer; later bytes of the buffer stay. Value: the number of bytes written, at most 66. Last
 * bits: BitFraming (0Fh) bits 2-0.
 * Refuses: 7 the chip is malformed; 6 the buffer is under 66 bytes; 4 the chip does not send, holds no byte, or is in a power mode, also
 * while this is being left. */
mfrc531_answer mfrc531_take(mfrc531_chip *chip, uint8_t *buffer, size_t length);

/* A delivery of a frame that the chip receives: its bytes, a parity value (0 or 1) for each, and how many bits of the last byte count (0: all). Lost:
 * up to 64. A checksum that the chip drops is not offered to the FIFO, so it is not lost.
 * Refuses: 7 the chip is malformed; 5 no or over 64 bytes, another number of parity values, a parity value above 1, or last bits above 7;
 * 4 the chip does not receive, or is in a power mode, also while this is being left. */
mfrc531_answer mfrc531_deliver(mfrc531_chip *chip, const uint8_t *bytes, size_t length, const uint8_t *parities, size_t parity_length,
                               uint8_t last_bits);

/* ---- The sum of lost bytes ----------------------------------------------------------------------------------------------------------- */

/* The number of bytes lost since the latest flush (FlushFIFO, Control bit 0) or start, in bits 23-8: 65,535 stands for that many or more. Nothing
 * else sets it to 0, neither a take nor reads. FIFOOvfl is set exactly where it is above 0, but in a chip that you wrote into. The call changes
 * nothing, and takes no time.
 * Refuses: 7 the chip is malformed. */
mfrc531_answer mfrc531_lost_sum(const mfrc531_chip *chip);

/* ---- Profiles ------------------------------------------------------------------------------------------------------------------------ */

/* The check of a start-up profile, 32 bytes for 10h-2Fh, as that of an edition (enum mfrc531_edition). Refusals 10 to 13 name the register in bits
 * 15-8, and 10 the bit in bits 23-16.
 * Refuses: 9 the profile is not 32 bytes; 7 the number is no edition's. Else it names the lowest register that has a fault: 10 the edition's data
 * sheet fixes one of its bits at another value; 11 TPreScaler (2Ah) is above 21; 12 TStartTxBegin or TStartTxEnd is set, but TimerReload (2Ch) is 0;
 * 13 WaterLevel (29h) is above 31, so that LoAlert or HiAlert is on at every fill of the FIFO. Only the check judges these values: a start, a host
 * write and LoadConfig take them all. */
mfrc531_answer mfrc531_check_profile(uint8_t edition, const uint8_t *profile, size_t length);

/* The choice for a safe start, from two images of 512 bytes. Each profile (bytes 010h-02Fh) is checked as that of its own image's edition, and the
 * two may be of different ones; of an image that is no edition's it fails. Value: 1 the user's passes, 2 only the rescue's does.
 * Refuses: 2 an image is not 512 bytes; 8 both profiles fail. */
mfrc531_answer mfrc531_choose(const uint8_t *user, size_t user_length, const uint8_t *rescue, size_t rescue_length);

/* ---- Profile packs ------------------------------------------------------------------------------------------------------------------- */

/* A pack of n profiles, n from 0 to MFRC531_PACK_MOST_PROFILES, is MFRC531_PACK_SIZE(n) bytes. Its numbers are four bytes each, the low byte first.
 *
 *   at 32 i         body i, 32 bytes. No function judges it: profiles that fail the check can be packed
 *   at 32 n + 20 i  entry i of the index: name i, 16 bytes of any values; then the offset of body i, which is 32 i
 *   at 52 n         the trailer: the offset of the index, which is 32 n; then the number n; then the four bytes "RC53"
 *
 * The names are strictly ascending: each is above the one before it as memcmp compares them, so no two are equal. Bytes are a pack exactly if
 * mfrc531_pack_write writes them, all of them and no others, for some names and bodies. So a pack is passed with its own length, not with that of a
 * larger buffer in which it lies. */

/* Writes a pack of so many names and bodies, which stand one after the other and in the same order, into a buffer; later bytes of the buffer stay.
 * Number: the length of the pack.
 * Refuses, in this order: 16 there is no n with 16 n bytes of names and 32 n bytes of bodies; 17 this n is above 256; 18 the names are not strictly
 * ascending; 19 the buffer is shorter than the pack. */
mfrc531_answer mfrc531_pack_write(const uint8_t *names, size_t names_length, const uint8_t *bodies, size_t bodies_length, uint8_t *buffer,
                                  size_t length);

/* Judges whether bytes are a pack. Number: how many profiles it has, 0 to 256.
 * Refuses: 14 the bytes are no pack. */
mfrc531_answer mfrc531_pack_read(const uint8_t *pack, size_t length);

/* Finds a profile by its name. Number: the offset of its body in the pack, a multiple of 32.
 * Refuses: 14 the bytes are no pack; 15 no profile of the pack has the name. A name that is not 16 bytes is that of none. */
mfrc531_answer mfrc531_pack_find(const uint8_t *pack, size_t length, const uint8_t *name, size_t name_length);

/* Finds a profile by its name in bytes that mfrc531_pack_read has accepted, as mfrc531_pack_find does, but without judging them again. For any other
 * bytes it ends too, and reads nothing but what is lent to it; where a pack can have their length, its answer is that of the same search by halves
 * through the entries of such a pack.
 * Refuses: 15 no profile of the pack has the name, or no pack has this length. */
mfrc531_answer mfrc531_pack_find_checked(const uint8_t *pack, size_t length, const uint8_t *name, size_t name_length);

/* The number of profiles of a pack, by its length alone; 0 also where no pack has this length. */
static inline size_t mfrc531_pack_profiles(size_t length)
{
    size_t number = length / (MFRC531_PROFILE_SIZE + MFRC531_PACK_ENTRY_SIZE);
    return number <= MFRC531_PACK_MOST_PROFILES && length == MFRC531_PACK_SIZE(number) ? number : 0;
}

/* The 16 bytes of name i, and the 32 bytes of body i, of a pack that mfrc531_pack_read has accepted, i from 0 on; NULL where i is not below the number
 * of its profiles. */
static inline const uint8_t *mfrc531_pack_name(const uint8_t *pack, size_t length, size_t i)
{
    size_t number = mfrc531_pack_profiles(length);
    return i < number ? pack + MFRC531_PROFILE_SIZE * number + MFRC531_PACK_ENTRY_SIZE * i : NULL;
}
static inline const uint8_t *mfrc531_pack_body(const uint8_t *pack, size_t length, size_t i)
{
    return i < mfrc531_pack_profiles(length) ? pack + MFRC531_PROFILE_SIZE * i : NULL;
}

#ifdef __cplusplus
}
#endif
#endif
