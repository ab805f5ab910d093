/* thrandue.h: the proved logic of a USB-to-ATA drive dock's bridge, for firmware to link:
 * libthrandue.a. */
#ifndef THRANDUE_H
#define THRANDUE_H

#include <stdbool.h>
#include <stddef.h>
#include <stdint.h>

#ifdef __cplusplus
extern "C" {
#endif

/* The state of a bridge, as an image that the caller keeps and hands over by its address.
 * A power-on makes it, and only the calls below write it. Any bytes stand for some state, and two
 * images of one state may differ: what a finished command held stays in them until the next, and so
 * do the bytes of a packet that was judged or dropped. */
typedef struct thrandue_image {
    uint8_t bytes[62];
} thrandue_image;

/* The caller answers for this: pointers are valid for their type or their length, and do not
 * overlap; the same memory is lent at every thrandue_control, and nobody else writes it; one call
 * at a time. A slice of length 0 may be NULL. Any length and content of every slice, any number and
 * any image gets an answer. */

/* Every event returns an outcome: the answer in the low byte, and above it how many reply bytes or
 * operations were handed out. They stand at the front of the lent room, and the rest of the room is
 * unchanged. Any answer but THRANDUE_DONE hands out nothing and changes no lent byte and no byte of
 * the image, save the two for a damaged packet, which stop the bridge, and save that a packet and
 * an end mark drop what is held, whatever their answer. */
static inline uint8_t thrandue_answer(uint64_t outcome) {
    return (uint8_t)(outcome & 0xFF);
}

static inline uint32_t thrandue_count(uint64_t outcome) {
    return (uint32_t)(outcome >> 8 & 0xFFFFFF);
}

/* The reply to Get Descriptor is a part of the lent memory itself, and the reply buffer is then
 * unchanged: a port sends it from the memory, with no copy, before the next call that may write
 * there. So a control request's outcome has 32 bits more, which tell where its reply stands: bit 48
 * is set for the memory, and bits 32 to 47 are then its start there. This is where the first of
 * thrandue_count bytes is, whichever it is, of the two that were lent. */
static inline const uint8_t *thrandue_reply(uint64_t outcome, const uint8_t *memory,
                                            const uint8_t *reply) {
    return outcome >> 48 != 0 ? memory + (outcome >> 32 & 0xFFFF) : reply;
}

/* The answers, and what a port does on the wire. For DONE it sends the reply of a control request
 * or the status packet, or has the drive carry out the operations. A control request with any other
 * answer gets STALL. An empty place below is an answer that the event does not get:
 *
 *                     bulk out          bulk in          drive report
 *   REPLY_ROOM                          NAK, more room
 *   UNCONFIGURED      no handshake      no handshake     dropped
 *   HALTED            STALL             STALL
 *   NOT_VALID         STALL, both
 *   NOT_MEANINGFUL    STALL, both
 *   OPERATION_ROOM    NAK, more room
 *   WRONG_PHASE       NAK               NAK              dropped
 *   MALFORMED                                            set right
 *
 * At configuration 0 there are no bulk endpoints, so no handshake. After NAK the same packet or
 * status request comes again: from the host, or from the port as soon as it lends more room; of a
 * packet in bursts all of it, since its end mark has dropped it. A report is dropped where a reset
 * has ended its command; one that is set right is made again.
 *
 * Whatever the answer was, a pipe that thrandue_halts names gets STALL until it is cleared. In a
 * stop, phase STOPPED or STOPPED_RESET, both pipes get it, also one that is cleared already: the
 * stop is over when both are. These are the pipes whose events are answered HALTED, so a port may
 * go by either.
 *
 * No event gets the last seven: CUT_RECORD to NO_RECORD come from thrandue_power_on_with_store
 * alone, and SHORT_IMAGE, CHANGE_ROOM and RECORD_ROOM from the service library alone (service.h,
 * which gives the four too). */
enum {
    THRANDUE_DONE = 0,
    THRANDUE_SETUP_LENGTH = 1,
    THRANDUE_HOST_DATA = 2,
    THRANDUE_REPLY_ROOM = 3,
    THRANDUE_UNCONFIGURED = 4,
    THRANDUE_NOT_IN_TABLE = 5,
    THRANDUE_NO_PLACE = 6,
    THRANDUE_NONE_FITTED = 7,
    THRANDUE_OUTSIDE = 8,
    THRANDUE_NOT_AT_EIGHT = 9,
    THRANDUE_CROSSES_PAGE = 10,
    THRANDUE_HALTED = 11,
    THRANDUE_NOT_VALID = 13,
    THRANDUE_NOT_MEANINGFUL = 14,
    THRANDUE_OPERATION_ROOM = 15,
    THRANDUE_WRONG_PHASE = 16,
    THRANDUE_MALFORMED = 17,
    THRANDUE_NO_DESCRIPTOR = 18,
    THRANDUE_PAST_MEMORY = 19,
    THRANDUE_CUT_RECORD = 20,
    THRANDUE_UNKNOWN_KIND = 21,
    THRANDUE_PAYLOAD_LENGTH = 22,
    THRANDUE_NO_RECORD = 23,
    THRANDUE_SHORT_IMAGE = 24,
    THRANDUE_CHANGE_ROOM = 25,
    THRANDUE_RECORD_ROOM = 29
};

/* The image becomes that of a bridge at power-on, whatever it held, in a dock that is bus powered
 * or not and whose memory part has pages of 32, 64, 128 or 256 bytes; another number is taken as
 * 32, the safe one. A memory write that crosses a page of that size is answered CROSSES_PAGE. The
 * dock holds two drives where `drives` is 2, and one where it is any other number: Get Max LUN
 * replies 1 or 0, and a packet for a LUN above that is answered NOT_MEANINGFUL. Answers DONE. */
uint32_t thrandue_power_on(thrandue_image *image, bool bus_powered, uint32_t page, uint32_t drives);

/* As thrandue_power_on, with the settings of a store, and this is the only way by which settings
 * reach the bridge. A store is a run of records, each its payload's length (2 bytes, low first),
 * its kind (2, low first) and its payload, and the last one is the settings: fourteen bytes, and in
 * kind 0x0102 one more, the page size divided by 32, where any other byte reads as 32; kind 0x0101
 * reads as 256. Where the answer is DONE, the fourteen stand at configuration addresses 2 to F, and
 * the page size replaces the number given here. Any other answer refuses the store, and the image
 * is that of thrandue_power_on: a store that is refused leaves the defaults, and the number given.
 * It is judged record by record from the front, in this order within a record, and the first
 * refusal found is answered, whatever follows:
 *
 *   CUT_RECORD        the store ends within the record
 *   UNKNOWN_KIND      neither 0x0101 nor 0x0102
 *   PAYLOAD_LENGTH    not the 14 bytes of 0x0101, or the 15 of 0x0102
 *   NO_RECORD         the store is empty */
uint32_t thrandue_power_on_with_store(thrandue_image *image, bool bus_powered, uint32_t page,
                                      uint32_t drives, const uint8_t *store, size_t store_len);

/* Configuration 0, awaiting a command, no halts; the configuration bytes and the memory stay.
 * Answers DONE. */
uint32_t thrandue_bus_reset(thrandue_image *image);

/* A control request: its setup bytes, the data that the host sent with it, and room for the reply.
 * A legal write changes exactly its addressed bytes, of the configuration or of the memory. */
uint64_t thrandue_control(thrandue_image *image, const uint8_t *setup, size_t setup_len,
                          const uint8_t *host, size_t host_len, uint8_t *memory, size_t memory_len,
                          uint8_t *reply, size_t reply_len);

/* A command packet on the bulk-out pipe: hands out the register operations of its block, each the
 * kind in the high byte and the operand in the low byte. Eleven are always enough room. */
uint32_t thrandue_packet(thrandue_image *image, const uint8_t *packet, size_t packet_len,
                         uint16_t *operations, size_t operations_len);

/* A command packet that a front end hands over in bursts, and then an end mark. A burst is any
 * number of bytes, none or more than a packet's too, and is held behind those before it; it answers
 * DONE in every phase. The end mark judges what is held, as thrandue_packet judges a whole packet,
 * and hands out its operations. What is held is dropped by every end mark and every whole packet,
 * whatever its answer; by a bus reset; by a Mass Storage Reset, SOFT_RESET or Set Configuration
 * that is done; by the Clear Feature that ends a stop; and by nothing else. */
uint32_t thrandue_burst(thrandue_image *image, const uint8_t *burst, size_t burst_len);
uint32_t thrandue_end_mark(thrandue_image *image, uint16_t *operations, size_t operations_len);

/* The drive is done with the operations: direction 0 none, 1 in, 2 out; failed 0 or 1; the amount
 * of bytes that it moved. */
uint32_t thrandue_report(thrandue_image *image, uint8_t direction, uint8_t failed, uint32_t amount);

/* A status request on the bulk-in pipe: hands out the status packet of 13 bytes. */
uint32_t thrandue_status(thrandue_image *image, uint8_t *reply, size_t reply_len);

/* What the image says. The phase: */
enum {
    THRANDUE_AWAITING = 0,
    THRANDUE_BUSY = 1,
    THRANDUE_STATUS_WAITING = 2,
    THRANDUE_STOPPED = 3,
    THRANDUE_STOPPED_RESET = 4 /* stopped, and a Mass Storage Reset has come */
};
uint8_t thrandue_phase(const thrandue_image *image);

/* The LUN that the bridge is busy with, 0 or 1: the drive that is to carry out the operations, for
 * a port that drives two cables. In any other phase there is none. */
enum {
    THRANDUE_NO_LUN = 0xFF
};
uint8_t thrandue_lun(const thrandue_image *image);

/* The USB configuration: 0 or 2. */
uint8_t thrandue_configuration(const thrandue_image *image);

/* The halted bulk pipes, a bit each. */
enum {
    THRANDUE_HALT_OUT = 0x01,
    THRANDUE_HALT_IN = 0x02
};
uint8_t thrandue_halts(const thrandue_image *image);

/* How many bytes of a packet in bursts are held: 0 to 31, or that more than a packet's came. */
enum {
    THRANDUE_HELD_TOO_LONG = 32
};
uint8_t thrandue_held(const thrandue_image *image);

#ifdef __cplusplus
}
#endif

#endif
