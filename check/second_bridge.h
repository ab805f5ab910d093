/* The second bridge: the paper read by hand into plain C, the other side of every comparison. */
#ifndef SECOND_BRIDGE_H
#define SECOND_BRIDGE_H

#include <stdbool.h>
#include <stddef.h>
#include <stdint.h>

/* The answer numbers. */
enum {
    SECOND_DONE = 0,
    SECOND_SETUP_LENGTH = 1,
    SECOND_HOST_DATA = 2,
    SECOND_REPLY_ROOM = 3,
    SECOND_UNCONFIGURED = 4,
    SECOND_UNKNOWN_REQUEST = 5,
    SECOND_UNKNOWN_PLACE = 6,
    SECOND_NO_MEMORY = 7,
    SECOND_OUTSIDE = 8,
    SECOND_UNALIGNED = 9,
    SECOND_PAGE_CROSSED = 10,
    SECOND_HALTED = 11,
    SECOND_PACKET_NOT_VALID = 13,
    SECOND_PACKET_NOT_MEANINGFUL = 14,
    SECOND_OPERATION_ROOM = 15,
    SECOND_WRONG_PHASE = 16,
    SECOND_REPORT_MALFORMED = 17,
    SECOND_NO_DESCRIPTOR = 18,
    SECOND_DESCRIPTOR_CUT = 19,
    SECOND_RECORD_CUT = 20,
    SECOND_UNKNOWN_KIND = 21,
    SECOND_PAYLOAD_LENGTH = 22,
    SECOND_NO_RECORD = 23,
    SECOND_IMAGE_SHORT = 24,
    SECOND_CHANGE_ROOM = 25,
    SECOND_RECORD_ROOM = 29
};

/* What second_phase hands out. */
enum {
    SECOND_AWAITING = 0,
    SECOND_BUSY = 1,
    SECOND_STATUS_WAITING = 2,
    SECOND_STOPPED = 3,
    SECOND_STOPPED_RESET = 4
};

/* What second_halts hands out, a bit each. */
enum {
    SECOND_HALT_OUT = 0x01,
    SECOND_HALT_IN = 0x02
};

/* What second_lun hands out in every phase but busy. */
enum {
    SECOND_NO_LUN = 0xFF
};

/* What second_held hands out: so many bytes, or that more than a packet's came. */
enum {
    SECOND_HELD_MOST = 31,
    SECOND_HELD_TOO_LONG = 32
};

enum {
    SECOND_CONFIGURATION_BYTES = 16
};

/* Callers provide the room and leave the fields to the calls below. */
struct second_bridge {
    uint32_t tag;     /* busy, status waiting */
    uint32_t residue; /* status waiting; while busy L, of which nothing has moved yet */
    union {
        struct {
            uint8_t direction : 4; /* as reports number it */
            uint8_t lun : 4;
        } busy;
        uint8_t status; /* status waiting */
    };
    uint8_t phase;
    uint8_t halts;
    uint8_t configuration;
    uint8_t last_lun : 1; /* fixed at power-on, and so are the next two; 1 with two drives */
    uint8_t bus_powered : 1;
    uint8_t page_mask; /* the page size less one: the bits of an address inside its page */
    uint8_t bytes[SECOND_CONFIGURATION_BYTES];
    uint8_t held; /* how much has come in bursts since the last packet */
    uint8_t fragments[SECOND_HELD_MOST];
};

/* Every event's outcome: the answer in the low byte, above it the count of reply bytes or
 * operations handed out. A control request's has 32 bits more: bit 48 is set where the reply is a
 * part of the lent memory, and bits 32 to 47 are then its start there. A slice of length 0 may be
 * NULL. */
uint32_t second_power_on(struct second_bridge *bridge, bool bus_powered, uint32_t page,
                         uint32_t drives);
uint32_t second_power_on_with_store(struct second_bridge *bridge, bool bus_powered, uint32_t page,
                                    uint32_t drives, const uint8_t *store, size_t store_len);
uint32_t second_bus_reset(struct second_bridge *bridge);
uint64_t second_control(struct second_bridge *bridge, const uint8_t *setup, size_t setup_len,
                        const uint8_t *host, size_t host_len, uint8_t *memory, size_t memory_len,
                        uint8_t *reply, size_t reply_len);
uint32_t second_packet(struct second_bridge *bridge, const uint8_t *packet, size_t packet_len,
                       uint16_t *operations, size_t operations_len);
uint32_t second_burst(struct second_bridge *bridge, const uint8_t *burst, size_t burst_len);
uint32_t second_end_mark(struct second_bridge *bridge, uint16_t *operations, size_t operations_len);
uint32_t second_report(struct second_bridge *bridge, uint8_t direction, uint8_t failed,
                       uint32_t amount);
uint32_t second_status(struct second_bridge *bridge, uint8_t *reply, size_t reply_len);

uint8_t second_phase(const struct second_bridge *bridge);
uint8_t second_lun(const struct second_bridge *bridge);
uint8_t second_configuration(const struct second_bridge *bridge);
uint8_t second_halts(const struct second_bridge *bridge);
uint8_t second_held(const struct second_bridge *bridge);

#endif
