/* The second bridge: the paper in plain C, freestanding, refusing in the paper's order. */
#include "second_bridge.h"

#include "second_bytes.h"
#include "second_page.h"
#include "second_store.h"

#include <string.h>

enum {
    SETUP_LENGTH = 8,
    MEMORY_MOST = 2048,
    WRITE_ALIGNMENT = 8,
    CONFIGURED = 2,
    SIGNATURE_ADDRESS = 0x04,
    SIGNATURE_AT_POWER_ON = 0x24,
    FIRST_WRITABLE = 2,
    TWO_DRIVES = 2
};

/* bmRequestType: USB 2.0, table 9-2. */
enum {
    TYPE_MASK = 0x60,
    TYPE_CLASS = 0x20,
    TYPE_VENDOR = 0x40,
    RECIPIENT_MASK = 0x1F,
    RECIPIENT_ENDPOINT = 0x02
};

/* The pair of type and code. */
enum {
    SET_CONFIGURATION = 0x0009,
    CLEAR_FEATURE = 0x0201,
    MASS_STORAGE_RESET = 0x21FF,
    LOAD_CONFIG_DATA = 0x4001,
    SOFT_RESET = 0x4003,
    GET_DESCRIPTOR = 0x8006,
    GET_CONFIGURATION = 0x8008,
    GET_STATUS = 0x8200,
    GET_MAX_LUN = 0xA1FE,
    BOGUS_READ = 0xC001,
    READ_CONFIG_DATA = 0xC002
};

enum {
    PLACE_CONFIGURATION = 0x0000,
    PLACE_MEMORY = 0x0002,
    ENDPOINT_OUT = 0x01,
    ENDPOINT_IN = 0x82
};

/* Descriptor types: USB 2.0, table 9-5. */
enum {
    TYPE_DEVICE = 1,
    TYPE_CONFIGURATION = 2,
    TYPE_STRING = 3,
    TYPE_QUALIFIER = 6
};

/* Where descriptors start in the memory, and the configuration byte that is string index 0's. */
enum {
    DEVICE_AT = 0x10,
    QUALIFIER_AT = 0x22,
    BUS_POWERED_CONFIGURATION_AT = 0x2C,
    CONFIGURATION_AT = 0x80,
    NOWHERE = 0xFFFF,
    FIRST_STRING_ADDRESS = 0x0E
};

enum {
    PACKET_LENGTH = 31,
    PACKET_TAG = 4,
    PACKET_TRANSFER_LENGTH = 8,
    PACKET_FLAGS = 12,
    PACKET_LUN = 13,
    PACKET_BLOCK_LENGTH = 14,
    PACKET_BLOCK = 15,
    FLAGS_IN = 0x80,
    STATUS_LENGTH = 13
};

#define PACKET_SIGNATURE UINT32_C(0x43425355)
#define STATUS_SIGNATURE UINT32_C(0x53425355)

enum {
    BLOCK_LENGTH = 16,
    BLOCK_ACTION = 2,
    BLOCK_SELECTED = 3,
    BLOCK_CONTENTS = 5,
    BLOCK_DEVICE = 11,
    SUBCOMMAND = 0x24,
    REGISTERS_READ = 8,
    REGISTERS_WRITTEN_FIRST = 6,
    MOST_OPERATIONS = 11
};

/* Source 001's names for the action bits. */
enum {
    TASK_FILE_READ = 0x01,
    DEVICE_SELECTION_OVERRIDE = 0x02,
    POLL_OVERRIDE = 0x04,
    PHASE_ERROR_OVERRIDE = 0x08,
    DEVICE_ERROR_OVERRIDE = 0x10,
    DEV_OVERRIDE = 0x20,
    UDMA = 0x40,
    IDENTIFY = 0x80,
    DEVICE_SELECTED = 0x40,
    COMMAND_SELECTED = 0x80,
    DEV_BIT = 0x10
};

/* What drives built to the early ATA standards expect to be one in the device register. */
enum {
    DEVICE_ONES = 0xA0
};

enum {
    OPERATION_POLL = 0x0100,
    OPERATION_SELECT = 0x0200,
    OPERATION_TRANSFER = 0x0300,
    OPERATION_WRITE = 0x1000,
    OPERATION_READ = 0x2000,
    NEXT_REGISTER = 0x0100,
    WRITE_COMMAND = OPERATION_WRITE + 7 * NEXT_REGISTER,
    READ_STATUS = OPERATION_READ + 7 * NEXT_REGISTER
};

/* As reports number them. */
enum {
    DIRECTION_NONE = 0,
    DIRECTION_IN = 1,
    DIRECTION_OUT = 2
};

enum {
    STATUS_FAILED = 1,
    STATUS_PHASE_ERROR = 2
};

struct request {
    uint16_t value;
    uint16_t index;
    uint16_t length;
    const uint8_t *host;
    size_t host_len;
    uint8_t *memory;
    uint32_t memory_size;
    uint8_t *reply;
    size_t reply_len;
};

static uint32_t handed_out(uint32_t count) {
    return SECOND_DONE | count << 8;
}

static bool stopped(const struct second_bridge *bridge) {
    return bridge->phase >= SECOND_STOPPED;
}

static void restart(struct second_bridge *bridge, uint8_t configuration) {
    bridge->configuration = configuration;
    bridge->phase = SECOND_AWAITING;
    bridge->halts = 0;
    bridge->held = 0;
}

/* The whole wIndex counts: 0x0182 names no pipe. */
static uint8_t named_pipe(uint16_t index) {
    if (index == ENDPOINT_OUT)
        return SECOND_HALT_OUT;
    return index == ENDPOINT_IN ? SECOND_HALT_IN : 0;
}

static uint8_t pipe_of(uint8_t direction) {
    return direction == DIRECTION_IN ? SECOND_HALT_IN : SECOND_HALT_OUT;
}

static bool needs_configuration(uint8_t type) {
    uint8_t kind = type & TYPE_MASK;
    return kind == TYPE_CLASS || kind == TYPE_VENDOR ||
           (type & RECIPIENT_MASK) == RECIPIENT_ENDPOINT;
}

static bool fields_are(const struct request *request, uint16_t value, uint16_t index,
                       uint16_t length) {
    return request->value == value && request->index == index && request->length == length;
}

static uint32_t reply_refusal(const struct request *request) {
    if (request->host_len != 0)
        return SECOND_HOST_DATA;
    return request->reply_len < request->length ? SECOND_REPLY_ROOM : SECOND_DONE;
}

/* Every reply is as long as wLength: the table fixes it, or hands out n bytes. */
static uint32_t reply_with(const struct request *request, const uint8_t *bytes) {
    uint32_t refusal = reply_refusal(request);
    if (refusal)
        return refusal;
    if (request->length != 0)
        memcpy(request->reply, bytes, request->length);
    return handed_out(request->length);
}

static uint32_t set_configuration(struct second_bridge *bridge, const struct request *request) {
    if (!fields_are(request, 0, 0, 0) && !fields_are(request, CONFIGURED, 0, 0))
        return SECOND_UNKNOWN_REQUEST;
    if (request->host_len != 0)
        return SECOND_HOST_DATA;
    restart(bridge, (uint8_t)request->value);
    return SECOND_DONE;
}

static uint32_t get_configuration(const struct second_bridge *bridge,
                                  const struct request *request) {
    if (!fields_are(request, 0, 0, 1))
        return SECOND_UNKNOWN_REQUEST;
    return reply_with(request, &bridge->configuration);
}

static uint32_t clear_feature(struct second_bridge *bridge, const struct request *request) {
    uint8_t pipe = named_pipe(request->index);
    if (request->value != 0 || pipe == 0 || request->length != 0)
        return SECOND_UNKNOWN_REQUEST;
    if (request->host_len != 0)
        return SECOND_HOST_DATA;
    if (bridge->phase == SECOND_STOPPED)
        return SECOND_DONE;
    bridge->halts &= (uint8_t)~pipe;
    if (bridge->phase == SECOND_STOPPED_RESET && bridge->halts == 0) {
        bridge->phase = SECOND_AWAITING;
        bridge->held = 0;
    }
    return SECOND_DONE;
}

static uint32_t get_status(const struct second_bridge *bridge, const struct request *request) {
    uint8_t pipe = named_pipe(request->index);
    if (request->value != 0 || pipe == 0 || request->length != 2)
        return SECOND_UNKNOWN_REQUEST;
    uint8_t halt[2] = {(bridge->halts & pipe) != 0, 0};
    return reply_with(request, halt);
}

static uint32_t get_max_lun(const struct second_bridge *bridge, const struct request *request) {
    uint8_t last_lun = bridge->last_lun;
    if (!fields_are(request, 0, 0, 1))
        return SECOND_UNKNOWN_REQUEST;
    return reply_with(request, &last_lun);
}

/* Mass Storage Reset, and SOFT_RESET, which has no effect on a stop. Both drop what is held, in a
 * stop too. */
static uint32_t reset_command(struct second_bridge *bridge, const struct request *request,
                              bool counts_in_a_stop) {
    if (!fields_are(request, 0, 0, 0))
        return SECOND_UNKNOWN_REQUEST;
    if (request->host_len != 0)
        return SECOND_HOST_DATA;
    bridge->held = 0;
    if (!stopped(bridge))
        bridge->phase = SECOND_AWAITING;
    else if (counts_in_a_stop)
        bridge->phase = SECOND_STOPPED_RESET;
    return SECOND_DONE;
}

static uint32_t find_place(struct second_bridge *bridge, const struct request *request,
                           uint8_t **found) {
    uint8_t *place = bridge->bytes;
    uint32_t size = SECOND_CONFIGURATION_BYTES;
    if (request->value == PLACE_MEMORY) {
        place = request->memory;
        size = request->memory_size;
        if (size == 0)
            return SECOND_NO_MEMORY;
    } else if (request->value != PLACE_CONFIGURATION) {
        return SECOND_UNKNOWN_PLACE;
    }
    if (request->index >= size || request->length > size - request->index)
        return SECOND_OUTSIDE;
    *found = place + request->index;
    return SECOND_DONE;
}

static uint32_t write_refusal(const struct second_bridge *bridge, const struct request *request) {
    if (request->value == PLACE_CONFIGURATION)
        return request->index < FIRST_WRITABLE ? SECOND_OUTSIDE : SECOND_DONE;
    if (request->index % WRITE_ALIGNMENT != 0)
        return SECOND_UNALIGNED;
    /* The last byte's page, not that of start + n: a write may end where a page does. */
    if ((request->index & bridge->page_mask) + request->length > bridge->page_mask + 1)
        return SECOND_PAGE_CROSSED;
    return SECOND_DONE;
}

static uint32_t load_config_data(struct second_bridge *bridge, const struct request *request) {
    uint8_t *place;
    uint32_t refusal = find_place(bridge, request, &place);
    if (!refusal)
        refusal = write_refusal(bridge, request);
    if (refusal)
        return refusal;
    if (request->host_len != request->length)
        return SECOND_HOST_DATA;
    if (request->length != 0)
        memcpy(place, request->host, request->length);
    return SECOND_DONE;
}

static uint32_t read_config_data(struct second_bridge *bridge, const struct request *request) {
    uint8_t *place;
    uint32_t refusal = find_place(bridge, request, &place);
    return refusal ? refusal : reply_with(request, place);
}

static uint32_t bogus_read(const struct request *request) {
    uint32_t refusal = reply_refusal(request);
    if (refusal)
        return refusal;
    if (request->length != 0)
        memset(request->reply, 0, request->length);
    return handed_out(request->length);
}

static uint32_t descriptor_start(const struct second_bridge *bridge, uint8_t type, uint8_t index) {
    if (type == TYPE_STRING)
        return 2U * (index == 0 ? bridge->bytes[FIRST_STRING_ADDRESS] : index);
    if (index != 0)
        return NOWHERE;
    switch (type) {
    case TYPE_DEVICE:
        return DEVICE_AT;
    case TYPE_QUALIFIER:
        return QUALIFIER_AT;
    case TYPE_CONFIGURATION:
        return bridge->bus_powered ? BUS_POWERED_CONFIGURATION_AT : CONFIGURATION_AT;
    default:
        return NOWHERE;
    }
}

/* The reply stays where it is, in the memory; so there is no room to run short of. */
static uint64_t get_descriptor(const struct second_bridge *bridge, const struct request *request) {
    uint32_t size = request->memory_size;
    if (size == 0)
        return SECOND_NO_MEMORY;
    uint8_t type = (uint8_t)(request->value >> 8);
    uint32_t start = descriptor_start(bridge, type, (uint8_t)request->value);
    if (start == NOWHERE)
        return SECOND_NO_DESCRIPTOR;
    uint32_t head = type == TYPE_CONFIGURATION ? 4 : 2;
    if (start + head > size)
        return SECOND_DESCRIPTOR_CUT;
    const uint8_t *descriptor = request->memory + start;
    uint32_t length = type == TYPE_CONFIGURATION ? load16(descriptor + 2) : descriptor[0];
    if (descriptor[1] != type || length < head)
        return SECOND_NO_DESCRIPTOR;
    if (start + length > size)
        return SECOND_DESCRIPTOR_CUT;
    if (request->host_len != 0)
        return SECOND_HOST_DATA;
    uint64_t in_memory = (uint64_t)1 << 48 | (uint64_t)start << 32;
    return in_memory | handed_out(length < request->length ? length : request->length);
}

static uint64_t serve(struct second_bridge *bridge, unsigned pair, const struct request *request) {
    switch (pair) {
    case SET_CONFIGURATION:
        return set_configuration(bridge, request);
    case GET_CONFIGURATION:
        return get_configuration(bridge, request);
    case GET_DESCRIPTOR:
        return get_descriptor(bridge, request);
    case CLEAR_FEATURE:
        return clear_feature(bridge, request);
    case GET_STATUS:
        return get_status(bridge, request);
    case GET_MAX_LUN:
        return get_max_lun(bridge, request);
    case MASS_STORAGE_RESET:
        return reset_command(bridge, request, true);
    case LOAD_CONFIG_DATA:
        return load_config_data(bridge, request);
    case READ_CONFIG_DATA:
        return read_config_data(bridge, request);
    case SOFT_RESET:
        return reset_command(bridge, request, false);
    case BOGUS_READ:
        return bogus_read(request);
    default:
        return SECOND_UNKNOWN_REQUEST;
    }
}

uint64_t second_control(struct second_bridge *bridge, const uint8_t *setup, size_t setup_len,
                        const uint8_t *host, size_t host_len, uint8_t *memory, size_t memory_len,
                        uint8_t *reply, size_t reply_len) {
    if (setup_len != SETUP_LENGTH)
        return SECOND_SETUP_LENGTH;
    if (bridge->configuration == 0 && needs_configuration(setup[0]))
        return SECOND_UNCONFIGURED;
    const struct request request = {
        .value = load16(setup + 2),
        .index = load16(setup + 4),
        .length = load16(setup + 6),
        .host = host,
        .host_len = host_len,
        .memory = memory,
        .memory_size = memory_len < MEMORY_MOST ? (uint32_t)memory_len : MEMORY_MOST,
        .reply = reply,
        .reply_len = reply_len,
    };
    return serve(bridge, (unsigned)setup[0] << 8 | setup[1], &request);
}

static uint32_t stop(struct second_bridge *bridge, uint32_t answer) {
    bridge->halts = SECOND_HALT_OUT | SECOND_HALT_IN;
    bridge->phase = SECOND_STOPPED;
    return answer;
}

static uint8_t host_direction(uint8_t flags, uint32_t length) {
    if (length == 0)
        return DIRECTION_NONE;
    return flags == FLAGS_IN ? DIRECTION_IN : DIRECTION_OUT;
}

/* The whole LUN byte counts: 0x10 and 0x11 name no drive. */
static bool meaningful(const struct second_bridge *bridge, const uint8_t *packet) {
    return (packet[PACKET_FLAGS] & ~FLAGS_IN) == 0 && packet[PACKET_LUN] <= bridge->last_lun &&
           packet[PACKET_BLOCK_LENGTH] >= 1 && packet[PACKET_BLOCK_LENGTH] <= BLOCK_LENGTH;
}

static bool recognised(const uint8_t *block, uint8_t block_length, uint8_t signature,
                       uint32_t length, uint8_t direction) {
    if (block_length != BLOCK_LENGTH || block[0] != signature || block[1] != SUBCOMMAND)
        return false;
    if ((block[13] | block[14] | block[15]) != 0)
        return false;
    uint8_t action = block[BLOCK_ACTION];
    if (!(action & TASK_FILE_READ))
        return true;
    return !(action & (PHASE_ERROR_OVERRIDE | DEVICE_ERROR_OVERRIDE)) && length == REGISTERS_READ &&
           direction == DIRECTION_IN;
}

/* The drive is the LUN's, unless the block overrides it. */
static uint16_t select_operation(const uint8_t *block, uint8_t lun) {
    uint8_t device = block[BLOCK_SELECTED] & DEVICE_SELECTED ? block[BLOCK_DEVICE] : DEVICE_ONES;
    uint8_t dev =
        block[BLOCK_ACTION] & DEV_OVERRIDE ? block[BLOCK_DEVICE] & DEV_BIT : lun * DEV_BIT;
    return (uint16_t)(OPERATION_SELECT | (device & ~DEV_BIT) | dev);
}

static uint16_t transfer_operation(uint8_t action, uint8_t direction) {
    return (uint16_t)(OPERATION_TRANSFER | (direction == DIRECTION_IN ? 1 : 0) |
                      (action & UDMA ? 2 : 0) | (action & DEVICE_ERROR_OVERRIDE ? 4 : 0) |
                      (action & PHASE_ERROR_OVERRIDE ? 8 : 0) | (action & IDENTIFY ? 16 : 0));
}

/* Writes into a row with room for eleven and returns the end of what it wrote. */
static uint16_t *plan(const uint8_t *restrict block, uint8_t lun, uint8_t direction,
                      uint16_t *restrict row) {
    uint8_t action = block[BLOCK_ACTION];
    uint8_t selected = block[BLOCK_SELECTED];
    if (!(action & POLL_OVERRIDE))
        *row++ = OPERATION_POLL;
    if (action & TASK_FILE_READ) {
        *row++ = select_operation(block, lun);
        for (unsigned r = 0; r < REGISTERS_READ; r++)
            if (selected >> r & 1)
                *row++ = (uint16_t)(OPERATION_READ + r * NEXT_REGISTER);
        return row;
    }
    for (unsigned r = 0; r < REGISTERS_WRITTEN_FIRST; r++)
        if (selected >> r & 1)
            *row++ = (uint16_t)(OPERATION_WRITE + r * NEXT_REGISTER + block[BLOCK_CONTENTS + r]);
    if (!(action & DEVICE_SELECTION_OVERRIDE))
        *row++ = select_operation(block, lun);
    if (selected & COMMAND_SELECTED)
        *row++ = (uint16_t)(WRITE_COMMAND + block[BLOCK_CONTENTS + 7]);
    if (action & DEVICE_SELECTION_OVERRIDE)
        *row++ = select_operation(block, lun);
    if (direction != DIRECTION_NONE)
        *row++ = transfer_operation(action, direction);
    *row++ = READ_STATUS;
    return row;
}

/* Returns how many it handed out, 0 where they do not fit. In a row that may be too short the plan
 * is made aside, so that a refusal leaves the row alone. */
static size_t hand_out_plan(const uint8_t *block, uint8_t lun, uint8_t direction,
                            uint16_t *operations, size_t operations_len) {
    uint16_t aside[MOST_OPERATIONS];
    uint16_t *row = operations_len < MOST_OPERATIONS ? aside : operations;
    size_t count = (size_t)(plan(block, lun, direction, row) - row);
    if (row == operations)
        return count;
    if (count > operations_len)
        return 0;
    memcpy(operations, aside, count * sizeof *aside);
    return count;
}

static uint32_t await_status(struct second_bridge *bridge, uint32_t residue, uint8_t status) {
    bridge->residue = residue;
    bridge->status = status;
    bridge->phase = SECOND_STATUS_WAITING;
    return SECOND_DONE;
}

/* A meaningful packet that the bridge awaits. */
static uint32_t take_command(struct second_bridge *bridge, const uint8_t *packet,
                             uint16_t *operations, size_t operations_len) {
    const uint8_t *block = packet + PACKET_BLOCK;
    uint32_t tag = load32(packet + PACKET_TAG);
    uint32_t length = load32(packet + PACKET_TRANSFER_LENGTH);
    uint8_t direction = host_direction(packet[PACKET_FLAGS], length);
    if (!recognised(block, packet[PACKET_BLOCK_LENGTH], bridge->bytes[SIGNATURE_ADDRESS], length,
                    direction)) {
        bridge->tag = tag;
        if (length != 0)
            bridge->halts |= pipe_of(direction);
        return await_status(bridge, length, STATUS_FAILED);
    }
    uint8_t lun = packet[PACKET_LUN];
    size_t count = hand_out_plan(block, lun, direction, operations, operations_len);
    if (count == 0)
        return SECOND_OPERATION_ROOM;
    bridge->tag = tag;
    bridge->residue = length;
    bridge->busy.direction = direction;
    bridge->busy.lun = lun;
    bridge->phase = SECOND_BUSY;
    return handed_out((uint32_t)count);
}

/* A packet, whole or put together of bursts. */
static uint32_t take_packet(struct second_bridge *bridge, const uint8_t *packet, size_t packet_len,
                            uint16_t *operations, size_t operations_len) {
    if (bridge->configuration == 0)
        return SECOND_UNCONFIGURED;
    if (stopped(bridge) || bridge->halts & SECOND_HALT_OUT)
        return SECOND_HALTED;
    if (bridge->phase != SECOND_AWAITING)
        return SECOND_WRONG_PHASE;
    if (packet_len != PACKET_LENGTH || load32(packet) != PACKET_SIGNATURE)
        return stop(bridge, SECOND_PACKET_NOT_VALID);
    if (!meaningful(bridge, packet))
        return stop(bridge, SECOND_PACKET_NOT_MEANINGFUL);
    return take_command(bridge, packet, operations, operations_len);
}

uint32_t second_packet(struct second_bridge *bridge, const uint8_t *packet, size_t packet_len,
                       uint16_t *operations, size_t operations_len) {
    bridge->held = 0;
    return take_packet(bridge, packet, packet_len, operations, operations_len);
}

uint32_t second_burst(struct second_bridge *bridge, const uint8_t *burst, size_t burst_len) {
    uint8_t held = bridge->held;
    if (held > SECOND_HELD_MOST || burst_len > (size_t)(SECOND_HELD_MOST - held)) {
        bridge->held = SECOND_HELD_TOO_LONG;
        return SECOND_DONE;
    }
    if (burst_len != 0)
        memcpy(bridge->fragments + held, burst, burst_len);
    bridge->held = (uint8_t)(held + burst_len);
    return SECOND_DONE;
}

uint32_t second_end_mark(struct second_bridge *bridge, uint16_t *operations,
                         size_t operations_len) {
    uint8_t held = bridge->held;
    bridge->held = 0;
    return take_packet(bridge, bridge->fragments, held, operations, operations_len);
}

uint32_t second_report(struct second_bridge *bridge, uint8_t direction, uint8_t failed,
                       uint32_t amount) {
    if (bridge->configuration == 0)
        return SECOND_UNCONFIGURED;
    if (bridge->phase != SECOND_BUSY)
        return SECOND_WRONG_PHASE;
    if (direction > DIRECTION_OUT || failed > 1 || (direction == DIRECTION_NONE && amount != 0))
        return SECOND_REPORT_MALFORMED;
    uint32_t length = bridge->residue;
    bool disagrees = amount > length || (amount != 0 && direction != bridge->busy.direction);
    if (length != 0 && (disagrees || amount < length))
        bridge->halts |= pipe_of(bridge->busy.direction);
    if (disagrees)
        return await_status(bridge, length, STATUS_PHASE_ERROR);
    return await_status(bridge, length - amount, failed);
}

uint32_t second_status(struct second_bridge *bridge, uint8_t *reply, size_t reply_len) {
    if (bridge->configuration == 0)
        return SECOND_UNCONFIGURED;
    if (stopped(bridge) || bridge->halts & SECOND_HALT_IN)
        return SECOND_HALTED;
    if (bridge->phase != SECOND_STATUS_WAITING)
        return SECOND_WRONG_PHASE;
    if (reply_len < STATUS_LENGTH)
        return SECOND_REPLY_ROOM;
    store32(reply, STATUS_SIGNATURE);
    store32(reply + 4, bridge->tag);
    store32(reply + 8, bridge->residue);
    reply[12] = bridge->status;
    bridge->phase = SECOND_AWAITING;
    return handed_out(STATUS_LENGTH);
}

uint32_t second_power_on(struct second_bridge *bridge, bool bus_powered, uint32_t page,
                         uint32_t drives) {
    memset(bridge, 0, sizeof *bridge);
    bridge->bus_powered = bus_powered;
    bridge->last_lun = drives == TWO_DRIVES;
    bridge->page_mask = (uint8_t)(second_page(page) - 1);
    bridge->bytes[SIGNATURE_ADDRESS] = SIGNATURE_AT_POWER_ON;
    return SECOND_DONE;
}

uint32_t second_power_on_with_store(struct second_bridge *bridge, bool bus_powered, uint32_t page,
                                    uint32_t drives, const uint8_t *store, size_t store_len) {
    struct second_settings settings;
    uint8_t refusal = second_read_store(store, store_len, &settings);
    second_power_on(bridge, bus_powered, refusal ? page : settings.page, drives);
    if (!refusal)
        memcpy(bridge->bytes + FIRST_WRITABLE, settings.bytes, sizeof settings.bytes);
    return refusal;
}

uint32_t second_bus_reset(struct second_bridge *bridge) {
    restart(bridge, 0);
    return SECOND_DONE;
}

uint8_t second_phase(const struct second_bridge *bridge) {
    return bridge->phase;
}

uint8_t second_lun(const struct second_bridge *bridge) {
    return bridge->phase == SECOND_BUSY ? bridge->busy.lun : SECOND_NO_LUN;
}

uint8_t second_configuration(const struct second_bridge *bridge) {
    return bridge->configuration;
}

uint8_t second_halts(const struct second_bridge *bridge) {
    return bridge->halts;
}

uint8_t second_held(const struct second_bridge *bridge) {
    return bridge->held;
}
