/* The bridge that is measured: the proved one or, where MEASURES_SECOND is defined, the second. */
#include "measured.h"

#include "layout.h"
#include "plain_copy.h"

#ifdef MEASURES_SECOND
#include "second_bridge.h"
#define BRIDGE(call) second_##call
typedef struct second_bridge bridge_state;
#else
#include "thrandue.h"
#define BRIDGE(call) thrandue_##call
typedef thrandue_image bridge_state;
#endif

enum {
    LINE = 64,
    MEMORY = 2048,
    MEMORY_PAGE = 256,
    REPLY = 4096,
    OPERATIONS = 11
};

static struct {
    _Alignas(MEASURED_PAGE) bridge_state state;
    _Alignas(LINE) uint8_t memory[MEMORY];
    _Alignas(LINE) uint16_t operations[OPERATIONS];
    _Alignas(LINE) uint8_t reply[REPLY];
} lent;

const size_t measured_state_size = sizeof lent.state;
const size_t measured_memory_size = sizeof lent.memory;

void measured_power_on(uint32_t drives) {
    BRIDGE(power_on)(&lent.state, false, MEMORY_PAGE, drives);
}

uint64_t measured_event(const struct record *record) {
    const uint8_t *payload = record->payload;
    size_t setup = record->length < SETUP_LENGTH ? record->length : SETUP_LENGTH;
    switch (record->kind) {
    case RECORD_BUS_RESET:
        return BRIDGE(bus_reset)(&lent.state);
    case RECORD_CONTROL:
        return BRIDGE(control)(&lent.state, payload, setup, payload + setup, record->length - setup,
                               lent.memory, sizeof lent.memory, lent.reply, sizeof lent.reply);
    case RECORD_PACKET:
        return BRIDGE(packet)(&lent.state, payload, record->length, lent.operations, OPERATIONS);
    case RECORD_BURST:
        return BRIDGE(burst)(&lent.state, payload, record->length);
    case RECORD_END_MARK:
        return BRIDGE(end_mark)(&lent.state, lent.operations, OPERATIONS);
    case RECORD_REPORT:
        return BRIDGE(report)(&lent.state, payload[0], payload[1], record_load(payload + 2, 4));
    default:
        return BRIDGE(status)(&lent.state, lent.reply, sizeof lent.reply);
    }
}

void measured_copies(size_t times, size_t bytes) {
    while (times-- > 0)
        plain_copy(lent.reply, lent.memory, bytes);
}
