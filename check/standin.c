/* The calls of thrandue.h by the second bridge: a program links the two in place of the archive.
 * The image is the second bridge's own state, and not laid out as the archive's. */
#include "second_bridge.h"
#include "thrandue.h"

#include <string.h>

_Static_assert(offsetof(struct second_bridge, fragments) + SECOND_HELD_MOST ==
                   sizeof(thrandue_image),
               "an image holds a second bridge, up to its last byte");

static struct second_bridge load(const thrandue_image *image) {
    struct second_bridge bridge;
    memcpy(&bridge, image, sizeof *image);
    return bridge;
}

static uint64_t store(thrandue_image *image, const struct second_bridge *bridge, uint64_t outcome) {
    memcpy(image, bridge, sizeof *image);
    return outcome;
}

uint32_t thrandue_power_on(thrandue_image *image, bool bus_powered, uint32_t page,
                           uint32_t drives) {
    struct second_bridge bridge = load(image);
    return store(image, &bridge, second_power_on(&bridge, bus_powered, page, drives));
}

uint32_t thrandue_power_on_with_store(thrandue_image *image, bool bus_powered, uint32_t page,
                                      uint32_t drives, const uint8_t *records, size_t records_len) {
    struct second_bridge bridge = load(image);
    return store(
        image, &bridge,
        second_power_on_with_store(&bridge, bus_powered, page, drives, records, records_len));
}

uint32_t thrandue_bus_reset(thrandue_image *image) {
    struct second_bridge bridge = load(image);
    return store(image, &bridge, second_bus_reset(&bridge));
}

uint64_t thrandue_control(thrandue_image *image, const uint8_t *setup, size_t setup_len,
                          const uint8_t *host, size_t host_len, uint8_t *memory, size_t memory_len,
                          uint8_t *reply, size_t reply_len) {
    struct second_bridge bridge = load(image);
    return store(image, &bridge,
                 second_control(&bridge, setup, setup_len, host, host_len, memory, memory_len,
                                reply, reply_len));
}

uint32_t thrandue_packet(thrandue_image *image, const uint8_t *packet, size_t packet_len,
                         uint16_t *operations, size_t operations_len) {
    struct second_bridge bridge = load(image);
    return store(image, &bridge,
                 second_packet(&bridge, packet, packet_len, operations, operations_len));
}

uint32_t thrandue_burst(thrandue_image *image, const uint8_t *burst, size_t burst_len) {
    struct second_bridge bridge = load(image);
    return store(image, &bridge, second_burst(&bridge, burst, burst_len));
}

uint32_t thrandue_end_mark(thrandue_image *image, uint16_t *operations, size_t operations_len) {
    struct second_bridge bridge = load(image);
    return store(image, &bridge, second_end_mark(&bridge, operations, operations_len));
}

uint32_t thrandue_report(thrandue_image *image, uint8_t direction, uint8_t failed,
                         uint32_t amount) {
    struct second_bridge bridge = load(image);
    return store(image, &bridge, second_report(&bridge, direction, failed, amount));
}

uint32_t thrandue_status(thrandue_image *image, uint8_t *reply, size_t reply_len) {
    struct second_bridge bridge = load(image);
    return store(image, &bridge, second_status(&bridge, reply, reply_len));
}

uint8_t thrandue_phase(const thrandue_image *image) {
    struct second_bridge bridge = load(image);
    return second_phase(&bridge);
}

uint8_t thrandue_lun(const thrandue_image *image) {
    struct second_bridge bridge = load(image);
    return second_lun(&bridge);
}

uint8_t thrandue_configuration(const thrandue_image *image) {
    struct second_bridge bridge = load(image);
    return second_configuration(&bridge);
}

uint8_t thrandue_halts(const thrandue_image *image) {
    struct second_bridge bridge = load(image);
    return second_halts(&bridge);
}

uint8_t thrandue_held(const thrandue_image *image) {
    struct second_bridge bridge = load(image);
    return second_held(&bridge);
}
