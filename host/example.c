/* A firmware main loop over the library. A short script stands for the wire and the drive, and what
 * a port would do is printed. */
#include "thrandue.h"

#include <stdio.h>
#include <string.h>

enum source {
    CONTROL,
    BULK_OUT,
    DRIVE,
    BULK_IN
};

struct arrival {
    enum source source;
    size_t length;
    uint8_t bytes[31];
};

/* The packet of a command that writes 0xE7 to register 7, up to its last byte that is not 0. */
#define COMMAND(tag)                                                                               \
    0x55, 0x53, 0x42, 0x43, tag, 0, 0, 0, 0, 0, 0, 0, 0, 0, 16, 0x24, 0x24, 0x00, 0x80, 0, 0, 0,   \
        0, 0, 0, 0, 0, 0xE7

static const struct arrival arrivals[] = {
    {CONTROL, 8, {0x80, 0x06, 0, 1, 0, 0, 18, 0}}, /* Get Descriptor, device */
    {BULK_OUT, 31, {COMMAND(6)}},
    {CONTROL, 8, {0x00, 0x09, 0x02, 0, 0, 0, 0, 0}}, /* Set Configuration 2 */
    {BULK_OUT, 31, {COMMAND(7)}},
    {BULK_IN, 0, {0}},
    {DRIVE, 0, {0}},
    {BULK_IN, 0, {0}},
    {DRIVE, 0, {0}},
    {BULK_OUT, 12, {0x55, 0x53, 0x42, 0x43, 8}}, /* a command packet cut short: a stop */
    {BULK_IN, 0, {0}},
    {CONTROL, 8, {0x02, 0x01, 0, 0, 0x01, 0, 0, 0}}, /* Clear Feature, bulk out: too early */
    {CONTROL, 8, {0x21, 0xFF, 0, 0, 0, 0, 0, 0}},    /* Mass Storage Reset */
    {CONTROL, 8, {0x02, 0x01, 0, 0, 0x01, 0, 0, 0}}, /* Clear Feature, bulk out */
    {BULK_OUT, 31, {COMMAND(9)}},
    {CONTROL, 8, {0x02, 0x01, 0, 0, 0x82, 0, 0, 0}}, /* Clear Feature, bulk in: the stop is over */
    {BULK_OUT, 31, {COMMAND(10)}},
    {DRIVE, 0, {0}},
    {BULK_IN, 0, {0}},
};

enum {
    MEMORY_PAGE = 256, /* of the part that is fitted, by its data sheet */
    DRIVES = 1
};

struct dock {
    thrandue_image image;
    uint8_t memory[2048];
    uint16_t operations[11];
    uint8_t reply[64];
};

static uint64_t take(struct dock *dock, const struct arrival *arrival) {
    switch (arrival->source) {
    case CONTROL:
        return thrandue_control(&dock->image, arrival->bytes, arrival->length, NULL, 0,
                                dock->memory, sizeof dock->memory, dock->reply, sizeof dock->reply);
    case BULK_OUT:
        return thrandue_packet(&dock->image, arrival->bytes, arrival->length, dock->operations,
                               sizeof dock->operations / sizeof dock->operations[0]);
    case DRIVE:
        return thrandue_report(&dock->image, 0, 0, 0);
    default:
        return thrandue_status(&dock->image, dock->reply, sizeof dock->reply);
    }
}

/* As thrandue.h says of each answer. */
static const char *on_the_wire(enum source source, uint8_t answer) {
    if (answer == THRANDUE_DONE)
        return "done";
    if (source == CONTROL)
        return "STALL";
    switch (answer) {
    case THRANDUE_UNCONFIGURED:
        return source == DRIVE ? "dropped" : "no handshake";
    case THRANDUE_WRONG_PHASE:
        return source == DRIVE ? "dropped" : "NAK";
    case THRANDUE_REPLY_ROOM:
    case THRANDUE_OPERATION_ROOM:
        return "NAK, more room";
    case THRANDUE_MALFORMED:
        return "set right";
    default:
        return "STALL";
    }
}

/* The bulk pipes that get STALL. */
static uint8_t stalled(const thrandue_image *image) {
    uint8_t phase = thrandue_phase(image);
    if (phase == THRANDUE_STOPPED || phase == THRANDUE_STOPPED_RESET)
        return THRANDUE_HALT_OUT | THRANDUE_HALT_IN;
    return thrandue_halts(image);
}

static void show(const struct dock *dock, enum source source, uint64_t outcome) {
    uint8_t answer = thrandue_answer(outcome);
    const uint8_t *reply = thrandue_reply(outcome, dock->memory, dock->reply);
    printf("%s, answer %u, phase %u, halts %u, stalled %u:", on_the_wire(source, answer), answer,
           thrandue_phase(&dock->image), thrandue_halts(&dock->image), stalled(&dock->image));
    for (uint32_t i = 0; i < thrandue_count(outcome); i++)
        printf(source == BULK_OUT ? " %04X" : " %02X",
               source == BULK_OUT ? dock->operations[i] : reply[i]);
    printf("\n");
}

/* The memory part as it was written before the dock was shipped: a device descriptor at 0x10. */
static void fit(struct dock *dock) {
    static const uint8_t device[] = {18,   1,    0x00, 0x02, 0, 0, 0, 64, 0xAB,
                                     0x05, 0x60, 0x00, 0x10, 1, 0, 0, 0,  1};
    memset(dock->memory, 0xFF, sizeof dock->memory);
    memcpy(dock->memory + 0x10, device, sizeof device);
}

int main(void) {
    static struct dock dock;
    fit(&dock);
    thrandue_power_on(&dock.image, false, MEMORY_PAGE, DRIVES);
    for (size_t i = 0; i < sizeof arrivals / sizeof arrivals[0]; i++)
        show(&dock, arrivals[i].source, take(&dock, &arrivals[i]));
    return 0;
}
