/* The bench's records: payload length, kind, payload; numbers low byte first. */
#ifndef RECORD_H
#define RECORD_H

#include <stdbool.h>
#include <stdint.h>
#include <stdio.h>

enum {
    RECORD_BUS_RESET = 1,
    RECORD_CONTROL = 2,
    RECORD_PACKET = 3,
    RECORD_REPORT = 4,
    RECORD_STATUS = 5,
    RECORD_BURST = 6,
    RECORD_END_MARK = 7
};

enum {
    RECORD_HEADER = 4,
    RECORD_PAYLOAD_MOST = 520,
    RECORD_REPORT_LENGTH = 6
};

struct record {
    uint16_t kind;
    uint16_t length;
    uint8_t payload[RECORD_PAYLOAD_MOST];
};

typedef void record_taker(void *context, const struct record *record);

/* Hands every record of the named file to the taker; without bursts, one of kind 6 or 7 is torn.
 * Where the file is torn it says so and returns EXIT_REFUSED; where it cannot be read,
 * EXIT_MISUSED. A header is judged before its payload is asked for: a torn one is known at once.
 * Standard output is written out before each wait for more, so that the other end may be a host
 * that reads each answer before it goes on. */
int record_each(const char *name, bool bursts, record_taker *take, void *context);

/* Whether a record's event hands out operations, and not bytes. */
bool record_makes_operations(const struct record *record);

/* Whether it was written; the header is written as it stands, torn or not. */
bool record_write(FILE *to, const struct record *record);

uint32_t record_load(const uint8_t *from, unsigned width);
void record_store(uint8_t *to, unsigned width, uint32_t number);

#endif
