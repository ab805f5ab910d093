/* The bench: a bridge from power-on, with the memory and the rooms that are lent to it. */
#ifndef BENCH_H
#define BENCH_H

#include "command.h"
#include "record.h"
#include "thrandue.h"

#include <stdbool.h>
#include <stddef.h>
#include <stdint.h>

/* The sizes of what is lent, what is given at power-on, the file of the settings at power-on, NULL
 * for none, and whether a session has packets in bursts. */
struct bench_options {
    size_t memory;
    size_t reply;
    size_t operations;
    bool bus_powered;
    uint32_t page;
    uint32_t drives;
    const char *store;
    bool bursts;
};

struct bench {
    struct bench_options options;
    thrandue_image *image;
    uint8_t *memory;
    uint8_t *reply;
    uint16_t *operations;
    uint8_t *payload;
    struct command_file store;
};

/* A command line with options for another bench than document 01's. */
struct bench_arguments {
    char **rest;
    const char *help;
    struct bench_options options;
};

#define BENCH_OPTIONS_HELP                                                                         \
    "  --memory N      bytes in the memory part, 0 for none (2048)\n"                              \
    "  --reply N       bytes of reply room (4096)\n"                                               \
    "  --operations N  room for operations (11)\n"                                                 \
    "  --bus-powered   the dock is bus powered\n"                                                  \
    "  --page N        bytes in a page of the memory part, 32, 64, 128 or 256 (256); another\n"    \
    "                  number is taken as 32\n"                                                    \
    "  --drives N      drives in the dock, 1 or 2 (1); another number is taken as 1\n"             \
    "  --store FILE    the dock is powered on with the settings of this store, whose page size\n"  \
    "                  replaces that of --page\n"                                                  \
    "  --bursts        records of kind 6 are bursts of a packet, of kind 7 end marks\n"            \
    "  --help          this text\n"

struct bench_arguments bench_arguments(char **argv, const char *help);

/* The next argument that is none of these options, NULL at the end; the options are those given up
 * to it. Ends the program after --help and for an option that is not followed by what it takes. */
const char *bench_argument(struct bench_arguments *arguments);

/* The answer of the power-on: of the store, where there is one. Ends the program where there is no
 * room, or the store cannot be read. */
uint8_t bench_open(struct bench *bench, struct bench_options options);
void bench_close(struct bench *bench);

/* Where an event's payload is lent: a record of this length at the end of its room, so that a read
 * beyond it is one beyond the room. */
uint8_t *bench_payload(const struct bench *bench, const struct record *record);

/* One event and its outcome; operations stand in the bench's room, and a reply where bench_reply
 * says. */
uint64_t bench_event(struct bench *bench, const struct record *record);

const uint8_t *bench_reply(const struct bench *bench, uint64_t outcome);

#endif
