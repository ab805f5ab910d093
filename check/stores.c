/* stores: writes a settings store from a seed, steered towards the edges of requests 5 and 6. */
#include "command.h"
#include "random.h"
#include "record.h"

#include <stdio.h>
#include <string.h>

static const char help[] = "SEED\n"
                           "Writes a settings store to standard output, for a seed the same\n"
                           "everywhere: none to four records, good and damaged.\n"
                           "Status 2: bad usage, or standard output that cannot be written.\n";

enum {
    FIRST_EDITION = 0x0101,
    NEWEST_EDITION = 0x0102,
    FIRST_LENGTH = 14,
    NEWEST_LENGTH = 15,
    RECORDS_MOST = 4,
    TRAILING_MOST = 3
};

struct store {
    struct random random;
    size_t length;
    uint8_t bytes[RECORDS_MOST * (RECORD_HEADER + RECORD_PAYLOAD_MOST) + TRAILING_MOST];
};

static void append(struct store *store, size_t count) {
    fill(&store->random, store->bytes + store->length, count);
    store->length += count;
}

/* With all of its payload, if that is no longer than 520. */
static void append_record(struct store *store, uint32_t length, uint32_t kind) {
    uint8_t *head = store->bytes + store->length;
    append(store, RECORD_HEADER + (length < RECORD_PAYLOAD_MOST ? length : RECORD_PAYLOAD_MOST));
    record_store(head, 2, length);
    record_store(head + 2, 2, kind);
}

static uint32_t length_of(uint32_t kind) {
    return kind == FIRST_EDITION ? FIRST_LENGTH : NEWEST_LENGTH;
}

static uint32_t known_kind(struct store *store) {
    return chance(&store->random, 50) ? FIRST_EDITION : NEWEST_EDITION;
}

/* The byte of the page size, which the record that was appended last ends in: that of one of the
 * four, one around them, or any. */
static void steer_page(struct store *store) {
    static const uint8_t bytes[] = {1, 2, 4, 8, 1, 2, 4, 8, 0, 3, 7, 9, 16, 255};
    if (chance(&store->random, 80))
        store->bytes[store->length - 1] = PICK(&store->random, bytes);
}

static void good_record(struct store *store) {
    uint32_t kind = known_kind(store);
    append_record(store, length_of(kind), kind);
    if (kind == NEWEST_EDITION)
        steer_page(store);
}

/* A kind that is one step, one byte or a swap away from one that is known. */
static void unknown_record(struct store *store) {
    static const uint16_t kinds[] = {0x0100, 0x0103, 0x0001, 0x0002, 0x0201,
                                     0x0202, 0x0111, 0x8101, 0xFFFF, 0x0000};
    static const uint16_t lengths[] = {0, 4, 13, 14, 15, 16, 520};
    uint32_t length = PICK(&store->random, lengths);
    append_record(store, length, PICK(&store->random, kinds));
}

/* A length that is one step or its high byte away from the right one, the other kind's, or more
 * than there is. */
static void misfit_record(struct store *store) {
    static const uint16_t others[] = {0,      1,      4,      18,     520,   0x010E,
                                      0x010F, 0x0E00, 0x800E, 0x800F, 0xFFFF};
    uint32_t kind = known_kind(store);
    uint32_t right = length_of(kind);
    const uint32_t near[] = {right - 1, right + 1, FIRST_LENGTH + NEWEST_LENGTH - right};
    bool nearly = chance(&store->random, 50);
    append_record(store, nearly ? PICK(&store->random, near) : PICK(&store->random, others), kind);
}

static void record(struct store *store) {
    uint32_t what = below(&store->random, 100);
    if (what < 12)
        unknown_record(store);
    else if (what < 26)
        misfit_record(store);
    else
        good_record(store);
}

static void compose(struct store *store) {
    static const uint8_t counts[] = {0, 1, 1, 1, 2, 2, 2, 3, 3, 4};
    uint32_t count = PICK(&store->random, counts);
    while (count-- > 0)
        record(store);
    uint32_t end = below(&store->random, 100);
    if (end < 12)
        store->length = below(&store->random, (uint32_t)store->length + 1);
    else if (end < 18)
        append(store, 1 + below(&store->random, TRAILING_MOST));
}

int main(int argc, char **argv) {
    static struct store store;
    command_begin(argv[0]);
    if (argc == 2 && strcmp(argv[1], "--help") == 0)
        return command_help(help);
    if (argc != 2 || !command_number(argv[1], UINT64_MAX, &store.random.state))
        return command_misused("one number is needed, the seed");
    compose(&store);
    fwrite(store.bytes, 1, store.length, stdout);
    return command_end(EXIT_FINE);
}
