/* The bench's records, read and written. */
#define _POSIX_C_SOURCE 200809L
#include "record.h"

#include "command.h"

#include <errno.h>
#include <string.h>
#include <unistd.h>

enum {
    BLOCK = 65536
};

/* A file, read by large blocks. */
struct reader {
    int file;
    bool bursts;
    bool failed;
    size_t next;
    size_t end;
    uint8_t block[BLOCK];
};

uint32_t record_load(const uint8_t *from, unsigned width) {
    uint32_t number = 0;
    while (width-- > 0)
        number = number << 8 | from[width];
    return number;
}

void record_store(uint8_t *to, unsigned width, uint32_t number) {
    for (unsigned i = 0; i < width; i++)
        to[i] = (uint8_t)(number >> 8 * i);
}

bool record_makes_operations(const struct record *record) {
    return record->kind == RECORD_PACKET || record->kind == RECORD_END_MARK;
}

static bool header_holds(const struct record *record, bool bursts) {
    switch (record->kind) {
    case RECORD_CONTROL:
    case RECORD_PACKET:
        return record->length <= RECORD_PAYLOAD_MOST;
    case RECORD_BUS_RESET:
    case RECORD_STATUS:
        return record->length == 0;
    case RECORD_REPORT:
        return record->length == RECORD_REPORT_LENGTH;
    case RECORD_BURST:
        return bursts && record->length <= RECORD_PAYLOAD_MOST;
    case RECORD_END_MARK:
        return bursts && record->length == 0;
    default:
        return false;
    }
}

/* Whether there was more. The read may wait for a host that itself waits for an answer: what has
 * been answered is written out first. */
static bool read_block(struct reader *from) {
    ssize_t count;
    fflush(stdout);
    do
        count = read(from->file, from->block, sizeof from->block);
    while (count < 0 && errno == EINTR);
    from->failed = count < 0;
    from->next = 0;
    from->end = count < 0 ? 0 : (size_t)count;
    return from->end != 0;
}

/* Returns how many it read: fewer at the end of the file and where it cannot be read. */
static size_t read_bytes(struct reader *from, uint8_t *to, size_t count) {
    size_t had = 0;
    while (had < count && (from->next < from->end || read_block(from))) {
        size_t left = from->end - from->next;
        size_t part = left < count - had ? left : count - had;
        memcpy(to + had, from->block + from->next, part);
        from->next += part;
        had += part;
    }
    return had;
}

/* False where the record is torn, by its header or by the end of the file. */
static bool read_rest(struct reader *from, const uint8_t *header, struct record *record) {
    record->length = (uint16_t)record_load(header, 2);
    record->kind = (uint16_t)record_load(header + 2, 2);
    return header_holds(record, from->bursts) &&
           read_bytes(from, record->payload, record->length) == record->length;
}

static int take_all(struct reader *from, const char *name, record_taker *take, void *context) {
    uint8_t header[RECORD_HEADER];
    struct record record;
    size_t had;
    while ((had = read_bytes(from, header, sizeof header)) == sizeof header &&
           read_rest(from, header, &record))
        take(context, &record);
    if (from->failed) {
        command_say("%s: cannot be read", name);
        return EXIT_MISUSED;
    }
    if (had == 0)
        return EXIT_FINE;
    command_say("%s: the session is torn", name);
    return EXIT_REFUSED;
}

int record_each(const char *name, bool bursts, record_taker *take, void *context) {
    FILE *file = command_open(name);
    if (file == NULL)
        return EXIT_MISUSED;
    struct reader from = {.file = fileno(file), .bursts = bursts};
    int status = take_all(&from, name, take, context);
    fclose(file);
    return status;
}

bool record_write(FILE *to, const struct record *record) {
    uint8_t header[RECORD_HEADER];
    record_store(header, 2, record->length);
    record_store(header + 2, 2, record->kind);
    return fwrite(header, 1, sizeof header, to) == sizeof header &&
           fwrite(record->payload, 1, record->length, to) == record->length;
}
