/* unchanged: calls the service library on stores and in rooms of many sizes, and sees that a call
 * changes no more than it may. */
#include "command.h"
#include "service.h"

#include <stdlib.h>
#include <string.h>

static const char help[] =
    "FILE..\n"
    "Reads each file as a store, and writes settings into rooms around the size of a record.\n"
    "Status 0: no call changed what it must leave alone; 1: one did; 2: bad usage, or a file that\n"
    "cannot be read.\n";

enum {
    MARK = 0xA5,
    ROOM_MOST = SERVICE_RECORD_LENGTH + 5
};

/* Whether all behind the front is as it was before the call. */
static bool is_marked(const uint8_t *bytes, size_t front, size_t count) {
    while (count > front && bytes[count - 1] == MARK)
        count--;
    return count == front;
}

/* The store stays, and so do the bytes and the page size where it is refused; and always what
 * stands behind the bytes. */
static bool read_keeps(const struct command_file *store) {
    uint8_t *lent = command_room(store->length);
    uint8_t bytes[SERVICE_BYTES + 1];
    uint32_t page;
    if (store->length != 0)
        memcpy(lent, store->bytes, store->length);
    memset(bytes, MARK, sizeof bytes);
    memset(&page, MARK, sizeof page);
    bool done = service_read(lent, store->length, bytes, &page) == THRANDUE_DONE;
    bool kept = store->length == 0 || memcmp(lent, store->bytes, store->length) == 0;
    free(lent);
    return kept && is_marked(bytes, done ? SERVICE_BYTES : 0, sizeof bytes) &&
           (done || is_marked((uint8_t *)&page, 0, sizeof page));
}

/* The bytes stay, and so does the room behind the record; all of it where that does not fit. */
static bool write_keeps(size_t length) {
    static const uint8_t written[SERVICE_BYTES] = {1, 2, 3, 4, 5, 6, 7};
    uint8_t bytes[SERVICE_BYTES];
    uint8_t *room = command_room(length);
    memcpy(bytes, written, sizeof bytes);
    if (length != 0)
        memset(room, MARK, length);
    uint32_t outcome = service_write(bytes, 128, room, length);
    uint32_t count = thrandue_count(outcome);
    bool fits = length >= SERVICE_RECORD_LENGTH;
    bool kept = memcmp(bytes, written, sizeof bytes) == 0 &&
                thrandue_answer(outcome) == (fits ? THRANDUE_DONE : THRANDUE_RECORD_ROOM) &&
                count == (fits ? SERVICE_RECORD_LENGTH : 0) && is_marked(room, count, length);
    free(room);
    return kept;
}

static int look_at(const char *name) {
    struct command_file store;
    if (!command_read(name, &store))
        return EXIT_MISUSED;
    bool kept = read_keeps(&store);
    free(store.bytes);
    if (kept)
        return EXIT_FINE;
    command_say("%s: reading it changed what it must leave alone", name);
    return EXIT_REFUSED;
}

int main(int argc, char **argv) {
    int status = EXIT_FINE;
    command_begin(argv[0]);
    if (argc == 2 && strcmp(argv[1], "--help") == 0)
        return command_help(help);
    if (argc < 2 || command_is_option(argv[1]))
        return command_misused("a store is needed");
    for (char **name = argv + 1; *name != NULL && status == EXIT_FINE; name++)
        status = look_at(*name);
    for (size_t length = 0; length <= ROOM_MOST && status == EXIT_FINE; length++) {
        if (write_keeps(length))
            continue;
        command_say("writing to a room of %zu changed what it must leave alone", length);
        status = EXIT_REFUSED;
    }
    return command_end(status);
}
