/* The second reading of a settings store: requests 5 and 6 read by hand into plain C. */
#ifndef SECOND_STORE_H
#define SECOND_STORE_H

#include <stddef.h>
#include <stdint.h>

enum {
    SECOND_SETTINGS_BYTES = 14
};

struct second_settings {
    uint8_t bytes[SECOND_SETTINGS_BYTES]; /* for configuration addresses 2 to F */
    uint32_t page;                        /* one of the four sizes */
};

/* The answer, as second_bridge.h numbers it. The settings are written where it is SECOND_DONE, and
 * left as they were where it is not. An empty store may be NULL. */
uint8_t second_read_store(const uint8_t *store, size_t store_len, struct second_settings *settings);

#endif
