/* The second reading of a settings store, freestanding: record by record from the front, and the
 * last one is the settings. */
#include "second_store.h"

#include "second_bridge.h"
#include "second_bytes.h"
#include "second_page.h"

#include <string.h>

enum {
    HEAD_LENGTH = 4,
    FIRST_EDITION = 0x0101,
    NEWEST_EDITION = 0x0102,
    NEWEST_LENGTH = SECOND_SETTINGS_BYTES + 1
};

/* The first edition knew no part but that of the largest pages. */
static uint32_t page_of(const uint8_t *payload, uint32_t length) {
    if (length != NEWEST_LENGTH)
        return SECOND_PAGE_MOST;
    return second_page(payload[SECOND_SETTINGS_BYTES] * SECOND_PAGE_UNIT);
}

uint8_t second_read_store(const uint8_t *store, size_t store_len,
                          struct second_settings *settings) {
    const uint8_t *payload;
    uint32_t length;
    if (store_len == 0)
        return SECOND_NO_RECORD;
    do {
        if (store_len < HEAD_LENGTH)
            return SECOND_RECORD_CUT;
        length = load16(store);
        uint32_t kind = load16(store + 2);
        payload = store + HEAD_LENGTH;
        store_len -= HEAD_LENGTH;
        if (store_len < length)
            return SECOND_RECORD_CUT;
        if (kind != FIRST_EDITION && kind != NEWEST_EDITION)
            return SECOND_UNKNOWN_KIND;
        if (length != (kind == FIRST_EDITION ? SECOND_SETTINGS_BYTES : NEWEST_LENGTH))
            return SECOND_PAYLOAD_LENGTH;
        store = payload + length;
        store_len -= length;
    } while (store_len != 0);
    memcpy(settings->bytes, payload, SECOND_SETTINGS_BYTES);
    settings->page = page_of(payload, length);
    return SECOND_DONE;
}
