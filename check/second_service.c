/* The calls of service.h on stores, by the second reading of one: with it and second_mend.c a
 * program links this in place of the archive. */
#include "second_bridge.h"
#include "second_page.h"
#include "second_store.h"
#include "service.h"

#include <string.h>

enum {
    HEAD_LENGTH = 4,
    WRITTEN_LENGTH = HEAD_LENGTH + SECOND_SETTINGS_BYTES + 1
};

uint8_t service_read(const uint8_t *store, size_t store_len, uint8_t bytes[SERVICE_BYTES],
                     uint32_t *page) {
    struct second_settings found;
    uint8_t answer = second_read_store(store, store_len, &found);
    if (answer == SECOND_DONE) {
        memcpy(bytes, found.bytes, sizeof found.bytes);
        *page = found.page;
    }
    return answer;
}

uint32_t service_write(const uint8_t bytes[SERVICE_BYTES], uint32_t page, uint8_t *room,
                       size_t room_len) {
    static const uint8_t head[HEAD_LENGTH] = {SECOND_SETTINGS_BYTES + 1, 0x00, 0x02, 0x01};
    if (room_len < WRITTEN_LENGTH)
        return SECOND_RECORD_ROOM;
    memcpy(room, head, sizeof head);
    memcpy(room + HEAD_LENGTH, bytes, SECOND_SETTINGS_BYTES);
    room[WRITTEN_LENGTH - 1] = (uint8_t)(second_page(page) / SECOND_PAGE_UNIT);
    return SECOND_DONE | WRITTEN_LENGTH << 8;
}
