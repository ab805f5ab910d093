/* The call of service.h that mends an image, freestanding: request 8 read by hand into plain C. */
#include "second_bridge.h"
#include "service.h"

#include <stdbool.h>
#include <string.h>

enum {
    HEADS = 0x89, /* all that is ever changed lies below, and an image has no less */
    STRING = 0x03
};

/* The bytes that allow one value only. */
static void set_fixed(uint8_t heads[HEADS]) {
    heads[0x10] = 0x12; /* device */
    heads[0x11] = 0x01;
    heads[0x22] = 0x0A; /* qualifier */
    heads[0x23] = 0x06;
    heads[0x2B] = 0x00;
    heads[0x2C] = heads[0x80] = 0x09; /* configuration, bus powered and not */
    heads[0x2D] = heads[0x81] = 0x02;
    heads[0x31] = heads[0x85] = 0x02;
}

/* Whether a string stands at twice the index. What lies behind the heads counts as it was found. */
static bool is_string(const uint8_t heads[HEADS], const uint8_t *image, size_t image_len,
                      uint8_t index) {
    size_t type = 2U * index + 1;
    return type < image_len && (type < HEADS ? heads[type] : image[type]) == STRING;
}

uint32_t service_mend(uint8_t *image, size_t image_len, uint32_t *list, size_t list_len) {
    uint8_t heads[HEADS];
    uint32_t count = 0;
    if (image_len < HEADS)
        return SECOND_IMAGE_SHORT;
    memcpy(heads, image, HEADS);
    set_fixed(heads);
    /* An index of 0, which names none, is 0 either way. */
    if (!is_string(heads, image, image_len, heads[0x32]))
        heads[0x32] = 0;
    if (!is_string(heads, image, image_len, heads[0x86]))
        heads[0x86] = 0;
    for (uint32_t at = 0; at < HEADS; at++)
        count += heads[at] != image[at];
    if (list_len < count)
        return SECOND_CHANGE_ROOM;
    for (uint32_t at = 0; at < HEADS; at++)
        if (heads[at] != image[at])
            *list++ = at << 16 | (uint32_t)image[at] << 8 | heads[at];
    memcpy(image, heads, HEADS);
    return SECOND_DONE | count << 8;
}
