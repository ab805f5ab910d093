/* service.h: the tools for field service, for a program on the service laptop to link:
 * libservice.a. */
#ifndef SERVICE_H
#define SERVICE_H

/* For the answers, and for thrandue_answer and thrandue_count, which take an outcome apart. */
#include "thrandue.h"

#include <stddef.h>
#include <stdint.h>

#ifdef __cplusplus
extern "C" {
#endif

/* Settings, as they are kept of a dock: its fourteen bytes, for configuration addresses 2 to F,
 * each of which may be any byte, and the page size of its memory part, 32, 64, 128 or 256. */
enum {
    SERVICE_BYTES = 14
};

/* The caller answers for this: pointers are valid for their type or their length, those to the
 * bytes of settings for SERVICE_BYTES, and do not overlap. A slice of length 0 may be NULL. Any
 * length and content of every slice, and any number, gets an answer. */

/* The settings of a store, which thrandue_power_on_with_store describes; kind 0x0101 reads as pages
 * of 256. Returns the answer: DONE, or CUT_RECORD to NO_RECORD. Bytes and page size are written
 * where it is DONE and left as they were where it is not. */
uint8_t service_read(const uint8_t *store, size_t store_len, uint8_t bytes[SERVICE_BYTES],
                     uint32_t *page);

/* How long a written record is. */
enum {
    SERVICE_RECORD_LENGTH = 19
};

/* A store of these settings: one record of the newest kind, 0x0102, into the room; a page size that
 * is none of the four is taken as 32, as at power-on. Returns an outcome: the answer in the low
 * byte, and above it how many bytes stand at the front of the room; the rest of the room is
 * unchanged. RECORD_ROOM, for a room shorter than the record, writes nothing. What was written
 * reads as the same settings. */
uint32_t service_write(const uint8_t bytes[SERVICE_BYTES], uint32_t page, uint8_t *room,
                       size_t room_len);

/* The shortest image of a memory part that is mended, and the most changes that one can need. */
enum {
    SERVICE_SHORTEST_IMAGE = 0x89,
    SERVICE_CHANGES_MOST = 13
};

/* A change of an image is a number: the address in the upper sixteen bits, below it the old byte,
 * and the new one in the low byte. */
static inline uint16_t service_change_address(uint32_t change) {
    return (uint16_t)(change >> 16);
}

static inline uint8_t service_change_old(uint32_t change) {
    return (uint8_t)(change >> 8 & 0xFF);
}

static inline uint8_t service_change_new(uint32_t change) {
    return (uint8_t)(change & 0xFF);
}

/* Mends an image of a memory part, where it lies: the bytes of its descriptor heads that allow one
 * value only are set to it, and then a string index of a configuration, at 0x32 or 0x86, becomes 0
 * where it names no string of this image: its two head bytes are not both inside, or the second is
 * not 0x03. The image ends at image_len, whatever the bridge that it is for counts of it. Returns
 * an outcome: the answer in the low byte, and above it how many changes stand at the front of the
 * list, rising; the rest of the list and every byte that is not listed are unchanged. Of a mended
 * image no change is listed, and the old bytes put back give the image as it was. SHORT_IMAGE, for
 * an image below SERVICE_SHORTEST_IMAGE, and then CHANGE_ROOM, for a list that has less room than
 * there are changes, leave both as they were. */
uint32_t service_mend(uint8_t *image, size_t image_len, uint32_t *list, size_t list_len);

#ifdef __cplusplus
}
#endif

#endif
