/* The page sizes of memory parts: request 6 read by hand, for the second bridge and the second
 * reading of a store. */
#ifndef SECOND_PAGE_H
#define SECOND_PAGE_H

#include <stdint.h>

enum {
    SECOND_PAGE_SAFE = 32,
    SECOND_PAGE_MOST = 256,
    SECOND_PAGE_UNIT = 32 /* what the last byte of a record counts */
};

/* The page size that a number is taken as. The whole number counts: 0x10100 is not 256. */
static inline uint32_t second_page(uint32_t number) {
    return number == 64 || number == 128 || number == SECOND_PAGE_MOST ? number : SECOND_PAGE_SAFE;
}

#endif
