/* The bridge that is measured, called on its own state, with the rooms that are lent to it. */
#ifndef MEASURED_H
#define MEASURED_H

#include "record.h"

#include <stddef.h>
#include <stdint.h>

/* Where copying starts in a page decides which way it takes: the rooms, and the records that are
 * handed in, start a page, so that no count hangs on where a linker or a heap put them. */
enum {
    MEASURED_PAGE = 4096
};

extern const size_t measured_state_size;
extern const size_t measured_memory_size;

void measured_power_on(uint32_t drives);
uint64_t measured_event(const struct record *record);

/* Calls plain_copy, from the memory to the reply. */
void measured_copies(size_t times, size_t bytes);

#endif
