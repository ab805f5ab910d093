/* Explains a replay in words: what came, what the bridge answered, how it then stands. */
#ifndef EXPLAIN_H
#define EXPLAIN_H

#include "bench.h"
#include "record.h"

#include <stdint.h>

/* Prints the line of the store that the bench was powered on with and that was answered so. */
void explain_store(const struct bench *bench, uint8_t answer);

/* Prints the line of an event that the bench has just answered so. */
void explain_event(const struct bench *bench, const struct record *record, uint64_t outcome);

#endif
