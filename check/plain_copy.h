/* Copying, and no more: what moving bytes costs at least. */
#ifndef PLAIN_COPY_H
#define PLAIN_COPY_H

#include <stddef.h>

void *plain_copy(void *restrict to, const void *restrict from, size_t bytes);

#endif
