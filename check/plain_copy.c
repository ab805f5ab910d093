/* Copying, and no more; in a file of its own, so that it is called and not taken into its caller.
 */
#include "plain_copy.h"

#include <string.h>

void *plain_copy(void *restrict to, const void *restrict from, size_t bytes) {
    return memcpy(to, from, bytes);
}
