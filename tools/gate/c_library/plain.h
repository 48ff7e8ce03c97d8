/* What the programs over hingetulip.h share: bytes that were filled with 77. */
#include <inttypes.h>
#include <stdbool.h>
#include <stddef.h>
#include <stdint.h>
#include <stdio.h>

/* Whether bytes that were filled with 77 are as they were. */
static inline bool are_77(const void *bytes, size_t count) {
    for (const uint8_t *at = bytes; count > 0; at++, count--)
        if (*at != 77) return false;
    return true;
}
