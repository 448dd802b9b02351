/* Frame checks that are wrong on purpose; FAULT says how. The campaign builds each of them as it finds the archive, without a checker of memory. */
#include "frame_check_peer.h"
#include "relay.h"

enum { NOTHING, READS_AFTER, READS_BEFORE, WRITES, ACCEPTS, REFUSES, LABELS };

uint32_t relay_frame_check(const uint8_t *bytes, size_t len, uint32_t n, uint32_t own, uint32_t edition)
{
    const volatile uint8_t *read = bytes;
    uint32_t right = frame_check_peer(bytes, len, n, own, edition);
    if (FAULT == READS_AFTER && len > 200)
        return right + 0 * read[len];
    if (FAULT == READS_BEFORE && len > 200)
        return right + 0 * read[-1];
    if (FAULT == WRITES && right == 0)
        ((uint8_t *)bytes)[len - 1] ^= 1;
    if (FAULT == ACCEPTS && right == 7 && n == 16)
        return 0;
    if (FAULT == REFUSES && right == 0 && len == 4 + 16 * 16)
        return 7;
    if (FAULT == LABELS && right == 7 && (read[15] | read[16] | read[17] | read[18] | read[19]) >= 0xC0)
        return 6;
    return right;
}
