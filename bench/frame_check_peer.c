#include "frame_check_peer.h"

#include <stdbool.h>

enum { DONE = 0, BAD_NUMBER = 1, BAD_SHAPE = 5, BAD_ADDRESS = 6, BAD_RECORD = 7, BAD_EDITION = 17 };
enum { PLACES = 16, HEAD_SIZE = 4, RECORD_SIZE = 16, KIND_COUNT = 5, FIRST_EDIT = 2, CHANNELS = 200 };

static const struct limits {
    uint32_t least_event, most_event;
    int32_t least_argument, most_argument;
} kinds[KIND_COUNT] = {
    {0, 0, 0, 0},
    {0, 0, 0, 0},
    {1, 99999999, 0, 2699999},
    {1, 99999999, 0, 0},
    {1, 99999999, -90000, 90000},
};

static uint32_t word_at(const uint8_t *bytes) {
    return bytes[0] | (uint32_t)bytes[1] << 8 | (uint32_t)bytes[2] << 16 | (uint32_t)bytes[3] << 24;
}

static bool numbers_right(uint8_t kind, uint32_t event, int32_t argument) {
    if (kind >= KIND_COUNT)
        return false;
    const struct limits *row = &kinds[kind];
    return row->least_event <= event && event <= row->most_event && row->least_argument <= argument && argument <= row->most_argument;
}

/* An edit of edition 1 has a channel; all else has 0. */
static bool channel_right(uint8_t kind, uint8_t channel, uint32_t edition) {
    return edition == 1 && kind >= FIRST_EDIT ? channel >= 1 && channel <= CHANNELS : channel == 0;
}

/* A label is no 3, so of its two bits one is 0; above n labels there is nothing. */
static bool labels_right(uint32_t word, uint32_t n) {
    return (word & word >> 1 & 0x55555555) == 0 && (uint64_t)word >> 2 * n == 0;
}

static bool record_right(const uint8_t *record, uint32_t n, uint32_t edition) {
    return record[0] < n && record[1] <= 2 * (n - 1) && channel_right(record[2], record[3], edition) &&
           numbers_right(record[2], word_at(record + 4), (int32_t)word_at(record + 8)) && labels_right(word_at(record + 12), n);
}

/* The records ascend, are inside their limits, and the sender's is among them. */
static bool records_right(const uint8_t *record, uint32_t count, uint32_t n, uint32_t sender, uint32_t edition) {
    uint32_t least = 0;
    bool sender_seen = false;
    for (; count > 0; count--, record += RECORD_SIZE) {
        if (record[0] < least || !record_right(record, n, edition))
            return false;
        least = record[0] + 1u;
        sender_seen |= record[0] == sender;
    }
    return sender_seen;
}

uint32_t frame_check_peer(const uint8_t *bytes, size_t len, uint32_t n, uint32_t own, uint32_t edition) {
    if (n < 1 || n > PLACES || own >= n)
        return BAD_NUMBER;
    if (edition > 1)
        return BAD_EDITION;
    if (len < HEAD_SIZE || bytes[2] < 1 || bytes[2] > PLACES || bytes[3] > 1 || len != HEAD_SIZE + RECORD_SIZE * (size_t)bytes[2])
        return BAD_SHAPE;
    if (bytes[3] != edition || bytes[0] != n || bytes[1] == own || bytes[1] >= n)
        return BAD_ADDRESS;
    return records_right(bytes + HEAD_SIZE, bytes[2], n, bytes[1], edition) ? DONE : BAD_RECORD;
}
