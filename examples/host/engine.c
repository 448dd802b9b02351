#include "engine.h"

#include <string.h>

#include "bytes.h"

/* As at the stations of a script, so that reports can be compared with listings: how many edits may wait, who posts
   them, and the edition, in which an edit's channel is 0. */
enum { QUEUE_LIMIT = RELAY_MOST_LIMIT, DESK = 0, EDITION = 0, CHANNEL = 0 };

/* Places in a frame: a head, and then records. */
enum { FRAME_N = 0, FRAME_SENDER = 1, FRAME_RECORDS = 2, FRAME_EDITION = 3, FRAME_HEAD = 4, RECORD_KIND = 2,
       RECORD_NUMBERS = 4 };

/* Places in a station's state. */
enum { STATE_N = 0, STATE_OWN = 1 };

/* Places in the report of a turn. */
enum { TURN_ENDED = 1, TURN_ENDED_BODY = 4, TURN_STARTED_BODY = 16, TURN_ROW = 28 };

static struct body body_of(uint32_t kind, const uint8_t *numbers)
{
    return (struct body){kind, (uint32_t)number_at(numbers, 4), (int32_t)(uint32_t)number_at(numbers + 4, 4)};
}

uint32_t engine_fresh(uint8_t state[STATE_BYTES], uint32_t n, uint32_t own)
{
    return relay_station_fresh_limited(state, STATE_BYTES, n, own, QUEUE_LIMIT);
}

uint32_t engine_post(uint8_t state[STATE_BYTES], struct body edit)
{
    return relay_station_post(state, STATE_BYTES, DESK, edit.kind, edit.event, edit.argument, CHANNEL);
}

uint32_t engine_write(const uint8_t state[STATE_BYTES], uint8_t frame[FRAME_MOST], size_t *len)
{
    uint32_t length = 0;
    uint32_t refusal = relay_station_write(state, STATE_BYTES, frame, FRAME_MOST, &length, 1);
    *len = length;
    return refusal;
}

uint32_t engine_check(const uint8_t *frame, size_t len, uint32_t n, uint32_t own)
{
    return relay_frame_check(frame, len, n, own, EDITION);
}

/* A frame has at most one record of a station, and its records ascend. So the stations from which a body was taken,
   in their order, are the takings in the order heard. */
uint32_t engine_hear(uint8_t state[STATE_BYTES], const uint8_t *frame, size_t len,
                     struct taking takings[MOST_STATIONS], size_t *count)
{
    uint8_t taken[MOST_STATIONS] = {0};
    uint32_t refusal = relay_station_hear(state, STATE_BYTES, frame, len, taken, sizeof taken);
    *count = 0;
    if (refusal != RELAY_DONE)
        return refusal;
    for (int k = 0; k < frame[FRAME_RECORDS]; k++) {
        const uint8_t *record = frame + FRAME_HEAD + RELAY_RECORD_BYTES * k;
        if (taken[record[0]])
            takings[(*count)++] = (struct taking){record[0], body_of(record[RECORD_KIND], record + RECORD_NUMBERS)};
    }
    return RELAY_DONE;
}

uint32_t engine_turn(uint8_t state[STATE_BYTES], struct turn *turn)
{
    uint8_t report[RELAY_TURN_BYTES];
    uint32_t refusal = relay_station_turn(state, STATE_BYTES, report, sizeof report);
    if (refusal != RELAY_DONE)
        return refusal;
    const uint8_t *ended = report + TURN_ENDED_BODY, *started = report + TURN_STARTED_BODY;
    turn->ended = report[TURN_ENDED];
    turn->ended_body = body_of(ended[0], ended + 4);
    turn->started_body = body_of(started[0], started + 4);
    for (int k = 0; k < MOST_STATIONS; k++) {
        const uint8_t *body = report + TURN_ROW + RELAY_BODY_BYTES * k;
        turn->row[k] = body_of(body[0], body + 4);
    }
    return RELAY_DONE;
}

uint32_t engine_sender(const uint8_t *frame)
{
    return frame[FRAME_SENDER];
}

int engine_other_n(const uint8_t *frame, uint32_t n)
{
    return frame[FRAME_N] != n;
}

int engine_other_edition(const uint8_t *frame)
{
    return frame[FRAME_EDITION] != EDITION;
}

/* A body that is no edit is refused with 4 by a station inside its limits, and with 2 by any other bytes. */
int engine_accepts(const uint8_t state[STATE_BYTES], uint32_t n, uint32_t own)
{
    uint8_t copy[STATE_BYTES];
    memcpy(copy, state, STATE_BYTES);
    return engine_post(copy, (struct body){0, 0, 0}) == RELAY_NOT_AN_EDIT && state[STATE_N] == n
        && state[STATE_OWN] == own;
}
