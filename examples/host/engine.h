/* The engine: the one file of the host that calls the library (include/relay.h) and knows how it lays out its reports
   and frames. Where a call of the library gets an argument more, engine.c is what changes. */
#ifndef HOST_ENGINE_H
#define HOST_ENGINE_H

#include <stddef.h>
#include <stdint.h>

#include "relay.h"

enum { MOST_STATIONS = 16, STATE_BYTES = RELAY_STATION_BYTES, FRAME_MOST = RELAY_FRAME_MOST };

struct body { uint32_t kind, event; int32_t argument; };

/* A body that was taken, and the station that it is of. */
struct taking { uint32_t source; struct body body; };

/* What a turn brought. Where no row was aired, all bodies of the row are Empty. */
struct turn { int ended; struct body ended_body, started_body, row[MOST_STATIONS]; };

/* Kinds 2 to 4 are edits; kind 0 is Empty. */
static inline int is_edit(struct body body)
{
    return body.kind >= 2;
}

/* Each returns 0, or the number with which the library refused; then nothing has changed. */
uint32_t engine_fresh(uint8_t state[STATE_BYTES], uint32_t n, uint32_t own);
uint32_t engine_post(uint8_t state[STATE_BYTES], struct body edit);
uint32_t engine_write(const uint8_t state[STATE_BYTES], uint8_t frame[FRAME_MOST], size_t *len);
uint32_t engine_check(const uint8_t *frame, size_t len, uint32_t n, uint32_t own);
uint32_t engine_hear(uint8_t state[STATE_BYTES], const uint8_t *frame, size_t len,
                     struct taking takings[MOST_STATIONS], size_t *count);
uint32_t engine_turn(uint8_t state[STATE_BYTES], struct turn *turn);

/* The sender of a frame that the check accepts. */
uint32_t engine_sender(const uint8_t *frame);

/* Of a frame that the check refuses with 6: whether it is of another n, and whether of another edition. */
int engine_other_n(const uint8_t *frame, uint32_t n);
int engine_other_edition(const uint8_t *frame);

/* Whether a state is that of station `own` of n stations and inside its limits. */
int engine_accepts(const uint8_t state[STATE_BYTES], uint32_t n, uint32_t own);

#endif
