/* Calls on stations and groups that are wrong on purpose; FAULT says how. The campaign links each of them over the archive, so that every call of the driver comes
   here first, and builds it as it finds the archive, without a checker of memory. */
#include "relay.h"

enum { NOTHING, READS_AFTER_STATE, READS_BEFORE_STATE, WRITES_AFTER_REPORT, WRITES_AFTER_TAKEN, WRITES_REFUSED, WRITES_FRAME, ANOTHER_REFUSAL, COUNT,
       READS_AFTER_MASKS, BEYOND, LATE };

uint32_t __real_relay_station_hear(uint8_t *, size_t, const uint8_t *, size_t, uint8_t *, size_t);
uint32_t __real_relay_station_turn(uint8_t *, size_t, uint8_t *, size_t);
uint32_t __real_relay_group_round(uint8_t *, size_t, const uint16_t *, size_t, uint8_t *, size_t);

/* A byte that is read and says nothing. */
static uint32_t nothing(const volatile uint8_t *byte)
{
    return 0u * *byte;
}

uint32_t __wrap_relay_station_hear(uint8_t *state, size_t state_len, const uint8_t *frame, size_t frame_len, uint8_t *taken, size_t taken_len)
{
    uint32_t refusal = __real_relay_station_hear(state, state_len, frame, frame_len, taken, taken_len);
    if (FAULT == READS_AFTER_STATE)
        return refusal + nothing(state + state_len);
    if (FAULT == READS_BEFORE_STATE)
        return refusal + nothing(state - 1);
    if (FAULT == WRITES_AFTER_TAKEN && refusal == 0)
        taken[16] = 0;
    if (FAULT == WRITES_REFUSED && refusal == 8)
        state[2] ^= 1;
    if (FAULT == WRITES_FRAME && refusal == 0)
        ((uint8_t *)frame)[frame_len - 1] ^= 1;
    if (FAULT == ANOTHER_REFUSAL && refusal == 7)
        return 6;
    if (FAULT == COUNT && refusal == 0 && state[2] == 255)
        state[2] = 0;
    return refusal;
}

uint32_t __wrap_relay_station_turn(uint8_t *state, size_t state_len, uint8_t *report, size_t report_len)
{
    uint32_t refusal = __real_relay_station_turn(state, state_len, report, report_len);
    if (FAULT == WRITES_AFTER_REPORT && refusal == 0)
        report[RELAY_TURN_BYTES] = 0;
    return refusal;
}

uint32_t __wrap_relay_group_round(uint8_t *state, size_t state_len, const uint16_t *masks, size_t masks_len, uint8_t *reports, size_t reports_len)
{
    uint32_t refusal = __real_relay_group_round(state, state_len, masks, masks_len, reports, reports_len);
    if (FAULT == READS_AFTER_MASKS && masks_len < 16)
        return refusal + nothing((const uint8_t *)(masks + masks_len));
    if (FAULT == BEYOND && refusal == 0 && state[0] < 16)
        state[RELAY_GROUP_BYTES - 1] = 0;
    if (FAULT == LATE && refusal == 9)
        reports[0] = 1;
    return refusal;
}
