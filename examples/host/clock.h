/* The round clock: which round is open now. Rounds are numbered from 1, and all of one length.

   The system's clock tells it, from the time at which round 1 opens. For tests a program may tell it instead: it writes
   the number of the open round, a line each time, and learns when this station has sent its frame of a round. */
#ifndef HOST_CLOCK_H
#define HOST_CLOCK_H

#include <stddef.h>
#include <stdint.h>

struct clock {
    uint64_t begin, length;    /* milliseconds */
    int beat;                  /* where the numbers come from, or -1 for the system's clock */
    uint32_t told;             /* the last number that came */
    size_t len;
    char bytes[64];
};

/* The round that is open now, or 0 before the first. */
uint32_t clock_round(const struct clock *clock);

/* For how many milliseconds one may wait before looking again, while the station waits for round `open` to open or to
   close. It is a second at most, for the system's clock may be set meanwhile. */
int clock_wait(const struct clock *clock, uint32_t open);

/* Reads the numbers that came. Ends the host where the other side is gone. */
void clock_read_beat(struct clock *clock);

/* Tells the other side that the frame of this round is sent. */
void clock_tell_sent(const struct clock *clock, uint32_t round);

#endif
