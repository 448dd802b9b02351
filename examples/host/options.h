/* The command line. `host --help` tells it. */
#ifndef HOST_OPTIONS_H
#define HOST_OPTIONS_H

#include <stdint.h>

#include "siphash.h"

struct options {
    uint32_t station, n, rounds, status;
    uint64_t epoch_ms, round_ms;
    int fresh, beat; /* beat is -1 where the system's clock tells the round */
    const char *peers, *state, *report;
    uint8_t key[KEY_BYTES];
};

/* Ends the host where the command line is wrong. */
struct options options_read(int argc, char **argv);

#endif
