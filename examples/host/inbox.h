/* The receive path: what becomes of a datagram, whatever it holds and whoever sent it.

   The inbox judges each datagram as it comes and keeps the frames that the station may hear, one a sender and round,
   for the open round and a few after it: a sender whose clock is ahead sends before the round opens here. Every
   datagram meets exactly one fate, and the fates are counted. */
#ifndef HOST_INBOX_H
#define HOST_INBOX_H

#include "datagram.h"

enum { ROUNDS_KEPT = 4, NO_PEER = -1 };

enum fate {
    KEPT,       /* waits to be heard in its round */
    STRANGER,   /* from an address that no other station has in the peers file */
    MALFORMED,  /* too short, too long, or a byte is not zero that must be */
    UNSEALED,   /* the tag is wrong: damaged, or made without the key */
    OTHER_RUN,  /* of another run: its round 1 began at another time */
    WRONG_NAME, /* the sender in the stamp or in the frame is not the station of its address */
    LATE,       /* of a round that is closed here */
    EARLY,      /* of a round too far ahead */
    REFUSED,    /* the frame check refuses it; counted by refusal too */
    REPEATED,   /* the same frame of this sender and round is kept already */
    TWO_FACED,  /* another frame of this sender and round is kept already: an alarm */
    FATES
};

enum { REFUSALS = 32 }; /* numbers of refusals are below this */

struct kept { uint32_t round; size_t len; uint8_t frame[FRAME_MOST]; }; /* len is 0 where nothing is kept */

struct inbox {
    uint32_t n, own, open; /* open: the round that is open here; rounds before it are closed */
    uint64_t run;
    uint8_t key[KEY_BYTES];
    struct kept kept[ROUNDS_KEPT][MOST_STATIONS];
    uint64_t fates[FATES], refused[REFUSALS];
    uint64_t other_n, other_edition; /* of those refused with 6 */
};

/* Judges a datagram that came from the address of station `peer`, or from no station's (NO_PEER). */
enum fate inbox_take(struct inbox *inbox, int peer, const uint8_t *datagram, size_t len);

/* The frame of a sender for the open round, or NULL. */
const struct kept *inbox_frame(const struct inbox *inbox, uint32_t sender);

/* Closes the open round: its frames are forgotten. */
void inbox_close(struct inbox *inbox);

const char *fate_name(enum fate fate);

#endif
