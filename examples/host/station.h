/* A station between its frames and its report: it takes posts, hears what its inbox keeps, and takes its turns. It
   touches no file and no socket. Its text is what is to be told once the state is saved. */
#ifndef HOST_STATION_H
#define HOST_STATION_H

#include "inbox.h"
#include "lines.h"

struct station {
    uint32_t n, own, done; /* done: the number of rounds that it has closed */
    uint8_t state[STATE_BYTES];
    struct inbox inbox;    /* its open round is done + 1 */
    struct text text;
    uint64_t heard, missed; /* frames of other stations, heard and not heard, in the rounds closed by this process */
    uint32_t last_heard[MOST_STATIONS]; /* of each station the round in which it was heard last, or 0 */
};

/* Posts an edit. The post is told, and a refusal too. */
void station_post(struct station *station, struct body edit);

/* Closes the open round: hears the frames that the inbox keeps for it, by ascending sender, and takes the turn. */
void station_close(struct station *station);

#endif
