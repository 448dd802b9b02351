/* What a station tells, as lines of text: those of a listing, and those of a script (docs/SCRIPTS.md).

       D, A, E, X   as in a listing
       P            a post at this station, as in a script, accepted or not
       R            a round that this station closed, with one mask: whom it heard

   P and R lines of all stations together make the script of the run. */
#ifndef HOST_LINES_H
#define HOST_LINES_H

#include "engine.h"

/* A turn has at most 30 takings, 16 aired edits, an end and a start, and its R line. */
enum { LINE_BYTES = 48, TURN_LINES = 49, TEXT_MOST = 1 << 17 };

struct text { size_t len; char bytes[TEXT_MOST]; };

/* Whether so many lines more fit for certain. */
int text_has_room(const struct text *text, size_t lines);

void put_listing_line(struct text *text, uint32_t round, char letter, uint32_t station, uint32_t source,
                      struct body body);
void put_post_line(struct text *text, uint32_t station, struct body edit);
void put_round_line(struct text *text, uint32_t mask);
void put_text(struct text *text, const struct text *more);

#endif
