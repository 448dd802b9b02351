/* Posts from standard input, a line each: KIND EVENT ARGUMENT, such as

       insert 7 100        drop 7        shift 7 -1500        2 7 100

   The kind is a word or its number; an argument of 0 may be left out. */
#ifndef HOST_POSTS_H
#define HOST_POSTS_H

#include "station.h"

struct posts { int file; size_t len; int skipping; char bytes[1024]; }; /* file is -1 once it has ended */

/* Reads what has come, without waiting for more than is there, and posts every whole line. */
void posts_read(struct posts *posts, struct station *station);

/* Reads one line; 0 where it is no post. Numbers that do not fit the nine columns of a script are none. */
int post_of(const char *line, struct body *edit);

#endif
