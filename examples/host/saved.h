/* The saved state: all that a station must not forget, in one file that is replaced as a whole.

       0 to 7       the letters RELAYST1
       8 to 15      run
       16 to 19     rounds done
       20, 21       n and own number
       22, 23       zero
       24 to 31     length of the report file before the text
       32 to 35     length of the station's state, STATE_BYTES
       36 to 39     length of the text
       40 ..        the station's state, and then the text: what was told last, once this was saved
       last 8       checksum of all that stands before it */
#ifndef HOST_SAVED_H
#define HOST_SAVED_H

#include "engine.h"
#include "lines.h"

struct saved {
    uint64_t run, report_len;
    uint32_t done, n, own;
    const uint8_t *state;
    const char *text;
    size_t text_len;
};

enum { SAVED_HEAD = 40, SAVED_MOST = SAVED_HEAD + STATE_BYTES + TEXT_MOST + 8 };

/* A saved state as bytes, and back; reading tells what is wrong, or NULL. What is read points into the bytes. */
size_t saved_encode(uint8_t bytes[SAVED_MOST], const struct saved *saved);
const char *saved_decode(const uint8_t *bytes, size_t len, struct saved *saved);

/* Replaces the file: written beside it, on the disk, put in its place, and that on the disk too. Ends the host where
   that fails: what is not saved must be neither told nor sent. */
void saved_write(const char *file, const struct saved *saved);

/* Reads the file into bytes that stay until the next call; 0 where there is none. Ends the host where it is damaged. */
int saved_read(const char *file, struct saved *saved);

/* Ends the host where another one holds this file; holds it as long as the process lives. */
void saved_lock(const char *file);

#endif
