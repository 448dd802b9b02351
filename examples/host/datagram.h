/* A datagram: a stamp of 24 bytes, and then a frame. Numbers have their lowest byte first.

       0 to 7     tag: SipHash-2-4 of all that follows, with the key of the group
       8 to 15    run: the beginning of round 1 in milliseconds since 1970, the same at all stations
       16 to 19   round in which the frame was written
       20         sender
       21 to 23   zero
       24 ..      frame */
#ifndef HOST_DATAGRAM_H
#define HOST_DATAGRAM_H

#include "engine.h"
#include "siphash.h"

enum { STAMP_BYTES = 24, DATAGRAM_MOST = STAMP_BYTES + FRAME_MOST };

struct stamp { uint64_t run; uint32_t round, sender; };

enum opened { OPENED, BAD_FORM, BAD_TAG };

/* Puts a frame of at most FRAME_MOST bytes under its stamp; returns the length of the datagram. */
size_t datagram_seal(uint8_t datagram[DATAGRAM_MOST], const uint8_t key[KEY_BYTES], struct stamp stamp,
                     const uint8_t *frame, size_t len);

/* Reads the stamp of any bytes. The frame stands behind it, and is not judged. */
enum opened datagram_open(const uint8_t *datagram, size_t len, const uint8_t key[KEY_BYTES], struct stamp *stamp);

#endif
