#include "datagram.h"

#include <string.h>

#include "bytes.h"

enum { RUN = 8, ROUND = 16, SENDER = 20, ZERO = 21 };

size_t datagram_seal(uint8_t datagram[DATAGRAM_MOST], const uint8_t key[KEY_BYTES], struct stamp stamp,
                     const uint8_t *frame, size_t len)
{
    put_number(datagram + RUN, stamp.run, 8);
    put_number(datagram + ROUND, stamp.round, 4);
    put_number(datagram + SENDER, stamp.sender, STAMP_BYTES - SENDER);
    memcpy(datagram + STAMP_BYTES, frame, len);
    put_number(datagram, siphash(key, datagram + TAG_BYTES, STAMP_BYTES - TAG_BYTES + len), TAG_BYTES);
    return STAMP_BYTES + len;
}

enum opened datagram_open(const uint8_t *datagram, size_t len, const uint8_t key[KEY_BYTES], struct stamp *stamp)
{
    if (len <= STAMP_BYTES || len > DATAGRAM_MOST)
        return BAD_FORM;
    if (siphash(key, datagram + TAG_BYTES, len - TAG_BYTES) != number_at(datagram, TAG_BYTES))
        return BAD_TAG;
    if (number_at(datagram + ZERO, STAMP_BYTES - ZERO) != 0)
        return BAD_FORM;
    *stamp = (struct stamp){number_at(datagram + RUN, 8), (uint32_t)number_at(datagram + ROUND, 4), datagram[SENDER]};
    return OPENED;
}
