/* SipHash-2-4 (Aumasson and Bernstein, 2012): a tag of 64 bits over bytes, with a key of 16. Nobody without the key
   can make the tag of other bytes; with a key that everyone knows it is a checksum. */
#ifndef HOST_SIPHASH_H
#define HOST_SIPHASH_H

#include <stddef.h>
#include <stdint.h>

enum { KEY_BYTES = 16, TAG_BYTES = 8 };

uint64_t siphash(const uint8_t key[KEY_BYTES], const uint8_t *bytes, size_t len);

#endif
