/* The frame check in ordinary C: what the proved relay_frame_check is measured against. */
#ifndef FRAME_CHECK_PEER_H
#define FRAME_CHECK_PEER_H

#include <stddef.h>
#include <stdint.h>

/* 0 for a frame that station own of n may hear in this edition, else the refusal: 1, 17, 5, 6 or 7. */
uint32_t frame_check_peer(const uint8_t *bytes, size_t len, uint32_t n, uint32_t own, uint32_t edition);

#endif
