#include "inbox.h"

#include <string.h>

static struct kept *slot(struct inbox *inbox, uint32_t round, uint32_t sender)
{
    return &inbox->kept[round % ROUNDS_KEPT][sender];
}

static enum fate keep(struct kept *kept, uint32_t round, const uint8_t *frame, size_t len)
{
    if (kept->len != 0)
        return kept->len == len && memcmp(kept->frame, frame, len) == 0 ? REPEATED : TWO_FACED;
    kept->round = round;
    kept->len = len;
    memcpy(kept->frame, frame, len);
    return KEPT;
}

static enum fate refused(struct inbox *inbox, uint32_t refusal, const uint8_t *frame)
{
    inbox->refused[refusal < REFUSALS ? refusal : 0]++;
    if (refusal == RELAY_BAD_ADDRESS) {
        inbox->other_n += (uint64_t)engine_other_n(frame, inbox->n);
        inbox->other_edition += (uint64_t)engine_other_edition(frame);
    }
    return REFUSED;
}

static enum fate judge(struct inbox *inbox, int peer, const uint8_t *datagram, size_t len)
{
    struct stamp stamp;
    if (peer < 0 || peer >= (int)inbox->n || peer == (int)inbox->own)
        return STRANGER;
    switch (datagram_open(datagram, len, inbox->key, &stamp)) {
    case BAD_FORM: return MALFORMED;
    case BAD_TAG: return UNSEALED;
    case OPENED: break;
    }
    if (stamp.run != inbox->run)
        return OTHER_RUN;
    if (stamp.sender != (uint32_t)peer)
        return WRONG_NAME;
    if (stamp.round < inbox->open)
        return LATE;
    if (stamp.round - inbox->open >= ROUNDS_KEPT)
        return EARLY;
    const uint8_t *frame = datagram + STAMP_BYTES;
    uint32_t refusal = engine_check(frame, len - STAMP_BYTES, inbox->n, inbox->own);
    if (refusal != RELAY_DONE) {
        return refused(inbox, refusal, frame);
    }
    if (engine_sender(frame) != stamp.sender)
        return WRONG_NAME;
    return keep(slot(inbox, stamp.round, stamp.sender), stamp.round, frame, len - STAMP_BYTES);
}

enum fate inbox_take(struct inbox *inbox, int peer, const uint8_t *datagram, size_t len)
{
    enum fate fate = judge(inbox, peer, datagram, len);
    inbox->fates[fate]++;
    return fate;
}

const struct kept *inbox_frame(const struct inbox *inbox, uint32_t sender)
{
    const struct kept *kept = &inbox->kept[inbox->open % ROUNDS_KEPT][sender];
    return kept->len != 0 ? kept : NULL;
}

void inbox_close(struct inbox *inbox)
{
    for (uint32_t sender = 0; sender < MOST_STATIONS; sender++)
        slot(inbox, inbox->open, sender)->len = 0;
    inbox->open++;
}

const char *fate_name(enum fate fate)
{
    static const char *const names[FATES] = {
        "kept", "stranger", "malformed", "unsealed", "other-run", "wrong-name",
        "late", "early", "refused", "repeated", "two-faced"};
    return names[fate];
}
