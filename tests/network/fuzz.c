/* A fuzz target over all that reads what others made: the receive path, posts, and saved states.

   The input is a list of steps for station 1 of 3, or of the n that the first byte names. A step is a byte that tells
   which, a byte p, a length of two bytes, the lowest first, and so many bytes:

       0   a datagram of these bytes from the address of station p; a p of 255 is a stranger
       1   a frame of these bytes under a right stamp of station p, for the open round
       2   the same, for p rounds after the open one less 2, from station 0
       3   a frame of these bytes, whose station p is the sender in its second byte too, and whose n is right
       4   the round closes
       5   a line of posts
       6   a saved state, as it is
       7   a saved state of this station with these bytes at the front of its state, and as its text
       8   a datagram of these bytes from station p, under a right tag
       9   a saved state of this station with these bytes over it from place p on, under a right checksum

   Whatever comes, the station stays inside its limits, hears no frame that the check refuses, closes its rounds, and
   every datagram meets one fate. A host that would end because of any of it ends the test. */
#include <stdarg.h>
#include <stdio.h>
#include <stdlib.h>
#include <string.h>

#include "bytes.h"
#include "faults.h"
#include "posts.h"
#include "saved.h"
#include "station.h"

enum { STEP_HEAD = 4 };

static const uint8_t key[KEY_BYTES] = {7};
static const uint64_t run = 1790000000000u;

void name_station(uint32_t station)
{
    (void)station;
}

void warn(const char *form, ...)
{
    (void)form;
}

static void end(const char *form, va_list rest)
{
    vfprintf(stderr, form, rest);
    fputc('\n', stderr);
    abort();
}

void stop(const char *form, ...)
{
    va_list rest;
    va_start(rest, form);
    end(form, rest);
    abort();
}

void stop_with(int status, const char *form, ...)
{
    va_list rest;
    (void)status;
    va_start(rest, form);
    end(form, rest);
    abort();
}

static void must(int holds, const char *what)
{
    if (!holds)
        stop("fuzz: %s: not so", what);
}

static void take(struct station *station, int peer, const uint8_t *bytes, size_t len)
{
    uint64_t before = 0, after = 0;
    uint8_t *exact = malloc(len); /* so that a byte read past the end is noticed */
    if (len > 0)
        memcpy(exact, bytes, len);
    for (int fate = 0; fate < FATES; fate++)
        before += station->inbox.fates[fate];
    enum fate fate = inbox_take(&station->inbox, peer, len > 0 ? exact : (const uint8_t *)"", len);
    for (int each = 0; each < FATES; each++)
        after += station->inbox.fates[each];
    must(fate < FATES && after == before + 1, "a datagram meets one fate");
    free(exact);
}

static void take_sealed(struct station *station, int peer, uint32_t round, uint8_t *frame, size_t len)
{
    uint8_t datagram[DATAGRAM_MOST];
    struct stamp stamp = {run, round, (uint32_t)peer & 0xff};
    len = len < FRAME_MOST ? len : FRAME_MOST;
    take(station, peer, datagram, datagram_seal(datagram, key, stamp, frame, len));
}

static void close_round(struct station *station)
{
    uint32_t done = station->done;
    uint64_t heard = station->heard;
    for (uint32_t sender = 0; sender < station->n; sender++) {
        const struct kept *kept = inbox_frame(&station->inbox, sender);
        if (kept == NULL)
            continue;
        must(sender != station->own, "nothing is kept in the own name");
        must(kept->round == done + 1, "what is kept is of its round");
        must(engine_check(kept->frame, kept->len, station->n, station->own) == RELAY_DONE, "a kept frame is accepted");
        must(engine_sender(kept->frame) == sender, "a kept frame is of its sender");
    }
    station_close(station);
    must(station->done == done + 1 && station->inbox.open == done + 2, "a round closes");
    must(station->heard - heard < station->n, "at most all others are heard");
    must(engine_accepts(station->state, station->n, station->own), "the station is inside its limits");
    station->text.len = 0;
}

static void post(struct station *station, const uint8_t *bytes, size_t len)
{
    char line[256];
    struct body edit;
    len = len < sizeof line - 1 ? len : sizeof line - 1;
    memcpy(line, bytes, len);
    line[len] = '\0';
    if (post_of(line, &edit))
        station_post(station, edit);
    must(engine_accepts(station->state, station->n, station->own), "the station is inside its limits");
    station->text.len = 0;
}

static void load(const uint8_t *bytes, size_t len)
{
    static uint8_t again[SAVED_MOST];
    struct saved saved;
    uint8_t *exact = malloc(len + 1); /* one more, for a length of 0 has no block of its own */
    memcpy(exact + 1, bytes, len);
    if (saved_decode(exact + 1, len, &saved) == NULL) {
        must(saved_encode(again, &saved) == len && memcmp(again, bytes, len) == 0, "what is read is written again");
        must(engine_accepts(saved.state, saved.n, saved.own), "what is read is a station");
    }
    free(exact);
}

static void load_changed(const struct station *station, size_t at, const uint8_t *bytes, size_t len)
{
    static const uint8_t no_key[KEY_BYTES];
    static uint8_t made[SAVED_MOST];
    struct saved saved = {.run = run, .done = station->done, .n = station->n, .own = station->own,
                          .state = station->state, .text = ""};
    size_t whole = saved_encode(made, &saved);
    memcpy(made + at, bytes, len < whole - at ? len : whole - at);
    put_number(made + whole - TAG_BYTES, siphash(no_key, made, whole - TAG_BYTES), TAG_BYTES);
    load(made, whole);
}

static void take_tagged(struct station *station, int peer, uint8_t *bytes, size_t len)
{
    if (len >= TAG_BYTES)
        put_number(bytes, siphash(key, bytes + TAG_BYTES, len - TAG_BYTES), TAG_BYTES);
    take(station, peer, bytes, len);
}

static void load_state(const struct station *station, const uint8_t *bytes, size_t len)
{
    static uint8_t made[SAVED_MOST];
    uint8_t state[STATE_BYTES];
    struct saved saved = {.run = run, .done = station->done, .n = station->n, .own = station->own, .state = state,
                          .text = (const char *)bytes, .text_len = len};
    memcpy(state, station->state, STATE_BYTES);
    memcpy(state, bytes, len < STATE_BYTES ? len : STATE_BYTES);
    load(made, saved_encode(made, &saved));
}

static void step(struct station *station, const uint8_t head[STEP_HEAD], uint8_t *bytes, size_t len)
{
    int p = head[1] == 255 ? NO_PEER : head[1];
    uint32_t open = station->inbox.open;
    switch (head[0] % 10) {
    case 0: take(station, p, bytes, len); break;
    case 1: take_sealed(station, head[1], open, bytes, len); break;
    case 2: take_sealed(station, 0, open + head[1] - 2, bytes, len); break;
    case 3:
        if (len > 1) {
            bytes[0] = (uint8_t)station->n;
            bytes[1] = head[1];
        }
        take_sealed(station, head[1], open, bytes, len);
        break;
    case 4: close_round(station); break;
    case 5: post(station, bytes, len); break;
    case 6: load(bytes, len); break;
    case 7: load_state(station, bytes, len); break;
    case 8: take_tagged(station, p, bytes, len); break;
    default: load_changed(station, head[1], bytes, len); break;
    }
}

int LLVMFuzzerTestOneInput(const uint8_t *input, size_t size);

int LLVMFuzzerTestOneInput(const uint8_t *input, size_t size)
{
    static struct station station;
    uint8_t bytes[4096];
    size_t at = 1;
    if (size == 0)
        return 0;
    memset(&station, 0, offsetof(struct station, text)); /* the text is long, and its length is all that counts */
    station.text.len = 0;
    station.heard = station.missed = 0;
    memset(station.last_heard, 0, sizeof station.last_heard);
    station.n = input[0] < 2 || input[0] > MOST_STATIONS ? 3 : input[0];
    station.own = 1;
    station.inbox.n = station.n;
    station.inbox.own = station.own;
    station.inbox.open = 1;
    station.inbox.run = run;
    memcpy(station.inbox.key, key, KEY_BYTES);
    must(engine_fresh(station.state, station.n, station.own) == RELAY_DONE, "a station begins");
    while (at + STEP_HEAD <= size) {
        const uint8_t *head = input + at;
        size_t len = (size_t)number_at(head + 2, 2) % sizeof bytes;
        at += STEP_HEAD;
        len = len < size - at ? len : size - at;
        memcpy(bytes, input + at, len);
        step(&station, head, bytes, len);
        at += len;
    }
    close_round(&station);
    return 0;
}
