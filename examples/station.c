/* A playout host with one station: it holds the station as bytes, saves it after each turn, and goes on from the file.

   The station is number 0 of two. In every round it writes its frame, hears the frame of station 1 and takes its turn.
   Station 1 would be another machine; here it is a second state in the same program, which lives as long as the program does.
   An insert is posted at station 0. The program prints what each call of station 0 did, and at last what the tests of a host should
   try too: a state that was damaged in the file is refused, and not changed.

   gcc -O2 -Iinclude examples/station.c crates/relay/out/librelay.a -o station && ./station STATE-FILE
   (the archive: rt lib, in crates/relay) */
#include <stdio.h>
#include <stdlib.h>
#include <string.h>

#include "relay.h"

enum { N = 2, ROUNDS = 3 };

static void must(uint32_t refusal, const char *call)
{
    if (refusal != RELAY_DONE) {
        fprintf(stderr, "station: %s is refused with %u\n", call, (unsigned)refusal);
        exit(1);
    }
}

static uint32_t word_at(const uint8_t *at)
{
    return at[0] | (uint32_t)at[1] << 8 | (uint32_t)at[2] << 16 | (uint32_t)at[3] << 24;
}

/* The argument of a body: two's complement, as a number of C. */
static long argument_of(const uint8_t *body)
{
    uint32_t word = word_at(body + 8);
    return word < 0x80000000u ? (long)word : -(long)(0xFFFFFFFFu - word) - 1;
}

static void print_body(const char *what, const uint8_t *body)
{
    printf("  %s: kind %d, event %lu, argument %ld\n", what, body[0], (unsigned long)word_at(body + 4), argument_of(body));
}

/* The state goes into a file beside the old one, which it then replaces: a host that is cut off in between still has the old one. */
static void save(const char *name, const uint8_t *state)
{
    char beside[4096];
    FILE *file;
    if (snprintf(beside, sizeof beside, "%s.new", name) >= (int)sizeof beside || (file = fopen(beside, "wb")) == NULL
        || fwrite(state, 1, RELAY_STATION_BYTES, file) != RELAY_STATION_BYTES || fclose(file) != 0 || rename(beside, name) != 0) {
        perror(name);
        exit(1);
    }
}

/* Reads one byte more than a state has, so that a file that is too long is noticed. */
static void load(const char *name, uint8_t *state)
{
    uint8_t bytes[RELAY_STATION_BYTES + 1];
    FILE *file = fopen(name, "rb");
    if (file == NULL || fread(bytes, 1, sizeof bytes, file) != RELAY_STATION_BYTES) {
        fprintf(stderr, "station: %s holds no station\n", name);
        exit(1);
    }
    fclose(file);
    memcpy(state, bytes, RELAY_STATION_BYTES);
}

static void print_report(const uint8_t *report)
{
    if (report[0])
        for (int k = 0; k < N; k++)
            if (report[28 + RELAY_BODY_BYTES * k] >= 2)
                print_body(k == 0 ? "aired of station 0" : "aired of station 1", report + 28 + RELAY_BODY_BYTES * k);
    if (report[1]) {
        print_body("ended", report + 4);
        print_body("started", report + 16);
    }
}

int main(int argc, char **argv)
{
    uint8_t state[RELAY_STATION_BYTES], other[RELAY_STATION_BYTES], kept[RELAY_STATION_BYTES];
    uint8_t frame[RELAY_FRAME_MOST], theirs[RELAY_FRAME_MOST], report[RELAY_TURN_BYTES], taken[16];
    uint32_t length, their_length;
    if (argc != 2) {
        fprintf(stderr, "usage: station STATE-FILE\n");
        return 2;
    }
    must(relay_station_fresh(state, sizeof state, N, 0), "fresh");
    must(relay_station_fresh(other, sizeof other, N, 1), "fresh");
    must(relay_station_post(state, sizeof state, 0, 2, 7, 100, 0), "post");
    printf("posted: %u edit waits\n", (unsigned)state[720]);
    printf("a drop with an argument is refused with %u\n", (unsigned)relay_station_post(state, sizeof state, 0, 3, 7, 100, 0));
    save(argv[1], state);
    for (int round = 1; round <= ROUNDS; round++) {
        load(argv[1], state);
        must(relay_station_write(state, sizeof state, frame, sizeof frame, &length, 1), "write");
        must(relay_station_write(other, sizeof other, theirs, sizeof theirs, &their_length, 1), "write");
        must(relay_frame_check(theirs, their_length, N, 0, 0), "check");
        must(relay_station_hear(state, sizeof state, theirs, their_length, taken, sizeof taken), "hear");
        must(relay_station_turn(state, sizeof state, report, sizeof report), "turn");
        printf("round %d: a frame of %u bytes, %s from station 1\n", round, (unsigned)length, taken[1] ? "a body" : "nothing");
        print_report(report);
        save(argv[1], state);
        must(relay_station_hear(other, sizeof other, frame, length, taken, sizeof taken), "hear");
        must(relay_station_turn(other, sizeof other, report, sizeof report), "turn");
    }
    load(argv[1], kept);
    printf("saved and loaded: %s\n", memcmp(kept, state, sizeof state) == 0 ? "the same station" : "another station");
    kept[0] = 17;
    memcpy(other, kept, sizeof kept);
    printf("n = 17 is refused with %u, and %s\n", (unsigned)relay_station_turn(kept, sizeof kept, report, sizeof report),
           memcmp(kept, other, sizeof kept) == 0 ? "nothing changed" : "something changed");
    return 0;
}
