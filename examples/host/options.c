#include "options.h"

#include <errno.h>
#include <getopt.h>
#include <stdio.h>
#include <stdlib.h>
#include <string.h>

#include "engine.h"
#include "faults.h"

static const char help[] =
    "usage: host --station K --n N --peers FILE --epoch-ms TIME --round-ms LENGTH --state FILE [OPTION]..\n"
    "Runs station K of N. docs/HOST.md tells how.\n"
    "\n"
    "  --station K      the number of this station, below N\n"
    "  --n N            the number of stations, 1 to 16\n"
    "  --peers FILE     where the stations are: a line each, 'STATION ADDRESS PORT'\n"
    "  --epoch-ms TIME  when round 1 opens, in milliseconds since 1970: the same at all stations, and the run's name\n"
    "  --round-ms T     the length of a round in milliseconds, the same at all stations\n"
    "  --state FILE     where the state is saved\n"
    "  --fresh          this station begins now: there must be no saved state\n"
    "  --report FILE    every line that the station tells, with its posts (P) and whom it heard in each round (R)\n"
    "  --key FILE       32 hexadecimal digits, the same at all stations, without which nobody can make a datagram\n"
    "  --rounds R       ends after round R, at the latest 999999\n"
    "  --status R       tells what became of datagrams every R rounds, on standard error; at the end in any case\n"
    "  --beat FD        for tests: the numbers of the open rounds come from this descriptor, not from the clock\n"
    "\n"
    "Posts come on standard input, a line each: 'insert EVENT START', 'drop EVENT' or 'shift EVENT FRAMES'.\n";

enum { ROUNDS_MOST = 999999, NEEDED = 0x3f }; /* the first six of the names are needed */

static uint64_t number(const char *name, const char *text, uint64_t least, uint64_t most)
{
    char *end;
    errno = 0;
    unsigned long long value = strtoull(text, &end, 10);
    if (errno != 0 || *text < '0' || *text > '9' || *end != '\0' || value < least || value > most)
        stop_with(STATUS_USAGE, "--%s %s: not a number from %llu to %llu", name, text, (unsigned long long)least,
                  (unsigned long long)most);
    return value;
}

static void read_key(uint8_t key[KEY_BYTES], const char *file)
{
    char digits[2 * KEY_BYTES + 1] = "", more;
    FILE *opened = fopen(file, "r");
    if (opened == NULL)
        stop("cannot read %s", file);
    int count = fscanf(opened, " %32[0-9a-fA-F] %c", digits, &more);
    fclose(opened);
    if (count != 1 || strlen(digits) != 2 * KEY_BYTES)
        stop_with(STATUS_USAGE, "%s: not 32 hexadecimal digits", file);
    for (int k = 0; k < KEY_BYTES; k++) {
        char pair[3] = {digits[2 * k], digits[2 * k + 1], '\0'};
        key[k] = (uint8_t)strtoul(pair, NULL, 16);
    }
}

struct options options_read(int argc, char **argv)
{
    static const struct option names[] = {
        {"station", 1, 0, 'k'}, {"n", 1, 0, 'n'}, {"peers", 1, 0, 'p'}, {"epoch-ms", 1, 0, 'e'},
        {"round-ms", 1, 0, 't'}, {"state", 1, 0, 's'}, {"fresh", 0, 0, 'f'}, {"report", 1, 0, 'r'},
        {"key", 1, 0, 'y'}, {"rounds", 1, 0, 'l'}, {"status", 1, 0, 'c'}, {"beat", 1, 0, 'b'},
        {"help", 0, 0, 'h'}, {0, 0, 0, 0}};
    struct options options = {.rounds = ROUNDS_MOST, .beat = -1};
    int letter, at = 0, given = 0;
    while ((letter = getopt_long(argc, argv, "", names, &at)) != -1) {
        switch (letter) {
        case 'k': options.station = (uint32_t)number("station", optarg, 0, MOST_STATIONS - 1); break;
        case 'n': options.n = (uint32_t)number("n", optarg, 1, MOST_STATIONS); break;
        case 'p': options.peers = optarg; break;
        case 'e': options.epoch_ms = number("epoch-ms", optarg, 1, INT64_MAX / 2); break;
        case 't': options.round_ms = number("round-ms", optarg, 1, 24 * 60 * 60 * 1000); break;
        case 's': options.state = optarg; break;
        case 'f': options.fresh = 1; break;
        case 'r': options.report = optarg; break;
        case 'y': read_key(options.key, optarg); break;
        case 'l': options.rounds = (uint32_t)number("rounds", optarg, 1, ROUNDS_MOST); break;
        case 'c': options.status = (uint32_t)number("status", optarg, 0, ROUNDS_MOST); break;
        case 'b': options.beat = (int)number("beat", optarg, 0, 1 << 20); break;
        case 'h': fputs(help, stdout); exit(0);
        default: fputs("host --help tells the options\n", stderr); exit(STATUS_USAGE);
        }
        given |= 1 << at;
    }
    if (optind != argc || (given & NEEDED) != NEEDED)
        stop_with(STATUS_USAGE,
                  "--station, --n, --peers, --epoch-ms, --round-ms and --state are needed, and no other words");
    if (options.station >= options.n)
        stop_with(STATUS_USAGE, "--station %lu is not below --n %lu", (unsigned long)options.station,
                  (unsigned long)options.n);
    return options;
}
