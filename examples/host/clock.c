#include "clock.h"

#include <errno.h>
#include <stdio.h>
#include <string.h>
#include <time.h>
#include <unistd.h>

#include "faults.h"

enum { LOOK_AGAIN = 1000 };

static uint64_t now_ms(void)
{
    struct timespec now;
    if (clock_gettime(CLOCK_REALTIME, &now) < 0)
        stop("cannot read the clock");
    return (uint64_t)now.tv_sec * 1000 + (uint64_t)now.tv_nsec / 1000000;
}

uint32_t clock_round(const struct clock *clock)
{
    if (clock->beat >= 0)
        return clock->told;
    uint64_t now = now_ms();
    if (now < clock->begin)
        return 0;
    uint64_t round = (now - clock->begin) / clock->length + 1;
    return round < UINT32_MAX ? (uint32_t)round : UINT32_MAX;
}

int clock_wait(const struct clock *clock, uint32_t open)
{
    if (clock->beat >= 0)
        return -1;
    uint64_t now = now_ms(), opens = clock->begin + (open - 1) * clock->length;
    uint64_t change = now < opens ? opens : opens + clock->length;
    uint64_t wait = now < change ? change - now : 0;
    return wait < LOOK_AGAIN ? (int)wait : LOOK_AGAIN;
}

/* A number is below 2^32 and ends with a line feed; what is no digit ends a number too. */
static void take_numbers(struct clock *clock)
{
    char *line = clock->bytes, *end;
    while ((end = memchr(line, '\n', (size_t)(clock->bytes + clock->len - line))) != NULL) {
        uint32_t number = 0;
        for (; line < end && *line >= '0' && *line <= '9'; line++)
            number = 10 * number + (uint32_t)(*line - '0');
        if (number > clock->told)
            clock->told = number;
        line = end + 1;
    }
    clock->len = (size_t)(clock->bytes + clock->len - line);
    memmove(clock->bytes, line, clock->len);
}

void clock_read_beat(struct clock *clock)
{
    ssize_t got = read(clock->beat, clock->bytes + clock->len, sizeof clock->bytes - clock->len);
    if (got < 0 && (errno == EINTR || errno == EAGAIN))
        return;
    if (got <= 0)
        stop_with(STATUS_SYSTEM, "nobody tells the round any more");
    clock->len += (size_t)got;
    take_numbers(clock);
    if (clock->len == sizeof clock->bytes)
        stop_with(STATUS_SYSTEM, "what tells the round is no number");
}

void clock_tell_sent(const struct clock *clock, uint32_t round)
{
    char line[16];
    if (clock->beat < 0)
        return;
    int len = snprintf(line, sizeof line, "%lu\n", (unsigned long)round);
    if (write(clock->beat, line, (size_t)len) != len)
        stop_with(STATUS_SYSTEM, "nobody tells the round any more");
}
