#include "lines.h"

#include <stdarg.h>
#include <stdio.h>
#include <string.h>

#include "faults.h"

int text_has_room(const struct text *text, size_t lines)
{
    return TEXT_MOST - text->len >= lines * LINE_BYTES;
}

__attribute__((format(printf, 2, 3))) static void put(struct text *text, const char *form, ...)
{
    va_list rest;
    va_start(rest, form);
    int len = vsnprintf(text->bytes + text->len, TEXT_MOST - text->len, form, rest);
    va_end(rest);
    if (len < 0 || (size_t)len >= TEXT_MOST - text->len)
        stop_with(STATUS_SYSTEM, "there is no room for a line of the report");
    text->len += (size_t)len;
}

void put_listing_line(struct text *text, uint32_t round, char letter, uint32_t station, uint32_t source,
                      struct body body)
{
    put(text, "%6lu %c%3lu%3lu%2lu%9lu%9ld\n", (unsigned long)round, letter, (unsigned long)station,
        (unsigned long)source, (unsigned long)body.kind, (unsigned long)body.event, (long)body.argument);
}

void put_post_line(struct text *text, uint32_t station, struct body edit)
{
    put(text, "P%9lu%9lu%9lu%9ld\n", (unsigned long)station, (unsigned long)edit.kind, (unsigned long)edit.event,
        (long)edit.argument);
}

void put_round_line(struct text *text, uint32_t mask)
{
    put(text, "R%9lu\n", (unsigned long)mask);
}

void put_text(struct text *text, const struct text *more)
{
    if (more->len > TEXT_MOST - text->len)
        stop_with(STATUS_SYSTEM, "there is no room for the report");
    memcpy(text->bytes + text->len, more->bytes, more->len);
    text->len += more->len;
}
