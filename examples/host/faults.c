#include "faults.h"

#include <errno.h>
#include <stdarg.h>
#include <stdio.h>
#include <stdlib.h>
#include <string.h>

static char name[32] = "host";

void name_station(uint32_t station)
{
    snprintf(name, sizeof name, "host %lu", (unsigned long)station);
}

static void say(const char *form, va_list rest, int error)
{
    char text[2000];
    vsnprintf(text, sizeof text, form, rest);
    if (error != 0)
        fprintf(stderr, "%s: %s: %s\n", name, text, strerror(error));
    else
        fprintf(stderr, "%s: %s\n", name, text);
}

void warn(const char *form, ...)
{
    va_list rest;
    va_start(rest, form);
    say(form, rest, 0);
    va_end(rest);
}

void stop(const char *form, ...)
{
    va_list rest;
    va_start(rest, form);
    say(form, rest, errno);
    va_end(rest);
    exit(STATUS_SYSTEM);
}

void stop_with(int status, const char *form, ...)
{
    va_list rest;
    va_start(rest, form);
    say(form, rest, 0);
    va_end(rest);
    exit(status);
}
