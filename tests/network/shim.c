/* Loaded before a host (LD_PRELOAD): it watches the calls by which the host saves, tells and sends.

   RELAY_KILL_CALL=K kills the process at its K-th watched call: before it, or with RELAY_KILL_AFTER=1 behind it, where
   a write is cut in the middle. With RELAY_KILL_AFTER=2 the call fails instead, as on a broken disk; sending fails up
   to the next call that is none, for a host lives with a link that is down.

   RELAY_CLOCK=FILE adds the milliseconds that the file holds to the system's clock, as if somebody set it.

   Whatever else, it ends the process with a message where it
   - puts a file in place of the state that is not on the disk, or while lines of the report are not;
   - writes the report or sends before the state's folder is on the disk;
   - sends a frame of another round than the one after the last that is saved;
   - writes lines to the report that are not saved. */
#define _GNU_SOURCE
#include <dlfcn.h>
#include <errno.h>
#include <fcntl.h>
#include <signal.h>
#include <stdarg.h>
#include <stdint.h>
#include <stdio.h>
#include <stdlib.h>
#include <string.h>
#include <sys/socket.h>
#include <time.h>
#include <unistd.h>

enum { FILES = 64, SAVED_MOST = 1 << 18, SAVED_DONE = 16, STAMP_ROUND = 16, STAMP = 24 };
enum kind { OTHER, STATE, REPORT, FOLDER };

static enum kind kinds[FILES];
static int state_dirty, report_dirty, folder_dirty;
static uint8_t written[SAVED_MOST], saved[SAVED_MOST];
static size_t written_len, saved_len;

#define REAL(type, name, ...) type (*real)(__VA_ARGS__) = (type (*)(__VA_ARGS__))dlsym(RTLD_NEXT, name)

static void wrong(const char *what)
{
    fprintf(stderr, "shim: the host %s\n", what);
    abort();
}

static int put_off; /* a call failed that a host lives with: the next one fails too */

/* 1 where the process is to die at this call. */
static int due(void)
{
    static long calls;
    const char *at = getenv("RELAY_KILL_CALL");
    int now = put_off;
    put_off = 0;
    return now || (at != NULL && ++calls == atol(at));
}

/* What happens there: before the call, behind it, or a failure. */
enum way { BEFORE, BEHIND, FAILS };

static enum way way(void)
{
    const char *set = getenv("RELAY_KILL_AFTER");
    return set != NULL && *set >= '0' && *set <= '2' ? (enum way)(*set - '0') : BEFORE;
}

static int failed(void)
{
    errno = EIO;
    return -1;
}

static void die(void)
{
    kill(getpid(), SIGKILL);
    pause();
}

static enum kind kind_of(int file)
{
    return file >= 0 && file < FILES ? kinds[file] : OTHER;
}

static int ends_with(const char *name, const char *ending)
{
    size_t len = strlen(name), more = strlen(ending);
    return len >= more && strcmp(name + len - more, ending) == 0;
}

/* What an earlier process saved, which this one goes on from: STATION.state beside STATION.report. */
static void load_saved(const char *report)
{
    char name[4096];
    snprintf(name, sizeof name, "%.*sstate", (int)(strlen(report) - strlen("report")), report);
    FILE *file = fopen(name, "rb");
    if (file != NULL) {
        saved_len = fread(saved, 1, sizeof saved, file);
        fclose(file);
    }
}

int open(const char *name, int flags, ...)
{
    REAL(int, "open", const char *, int, ...);
    va_list rest;
    va_start(rest, flags);
    int mode = flags & O_CREAT ? va_arg(rest, int) : 0;
    va_end(rest);
    int file = real(name, flags, mode);
    if (file >= 0 && file < FILES) {
        kinds[file] = flags & O_DIRECTORY ? FOLDER
                      : ends_with(name, ".new") ? STATE
                      : ends_with(name, ".report") ? REPORT : OTHER;
        if (kinds[file] == STATE)
            written_len = 0;
        if (kinds[file] == REPORT)
            load_saved(name);
    }
    return file;
}

static void watch_write(enum kind kind, const void *bytes, size_t len)
{
    if (kind == STATE && written_len + len <= SAVED_MOST) {
        memcpy(written + written_len, bytes, len);
        written_len += len;
        state_dirty = 1;
    }
    if (kind == REPORT) {
        if (folder_dirty)
            wrong("writes its report before the state is saved");
        if (memmem(saved, saved_len, bytes, len) == NULL)
            wrong("reports what is not saved");
        report_dirty = 1;
    }
}

ssize_t write(int file, const void *bytes, size_t len)
{
    REAL(ssize_t, "write", int, const void *, size_t);
    int dies = due();
    watch_write(kind_of(file), bytes, len);
    if (!dies)
        return real(file, bytes, len);
    if (way() != BEFORE && real(file, bytes, len / 2) < 0)
        wrong("cannot write");
    if (way() != FAILS)
        die();
    return failed();
}

static void watch_sync(enum kind kind)
{
    if (kind == STATE)
        state_dirty = 0;
    if (kind == REPORT)
        report_dirty = 0;
    if (kind == FOLDER)
        folder_dirty = 0;
}

static int sync_by(const char *name, int file)
{
    REAL(int, name, int);
    int dies = due();
    if (dies && way() == BEFORE)
        die();
    if (dies && way() == FAILS)
        return failed();
    watch_sync(kind_of(file));
    int result = real(file);
    if (dies)
        die();
    return result;
}

int fsync(int file)
{
    return sync_by("fsync", file);
}

int fdatasync(int file)
{
    return sync_by("fdatasync", file);
}

int rename(const char *from, const char *to)
{
    REAL(int, "rename", const char *, const char *);
    int dies = due();
    if (state_dirty)
        wrong("renames a state that is not on the disk");
    if (report_dirty)
        wrong("replaces a state whose lines are not on the disk");
    if (dies && way() == BEFORE)
        die();
    if (dies && way() == FAILS)
        return failed();
    int result = real(from, to);
    memcpy(saved, written, written_len);
    saved_len = written_len;
    folder_dirty = 1;
    if (dies)
        die();
    return result;
}

int clock_gettime(clockid_t which, struct timespec *now)
{
    REAL(int, "clock_gettime", clockid_t, struct timespec *);
    const char *name = getenv("RELAY_CLOCK");
    long added = 0;
    int result = real(which, now);
    FILE *file = name != NULL && which == CLOCK_REALTIME ? fopen(name, "r") : NULL;
    if (file != NULL) {
        if (fscanf(file, "%ld", &added) == 1)
            now->tv_sec += added / 1000;
        fclose(file);
    }
    return result;
}

static uint32_t number_at(const uint8_t *at)
{
    return at[0] | (uint32_t)at[1] << 8 | (uint32_t)at[2] << 16 | (uint32_t)at[3] << 24;
}

ssize_t sendto(int to, const void *bytes, size_t len, int flags, const struct sockaddr *address, socklen_t size)
{
    REAL(ssize_t, "sendto", int, const void *, size_t, int, const struct sockaddr *, socklen_t);
    int dies = due();
    if (folder_dirty)
        wrong("sends before the state is saved");
    if (len <= STAMP || saved_len == 0
        || number_at((const uint8_t *)bytes + STAMP_ROUND) != number_at(saved + SAVED_DONE) + 1)
        wrong("sends a frame of a round that does not follow the saved one");
    if (dies && way() == BEFORE)
        die();
    if (dies && way() == FAILS) {
        put_off = 1;
        return failed();
    }
    ssize_t result = real(to, bytes, len, flags, address, size);
    if (dies)
        die();
    return result;
}
