#include "saved.h"

#include <errno.h>
#include <fcntl.h>
#include <libgen.h>
#include <stdio.h>
#include <string.h>
#include <unistd.h>

#include "bytes.h"
#include "faults.h"
#include "siphash.h"

enum { RUN = 8, DONE = 16, STATIONS = 20, OWN = 21, ZERO = 22, REPORT = 24, STATE = 32, TEXT = 36, PATH_MOST = 4096 };

static const char letters[] = "RELAYST1";
static const uint8_t no_key[KEY_BYTES];

size_t saved_encode(uint8_t bytes[SAVED_MOST], const struct saved *saved)
{
    memcpy(bytes, letters, RUN);
    put_number(bytes + RUN, saved->run, 8);
    put_number(bytes + DONE, saved->done, 4);
    bytes[STATIONS] = (uint8_t)saved->n;
    bytes[OWN] = (uint8_t)saved->own;
    put_number(bytes + ZERO, 0, REPORT - ZERO);
    put_number(bytes + REPORT, saved->report_len, 8);
    put_number(bytes + STATE, STATE_BYTES, 4);
    put_number(bytes + TEXT, saved->text_len, 4);
    memcpy(bytes + SAVED_HEAD, saved->state, STATE_BYTES);
    memcpy(bytes + SAVED_HEAD + STATE_BYTES, saved->text, saved->text_len);
    size_t len = SAVED_HEAD + STATE_BYTES + saved->text_len;
    put_number(bytes + len, siphash(no_key, bytes, len), 8);
    return len + 8;
}

const char *saved_decode(const uint8_t *bytes, size_t len, struct saved *saved)
{
    if (len < SAVED_HEAD + STATE_BYTES + 8 || memcmp(bytes, letters, RUN) != 0)
        return "no saved state of this host";
    if (number_at(bytes + STATE, 4) != STATE_BYTES)
        return "a saved state of another edition of the library";
    size_t text_len = (size_t)number_at(bytes + TEXT, 4);
    if (text_len > TEXT_MOST || len != SAVED_HEAD + STATE_BYTES + text_len + 8)
        return "cut, or longer than it says";
    if (number_at(bytes + ZERO, REPORT - ZERO) != 0 || siphash(no_key, bytes, len - 8) != number_at(bytes + len - 8, 8))
        return "damaged";
    *saved = (struct saved){.run = number_at(bytes + RUN, 8), .report_len = number_at(bytes + REPORT, 8),
                            .done = (uint32_t)number_at(bytes + DONE, 4), .n = bytes[STATIONS], .own = bytes[OWN],
                            .state = bytes + SAVED_HEAD, .text = (const char *)bytes + SAVED_HEAD + STATE_BYTES,
                            .text_len = text_len};
    if (!engine_accepts(saved->state, saved->n, saved->own))
        return "no state of its station";
    return NULL;
}

static void name_beside(char beside[PATH_MOST], const char *file, const char *ending)
{
    if (snprintf(beside, PATH_MOST, "%s%s", file, ending) >= PATH_MOST)
        stop_with(STATUS_USAGE, "the name of the state file is too long");
}

/* Renaming is on the disk once the folder is. */
static void sync_folder(const char *file)
{
    char copy[PATH_MOST];
    name_beside(copy, file, "");
    int folder = open(dirname(copy), O_RDONLY | O_DIRECTORY | O_CLOEXEC);
    if (folder < 0 || fsync(folder) < 0)
        stop("cannot save the folder of %s", file);
    close(folder);
}

static void write_whole(int made, const char *name, const uint8_t *bytes, size_t len)
{
    while (len > 0) {
        ssize_t written = write(made, bytes, len);
        if (written < 0 && errno != EINTR)
            stop("cannot write %s", name);
        if (written > 0) {
            bytes += written;
            len -= (size_t)written;
        }
    }
}

void saved_write(const char *file, const struct saved *saved)
{
    static uint8_t bytes[SAVED_MOST];
    char beside[PATH_MOST];
    name_beside(beside, file, ".new");
    size_t len = saved_encode(bytes, saved);
    int made = open(beside, O_WRONLY | O_CREAT | O_TRUNC | O_CLOEXEC, 0600);
    if (made < 0)
        stop("cannot write %s", beside);
    write_whole(made, beside, bytes, len);
    if (fsync(made) < 0 || close(made) < 0)
        stop("cannot save %s", beside);
    if (rename(beside, file) < 0)
        stop("cannot replace %s", file);
    sync_folder(file);
}

int saved_read(const char *file, struct saved *saved)
{
    static uint8_t bytes[SAVED_MOST + 1];
    FILE *opened = fopen(file, "rb");
    if (opened == NULL && errno == ENOENT)
        return 0;
    if (opened == NULL)
        stop("cannot read %s", file);
    size_t len = fread(bytes, 1, sizeof bytes, opened);
    if (ferror(opened))
        stop("cannot read %s", file);
    fclose(opened);
    const char *wrong = saved_decode(bytes, len, saved);
    if (wrong != NULL)
        stop_with(STATUS_OLD_STATE, "%s is %s: see docs/HOST.md", file, wrong);
    return 1;
}

void saved_lock(const char *file)
{
    char beside[PATH_MOST];
    struct flock whole = {.l_type = F_WRLCK, .l_whence = SEEK_SET};
    name_beside(beside, file, ".lock");
    int held = open(beside, O_RDWR | O_CREAT | O_CLOEXEC, 0600);
    if (held < 0)
        stop("cannot open %s", beside);
    if (fcntl(held, F_SETLK, &whole) < 0) {
        if (errno != EACCES && errno != EAGAIN)
            stop("cannot lock %s", beside);
        stop_with(STATUS_USAGE, "another host runs on %s", file);
    }
}
