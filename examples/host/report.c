#include "report.h"

#include <errno.h>
#include <fcntl.h>
#include <stdio.h>
#include <string.h>
#include <sys/stat.h>
#include <unistd.h>

#include "faults.h"

static void append(struct report *report, const char *text, size_t len)
{
    while (len > 0) {
        ssize_t written = write(report->file, text, len);
        if (written < 0 && errno != EINTR)
            stop("cannot write %s", report->name);
        if (written > 0) {
            text += written;
            len -= (size_t)written;
            report->len += (uint64_t)written;
        }
    }
}

/* Whether the file has, from there to its end, a beginning of the text that was saved last. */
static int fits(const struct report *report, uint64_t from, const struct saved *last)
{
    static char bytes[TEXT_MOST];
    size_t len = 0, due = (size_t)(report->len - from);
    if (due > last->text_len)
        return 0;
    while (len < due) {
        ssize_t got = pread(report->file, bytes + len, due - len, (off_t)(from + len));
        if (got == 0 || (got < 0 && errno != EINTR))
            stop("cannot read %s", report->name);
        len += got > 0 ? (size_t)got : 0;
    }
    return memcmp(bytes, last->text, due) == 0;
}

/* R lines stay in the file: they come in every round. */
static void print(const struct report *report, const char *text, size_t len)
{
    while (len > 0) {
        const char *end = memchr(text, '\n', len);
        size_t line = end != NULL ? (size_t)(end - text) + 1 : len;
        if (text[0] != 'R')
            fwrite(text, 1, line, stdout);
        text += line;
        len -= line;
    }
    fflush(stdout);
    if (ferror(stdout) && report->file < 0)
        stop("cannot write standard output");
    clearerr(stdout);
}

static void find_end(struct report *report, const struct saved *last)
{
    struct stat found;
    if (fstat(report->file, &found) < 0)
        stop("cannot open %s", report->name);
    report->len = (uint64_t)found.st_size;
    if (report->len < last->report_len) {
        warn("%s has lost %llu bytes: the record of this run has a gap", report->name,
             (unsigned long long)(last->report_len - report->len));
        append(report, last->text, last->text_len);
    } else if (fits(report, last->report_len, last)) {
        size_t there = (size_t)(report->len - last->report_len);
        append(report, last->text + there, last->text_len - there);
    } else {
        stop_with(STATUS_OLD_STATE, "the saved state is older than %s, so it must not be used: see docs/HOST.md",
                  report->name);
    }
}

struct report report_open(const char *name, const struct saved *last)
{
    struct report report = {-1, 0, name};
    if (name != NULL) {
        report.file = open(name, O_RDWR | O_CREAT | O_APPEND | O_CLOEXEC, 0644);
        if (report.file < 0)
            stop("cannot open %s", name);
        find_end(&report, last);
    }
    print(&report, last->text, last->text_len);
    return report;
}

void report_sync(const struct report *report)
{
    if (report->file >= 0 && fdatasync(report->file) < 0)
        stop("cannot save %s", report->name);
}

void report_tell(struct report *report, const char *text, size_t len)
{
    if (report->file >= 0)
        append(report, text, len);
    print(report, text, len);
}
