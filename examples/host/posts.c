#include "posts.h"

#include <errno.h>
#include <stdio.h>
#include <stdlib.h>
#include <string.h>
#include <unistd.h>

#include "faults.h"

enum { COLUMNS_MOST = 999999999, COLUMNS_LEAST = -99999999 };

static int number_of(const char *word, long least, long *number)
{
    char *end;
    errno = 0;
    *number = strtol(word, &end, 10);
    return errno == 0 && end != word && *end == '\0' && *number >= least && *number <= COLUMNS_MOST;
}

static int kind_of(const char *word, long *kind)
{
    static const char *const kinds[] = {"insert", "drop", "shift"};
    for (int k = 0; k < 3; k++)
        if (strcmp(word, kinds[k]) == 0) {
            *kind = 2 + k;
            return 1;
        }
    return number_of(word, 0, kind);
}

int post_of(const char *line, struct body *edit)
{
    char words[3][16], more;
    long kind, event, argument = 0;
    int count = sscanf(line, "%15s %15s %15s %c", words[0], words[1], words[2], &more);
    if (count < 2 || count > 3 || !kind_of(words[0], &kind) || !number_of(words[1], 0, &event)
        || (count == 3 && !number_of(words[2], COLUMNS_LEAST, &argument)))
        return 0;
    *edit = (struct body){(uint32_t)kind, (uint32_t)event, (int32_t)argument};
    return 1;
}

static void post_line(struct station *station, const char *line)
{
    struct body edit;
    if (post_of(line, &edit))
        station_post(station, edit);
    else if (line[strspn(line, " \t\r")] != '\0')
        warn("this is no post: %.60s", line);
}

/* Posts the whole lines and keeps the rest for later. A line that fills the buffer is skipped up to its end. */
static void take_lines(struct posts *posts, struct station *station)
{
    char *line = posts->bytes, *end;
    while ((end = memchr(line, '\n', (size_t)(posts->bytes + posts->len - line))) != NULL) {
        *end = '\0';
        if (!posts->skipping)
            post_line(station, line);
        posts->skipping = 0;
        line = end + 1;
    }
    posts->len = (size_t)(posts->bytes + posts->len - line);
    memmove(posts->bytes, line, posts->len);
    if (posts->len == sizeof posts->bytes) {
        posts->len = 0;
        posts->skipping = 1;
    }
}

void posts_read(struct posts *posts, struct station *station)
{
    ssize_t got = read(posts->file, posts->bytes + posts->len, sizeof posts->bytes - posts->len);
    if (got < 0 && (errno == EINTR || errno == EAGAIN))
        return;
    if (got <= 0) {
        posts->file = -1;
        return;
    }
    posts->len += (size_t)got;
    take_lines(posts, station);
}
