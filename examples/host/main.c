/* A host for the edit relay: one station, with the others behind UDP sockets, and rounds by the clock (docs/HOST.md).

   In every round the host sends the station's frame to all that it has a link with, keeps what comes for this round
   until it closes, has the station hear it by ascending sender and take its turn, saves the state, and only then tells
   what was taken, aired and ended, and sends the next frame. A host that was stopped or killed goes on from the saved
   state: it closes the rounds that it missed, in which it heard nobody.

   examples/host/build makes it: target/host. */
#include <errno.h>
#include <poll.h>
#include <signal.h>
#include <stdio.h>
#include <string.h>
#include <sys/socket.h>
#include <unistd.h>

#include "clock.h"
#include "faults.h"
#include "options.h"
#include "peers.h"
#include "posts.h"
#include "report.h"
#include "saved.h"
#include "station.h"

/* Datagrams that are read at most before the clock is looked at, and bytes that may wait to be read. */
enum { DATAGRAMS_AT_ONCE = 512, SOCKET_ROOM = 1 << 20 };

struct host {
    struct options options;
    struct peers peers;
    struct clock clock;
    struct station station;
    struct report report;
    struct posts posts;
    int socket;
    uint32_t sent;   /* the last round whose frame was sent by this process */
    uint64_t unsent; /* datagrams that the system did not take */
};

static int open_socket(const struct sockaddr_in *own)
{
    int made = socket(AF_INET, SOCK_DGRAM | SOCK_CLOEXEC | SOCK_NONBLOCK, 0), room = SOCKET_ROOM;
    if (made < 0 || bind(made, (const struct sockaddr *)own, sizeof *own) < 0)
        stop("cannot listen on port %d", ntohs(own->sin_port));
    setsockopt(made, SOL_SOCKET, SO_RCVBUF, &room, sizeof room);
    return made;
}

/* Puts a count behind a line, if it is not 0. */
static int put_count(char *line, size_t room, const char *name, uint64_t count)
{
    return count == 0 ? 0 : snprintf(line, room, " %s=%llu", name, (unsigned long long)count);
}

static void tell_status(const struct host *host)
{
    const struct station *station = &host->station;
    char line[2000];
    int len = snprintf(line, sizeof line, "done=%lu heard=%llu missed=%llu unsent=%llu", (unsigned long)station->done,
                       (unsigned long long)station->heard, (unsigned long long)station->missed,
                       (unsigned long long)host->unsent);
    for (int fate = 0; fate < FATES; fate++)
        len += snprintf(line + len, sizeof line - (size_t)len, " %s=%llu", fate_name((enum fate)fate),
                        (unsigned long long)station->inbox.fates[fate]);
    for (int refusal = 0; refusal < REFUSALS; refusal++)
        if (station->inbox.refused[refusal] != 0)
            len += snprintf(line + len, sizeof line - (size_t)len, " refused-%d=%llu", refusal,
                            (unsigned long long)station->inbox.refused[refusal]);
    len += put_count(line + len, sizeof line - (size_t)len, "other-n", station->inbox.other_n);
    len += put_count(line + len, sizeof line - (size_t)len, "other-edition", station->inbox.other_edition);
    for (uint32_t k = 0; k < station->n; k++)
        if (k != station->own)
            len += snprintf(line + len, sizeof line - (size_t)len, " last-%lu=%lu", (unsigned long)k,
                            (unsigned long)station->last_heard[k]);
    warn("%s", line);
}

/* Saves the state, and then tells what is to be told. */
static void save_and_tell(struct host *host)
{
    struct station *station = &host->station;
    struct saved saved = {.run = host->options.epoch_ms, .report_len = host->report.len, .done = station->done,
                          .n = station->n, .own = station->own, .state = station->state,
                          .text = station->text.bytes, .text_len = station->text.len};
    report_sync(&host->report);
    saved_write(host->options.state, &saved);
    report_tell(&host->report, station->text.bytes, station->text.len);
    station->text.len = 0;
}

/* Only false frames under the group's key can bring a station to where it has no frame to send (10). It then stays
   silent, and goes on. */
static void send_frame(struct host *host, uint32_t round)
{
    struct stamp stamp = {host->options.epoch_ms, round, host->station.own};
    uint8_t frame[FRAME_MOST], datagram[DATAGRAM_MOST];
    size_t len;
    uint32_t refusal = engine_write(host->station.state, frame, &len);
    host->sent = round;
    if (refusal == RELAY_DONE)
        len = datagram_seal(datagram, host->options.key, stamp, frame, len);
    else
        warn("round %lu: there is no frame to send: %lu", (unsigned long)round, (unsigned long)refusal);
    for (int k = 0; k < host->peers.count; k++) {
        const struct sockaddr_in *to = &host->peers.peers[k].address;
        if (refusal != RELAY_DONE
            || sendto(host->socket, datagram, len, 0, (const struct sockaddr *)to, sizeof *to) < 0)
            host->unsent++;
    }
    clock_tell_sent(&host->clock, round);
}

/* Takes what has come. An error is that of a datagram sent before: its receiver is down. */
static void receive(struct host *host)
{
    uint8_t datagram[DATAGRAM_MOST + 1]; /* a byte more, so that a longer datagram shows as too long */
    for (int k = 0; k < DATAGRAMS_AT_ONCE; k++) {
        struct sockaddr_in from;
        socklen_t size = sizeof from;
        ssize_t len = recvfrom(host->socket, datagram, sizeof datagram, 0, (struct sockaddr *)&from, &size);
        if (len >= 0)
            inbox_take(&host->station.inbox, peers_find(&host->peers, &from), datagram, (size_t)len);
        else if (errno == EAGAIN || errno == EWOULDBLOCK)
            return;
    }
}

/* Closes the open round and all that the clock has passed since. */
static void close_rounds(struct host *host, uint32_t now)
{
    struct station *station = &host->station;
    uint32_t before = station->done, every = host->options.status;
    while (station->done + 1 < now && station->done < host->options.rounds
           && text_has_room(&station->text, TURN_LINES))
        station_close(station);
    save_and_tell(host);
    if (every != 0 && station->done / every != before / every)
        tell_status(host);
}

/* Waits for datagrams, posts, or the round's end. */
static void wait_and_take(struct host *host, uint32_t open)
{
    struct pollfd ready[3] = {{.fd = host->socket, .events = POLLIN}, {.fd = host->posts.file, .events = POLLIN},
                              {.fd = host->clock.beat, .events = POLLIN}};
    if (poll(ready, 3, clock_wait(&host->clock, open)) < 0) {
        if (errno != EINTR)
            stop("cannot wait");
        return;
    }
    if (ready[0].revents != 0)
        receive(host);
    if (ready[1].revents != 0) {
        posts_read(&host->posts, &host->station);
        if (host->station.text.len != 0)
            save_and_tell(host);
    }
    if (ready[2].revents != 0)
        clock_read_beat(&host->clock);
}

static void run(struct host *host)
{
    while (host->station.done < host->options.rounds) {
        uint32_t now = clock_round(&host->clock), open = host->station.done + 1;
        if (now > open) {
            receive(host);
            close_rounds(host, now);
            continue;
        }
        if (now == open && host->sent < open)
            send_frame(host, open);
        wait_and_take(host, open);
    }
}

/* A fresh station, or the one that was saved. */
static struct saved begin(struct host *host)
{
    const struct options *options = &host->options;
    struct station *station = &host->station;
    struct saved last = {.run = options->epoch_ms, .n = options->n, .own = options->station, .text = ""};
    int found = saved_read(options->state, &last);
    if (found && options->fresh)
        stop_with(STATUS_USAGE, "%s is there already: leave out --fresh, or take another file", options->state);
    if (!found && !options->fresh)
        stop_with(STATUS_OLD_STATE, "there is no %s: --fresh begins a station, one that never ran in this run",
                  options->state);
    if (last.run != options->epoch_ms || last.n != options->n || last.own != options->station)
        stop_with(STATUS_OLD_STATE, "%s is of station %lu of %lu in run %llu", options->state, (unsigned long)last.own,
                  (unsigned long)last.n, (unsigned long long)last.run);
    station->n = last.n;
    station->own = last.own;
    station->done = last.done;
    if (found)
        memcpy(station->state, last.state, STATE_BYTES);
    else if (engine_fresh(station->state, last.n, last.own) != RELAY_DONE)
        stop_with(STATUS_USAGE, "there is no station %lu of %lu", (unsigned long)last.own, (unsigned long)last.n);
    station->inbox = (struct inbox){.n = last.n, .own = last.own, .open = last.done + 1, .run = last.run};
    memcpy(station->inbox.key, options->key, KEY_BYTES);
    return last;
}

int main(int argc, char **argv)
{
    static struct host host;
    host.options = options_read(argc, argv);
    name_station(host.options.station);
    signal(SIGPIPE, SIG_IGN);
    host.clock = (struct clock){.begin = host.options.epoch_ms, .length = host.options.round_ms,
                                .beat = host.options.beat};
    peers_read(&host.peers, host.options.peers, host.options.n, host.options.station);
    saved_lock(host.options.state);
    host.socket = open_socket(&host.peers.own);
    struct saved last = begin(&host);
    host.report = report_open(host.options.report, &last);
    save_and_tell(&host);
    run(&host);
    tell_status(&host);
    return 0;
}
