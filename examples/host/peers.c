#include "peers.h"

#include <netdb.h>
#include <stdio.h>
#include <string.h>
#include <sys/socket.h>

#include "faults.h"

struct line { const char *file; int number; };

static struct sockaddr_in address_of(struct line at, const char *name, const char *port)
{
    struct addrinfo wanted = {.ai_family = AF_INET, .ai_socktype = SOCK_DGRAM}, *found;
    struct sockaddr_in address;
    int wrong = getaddrinfo(name, port, &wanted, &found);
    if (wrong != 0)
        stop_with(STATUS_USAGE, "%s, line %d: %s %s: %s", at.file, at.number, name, port, gai_strerror(wrong));
    memcpy(&address, found->ai_addr, sizeof address);
    freeaddrinfo(found);
    return address;
}

static void take_line(struct peers *peers, struct line at, char *text, uint32_t n, uint32_t own, int *own_lines)
{
    char name[256], port[16], more;
    unsigned station;
    text[strcspn(text, "#\n")] = '\0';
    int count = sscanf(text, "%u %255s %15s %c", &station, name, port, &more);
    if (count <= 0 && text[strspn(text, " \t\r")] == '\0')
        return;
    if (count != 3 || station >= n)
        stop_with(STATUS_USAGE, "%s, line %d: not a station below %lu, an address and a port", at.file, at.number,
                  (unsigned long)n);
    struct sockaddr_in address = address_of(at, name, port);
    if (station == own) {
        peers->own = address;
        ++*own_lines;
    } else if (peers->count == PEERS_MOST) {
        stop_with(STATUS_USAGE, "%s, line %d: more than %d links", at.file, at.number, PEERS_MOST);
    } else {
        peers->peers[peers->count++] = (struct peer){station, address};
    }
}

void peers_read(struct peers *peers, const char *file, uint32_t n, uint32_t own)
{
    char text[1024];
    int own_lines = 0;
    struct line at = {file, 0};
    FILE *opened = fopen(file, "r");
    if (opened == NULL)
        stop("cannot read %s", file);
    peers->count = 0;
    while (fgets(text, sizeof text, opened) != NULL) {
        at.number++;
        if (strchr(text, '\n') == NULL && !feof(opened))
            stop_with(STATUS_USAGE, "%s, line %d: longer than %zu bytes", file, at.number, sizeof text - 2);
        take_line(peers, at, text, n, own, &own_lines);
    }
    if (ferror(opened))
        stop("cannot read %s", file);
    fclose(opened);
    if (own_lines != 1)
        stop_with(STATUS_USAGE, "%s: %d lines of station %lu itself, not one", file, own_lines, (unsigned long)own);
}

int peers_find(const struct peers *peers, const struct sockaddr_in *from)
{
    for (int k = 0; k < peers->count; k++) {
        const struct sockaddr_in *address = &peers->peers[k].address;
        if (from->sin_port == address->sin_port && from->sin_addr.s_addr == address->sin_addr.s_addr)
            return (int)peers->peers[k].station;
    }
    return -1;
}
