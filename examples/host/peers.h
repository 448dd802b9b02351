/* The peers file: where the stations are. A line is a station's number, an IPv4 address or a name, and a port:

       0 127.0.0.1 7100
       1 127.0.0.1 7101      # and a comment

   The own line, just one, is where this host listens. Every other line is a link: frames go to that address, and come
   from it. A station may have several lines, one a carrier; one without a line is not linked with this station. */
#ifndef HOST_PEERS_H
#define HOST_PEERS_H

#include <netinet/in.h>
#include <stdint.h>

enum { PEERS_MOST = 64 };

struct peer { uint32_t station; struct sockaddr_in address; };

struct peers { int count; struct peer peers[PEERS_MOST]; struct sockaddr_in own; };

/* Ends the host where the file is wrong, and says in which line. */
void peers_read(struct peers *peers, const char *file, uint32_t n, uint32_t own);

/* The station that has this address, or -1. */
int peers_find(const struct peers *peers, const struct sockaddr_in *from);

#endif
