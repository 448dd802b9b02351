/* The host's own words, on standard error: `host 3: ..`, with the station's number once it is known. */
#ifndef HOST_FAULTS_H
#define HOST_FAULTS_H

#include <stdint.h>

/* How a host ends that does not end well. */
enum { STATUS_SYSTEM = 1, STATUS_USAGE = 2, STATUS_OLD_STATE = 3 };

void name_station(uint32_t station);

__attribute__((format(printf, 1, 2))) void warn(const char *form, ...);

/* Ends the host: the system refuses something that it cannot go on without. Tells what errno says, if anything. */
__attribute__((format(printf, 1, 2), noreturn)) void stop(const char *form, ...);

/* Ends the host with this status. */
__attribute__((format(printf, 2, 3), noreturn)) void stop_with(int status, const char *form, ...);

#endif
