/* The report: every line that the station tells, once and in order, in a file; and all but R lines on standard output.

   Lines are saved with the state before they are written here, so none is lost. When the host begins again it finds how
   far it came in the file, and writes the rest; a file that is further than the saved state shows that the state is
   old. On standard output the lines that were saved last come again, for nobody knows how far they came. */
#ifndef HOST_REPORT_H
#define HOST_REPORT_H

#include "lines.h"
#include "saved.h"

struct report { int file; uint64_t len; const char *name; }; /* file is -1 where there is none */

/* Opens the file, if there is a name, and writes what is missing in it of the text that was saved last. Ends the host
   where the file shows that the saved state is old. */
struct report report_open(const char *name, const struct saved *last);

/* The text up to here is on the disk: before a newer state replaces the one that still has it. */
void report_sync(const struct report *report);

/* Tells the lines of a text that is saved. */
void report_tell(struct report *report, const char *text, size_t len);

#endif
