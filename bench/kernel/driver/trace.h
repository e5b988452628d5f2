/* What ftrace writes of ksmd while the scripts run, where the folder of the scripts has a file `trace`. */
#ifndef TRACE_H
#define TRACE_H

#include <stdio.h>

/* Does what each line of the file says: a file of tracefs, and what is written to it. */
void trace_start(void);

/* Writes the counters into the trace. ksmd sleeps. */
void trace_counters(void);

/* Copies the trace to the replies, each line behind the word `trace`, and empties it. */
void trace_copy(FILE *replies);

#endif
