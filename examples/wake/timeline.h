/* One epoch as a picture: a line of time for each host, with its calls, votes, faults and batch. */
#ifndef TIMELINE_H
#define TIMELINE_H

#include "host.h"

#include <stdio.h>

void write_timeline(FILE *out, const struct host hosts[HOSTS], uint64_t epoch);

#endif
