/* What the hosts say, the table in which they must agree, and what was seen: as text on standard output. */
#ifndef REPORT_H
#define REPORT_H

#include "host.h"

/* Whether all is as it should be: every host that has a batch has the same one and names the same waker, who alone wakes the guest; a host
 * without a batch skipped the epoch; no engine and no host met anything that should never happen. `why` names the first thing that is not */
bool all_agree(const struct host hosts[HOSTS], const char **why);

/* "2,816" */
const char *grouped(int number, char text[16]);

void report_scene(uint64_t seed);
void report_hosts(const struct host hosts[HOSTS]);
void report_table(const struct host hosts[HOSTS]);
void report_seen(const struct host hosts[HOSTS]);

#endif
