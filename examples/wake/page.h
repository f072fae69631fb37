/* The run as one HTML page that needs nothing from outside: for each epoch a line of time for each host. */
#ifndef PAGE_H
#define PAGE_H

#include "host.h"

bool write_page(const char *file, const struct host hosts[HOSTS], uint64_t seed, bool agree);

#endif
