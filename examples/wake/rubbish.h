/* What a host at fault sends beside its own messages. */
#ifndef RUBBISH_H
#define RUBBISH_H

#include "network.h"

void send_rubbish(int from, uint64_t epoch);

#endif
