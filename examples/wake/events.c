#include "events.h"

#include <stdio.h>
#include <stdlib.h>

enum { MOST = 32768 };

static struct event events[MOST];
static int count;
static uint64_t calls;

void events_clear(void)
{
    count = 0;
    calls = 0;
}

void next_call(void) { calls++; }

uint64_t calls_so_far(void) { return calls; }

void note(int host, uint64_t epoch, enum what what, int who, int about, uint64_t number)
{
    if (count == MOST) {
        fprintf(stderr, "wake: no room for more events\n");
        exit(2);
    }
    events[count++] = (struct event){calls, host, epoch, what, who, about, number};
}

int event_count(void) { return count; }

const struct event *event_at(int i) { return &events[i]; }
