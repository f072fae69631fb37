/* What happened, in order, for the page and the table of what was seen. */
#ifndef EVENTS_H
#define EVENTS_H

#include <stdint.h>

enum what {
    PROPOSED, /* a propose */
    HANDLED,  /* a message; who: sender, about: proposer, number: content */
    LATE,     /* a message for an epoch that the host has left; the same */
    REFUSED,  /* a call turned down; who: sender, number: reply */
    VALUE,    /* the value of a proposer is here; about: proposer, number: handle */
    VOTED,    /* about: proposer, number: 0 or 1 */
    DECIDED,  /* about: proposer, number: 0 or 1 */
    FAULT,    /* who: node, number: fault */
    BATCH,    /* number: entries, who: host that may wake the guest */
    SKIPPED   /* number: target */
};

struct event {
    uint64_t call; /* the call that it belongs to, by the order of calls */
    int host;
    uint64_t epoch;
    enum what what;
    int who, about;
    uint64_t number;
};

void events_clear(void);
void next_call(void);
uint64_t calls_so_far(void);
void note(int host, uint64_t epoch, enum what what, int who, int about, uint64_t number);
int event_count(void);
const struct event *event_at(int i);

#endif
