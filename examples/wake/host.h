/* One host: its engine, the tables that it lends to it, and what it concludes. */
#ifndef HOST_H
#define HOST_H

#include "belkjund.h"
#include "questions.h"

/* What a host makes of an epoch */
struct conclusion {
    bool has_batch, skipped;
    struct batch batch;
    int waker; /* who may wake the guest */
};

struct host {
    int index;
    uint64_t state[HB_STATE_WORDS(HOSTS, LOOK_AHEAD)];
    uint64_t scratch[HB_SCRATCH_WORDS(HOSTS, LOOK_AHEAD)];
    uint64_t step[HB_STEP_WORDS];
    struct questions questions;
    struct conclusion conclusions[EPOCHS];
    uint64_t faults_seen;
    uint64_t seen_replies[32], seen_faults[10]; /* how often each number came */
    const char *trouble;                        /* what should never happen, NULL while it has not */
};

void host_create(struct host *h, int index);
uint64_t host_epoch(struct host *h);
bool host_has_input(struct host *h);
void host_propose(struct host *h);
void host_message(struct host *h, const struct message *m);
void host_skip(struct host *h, uint64_t target);
void host_check(struct host *h); /* at the end: the engine's own count of faults against the steps */

#endif
