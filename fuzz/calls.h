/* One call of the engine, with all that is checked of it. */
#ifndef FUZZ_CALLS_H
#define FUZZ_CALLS_H

#include <stdint.h>

#include "lent.h"
#include "random.h"

enum operation { CREATE, PROPOSE, MESSAGE, SKIP, CURRENT_EPOCH, HAS_INPUT, RECEIVED_PROPOSALS, FAULT_COUNT, OPERATIONS };

enum { REPLIES = 26 };

struct call {
    enum operation operation;
    uint64_t numbers[10]; /* create's ten, message's five, skip's target */
    uint64_t state[ARENA];
    size_t state_len;
    uint64_t answers[ARENA];
    size_t answers_len;
    size_t scratch_len, step_len;
    /* What came of it: the reply, and how many records the step has where the call was not turned down. */
    uint64_t reply;
    size_t records;
};

/* How often which operation had which reply, and how many calls in all. */
extern uint64_t counts[OPERATIONS][REPLIES];
extern uint64_t calls_made;

extern const char *const operation_names[OPERATIONS];

void calls_open(uint64_t seed);

/* Makes the call, checks it, and leaves the state's new words in `call`. The first thing that is not as it should be
   ends the program. */
void make_call(struct call *call, struct random *random);

/* Ends the program with what is wrong about the last call. */
void call_wrong(const char *what);

/* Says which round is run, for the report of a failure. */
void round_begins(uint64_t seed, uint64_t round);

static inline bool was_run(const struct call *call)
{
    return call->reply == 0 || call->reply >= 20;
}

#endif
