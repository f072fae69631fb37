/* Plausible calls: what a host would do next with a state, and the answers that the call will want. Where this is wrong
   the engine replies 8 or 9; nothing is judged by it. */
#ifndef FUZZ_PLAUSIBLE_H
#define FUZZ_PLAUSIBLE_H

#include "calls.h"

/* How a run goes; in thousandths. */
struct style {
    unsigned fail, output, vote, bad_share, parts, unreadable, skip, stray, again, ahead;
};

struct style random_style(struct random *random);

/* Create's ten numbers, in range. */
void plausible_numbers(struct call *call, struct random *random);

/* A propose, message or skip on the state that `call` holds, which must be one; with its table and lengths. */
void plausible_call(struct call *call, const struct style *style, struct random *random);

#endif
