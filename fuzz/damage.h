/* Damaged calls, and states that no run leaves. */
#ifndef FUZZ_DAMAGE_H
#define FUZZ_DAMAGE_H

#include "calls.h"

/* Random words of a random length. */
void random_words(struct call *call, struct random *random);

/* A state whose words are random in their ranges. */
void random_state(struct call *call, struct random *random);

/* Changes some words of a state, within their ranges where `in_range` says so. */
void damage_state(struct call *call, bool in_range, struct random *random);

/* Changes create's numbers or the state's length. */
void damage_create(struct call *call, struct random *random);

/* Changes one or two things of a call: state, table, numbers, lengths. */
void damage_call(struct call *call, struct random *random);

#endif
