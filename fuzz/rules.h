/* The refusal rules, read from document 01 and docs/STATE.md, without a look at the engine. */
#ifndef FUZZ_RULES_H
#define FUZZ_RULES_H

#include <stdbool.h>
#include <stddef.h>
#include <stdint.h>

enum { MAX_NODES = 16, MAX_AHEAD = 15, HEADER = 16, EPOCH_HEADER = 16, RECORD = 8, MAX_EPOCH_WORDS = 400, MAX_STATE = 6416 };

/* The header's words. */
enum { PROFILE, NODES, FAULTY, AHEAD, OWN, KEY, STRATEGY, SCHEDULE, NUMBER_A, NUMBER_B, CURRENT, INPUT, FAULTS };

/* An epoch's words, and those of a proposer's record. */
enum { STATUS, DECIDED, ACCEPTED, KEPT };
enum { PROPOSAL, VALUE, DECRYPTION, PLAINTEXT, CIPHERTEXT, HAD_INPUT, TERMINATED, ARRIVAL };

size_t epoch_words(uint64_t n);
size_t state_words(uint64_t n, uint64_t ahead);

/* Where an epoch begins in a state. */
size_t place_of(const uint64_t *state, uint64_t epoch);

/* The highest value of each word of an epoch; all may be 0. */
void epoch_limits(uint64_t n, uint64_t strategy, uint64_t limits[MAX_EPOCH_WORDS]);

bool schedule_in_range(uint64_t kind, uint64_t a, uint64_t b);
bool is_state(const uint64_t *words, size_t len);
bool is_table(uint64_t n, const uint64_t *words, size_t len);
bool is_encrypted(const uint64_t *state, uint64_t epoch);

/* The reply that turns a call down before it runs, or 0. */
uint64_t create_refusal(const uint64_t numbers[10], size_t state_len);
uint64_t propose_refusal(const uint64_t *state, size_t state_len, size_t scratch_len, const uint64_t *answers,
                         size_t answers_len);
uint64_t message_refusal(const uint64_t numbers[5], const uint64_t *state, size_t state_len, size_t scratch_len,
                         const uint64_t *answers, size_t answers_len);
uint64_t skip_refusal(uint64_t target, const uint64_t *state, size_t state_len);

/* Has input and received proposals, of a state. */
uint64_t has_input(const uint64_t *state);
uint64_t received_proposals(const uint64_t *state);

/* The words of a state that create leaves, and those that a skip leaves. */
void created(const uint64_t numbers[10], uint64_t *state);
void skipped(uint64_t target, uint64_t *state);

#endif
