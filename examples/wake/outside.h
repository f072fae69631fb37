/* THE OUTSIDE, SIMULATED. The engine does no networking and no cryptography: it is told what the host's reliable broadcast, binary agreement and threshold
 * cipher say. In a product these are libraries; here they are stand-ins in this process:
 *
 * - reliable broadcast is Bracha's (VALUE, ECHO, READY; deliver at 2f+1 READY), without erasure codes;
 * - binary agreement is an arbiter that all instances trust: when an instance has heard N-f votes it asks the arbiter, who decides once and for all by the
 *   votes that are heard then: 1 if more than f of them are 1, else 0;
 * - the threshold cipher hides nothing: "sealed(X)" is X sealed, and f+1 shares that name it open it. Who may open what is kept to, secrecy is not.
 *
 * Bytes are texts behind handles (bytes.h). What reads, verifies and opens is a function of the bytes, equal on all hosts. */
#ifndef OUTSIDE_H
#define OUTSIDE_H

#include "scene.h"

/* What an instance did when it was called */
struct outcome {
    uint64_t messages[4]; /* words to send to all other hosts */
    int message_count;
    int faulty_node;      /* -1 for none */
    uint64_t fault_kind;
    bool has_output;
    uint64_t output;      /* a value's handle, or a decision */
};

/* Words that the instances send each other */
enum word { ECHO = 1, READY = 2, FIRST = 3 }; /* broadcast: one of these times 2^32, plus the value's handle */
enum vote { VOTE_0 = 0, VOTE_1 = 1, HAS_DECIDED = 2 };

enum { UNREADABLE_WORD = 1, CONTRADICTION = 2 }; /* the instances' own kinds of fault */

void outside_clear(void);

uint64_t serialised(int host, uint64_t epoch);                                          /* kind 2 */
struct outcome broadcast_own(int host, uint64_t epoch, uint64_t value);                 /* kind 3 */
struct outcome broadcast_word(int host, uint64_t epoch, int proposer, int sender, uint64_t word); /* kind 4 */
struct outcome agreement_word(int host, uint64_t epoch, int proposer, int sender, uint64_t word); /* kind 5 */
struct outcome agreement_vote(int host, uint64_t epoch, int proposer, bool vote);       /* kinds 6 and 7 */
bool ciphertext_reads(uint64_t value);                                                  /* kind 8 */
bool ciphertext_verifies(uint64_t value);                                               /* kind 9 */
bool share_verifies(int sender, uint64_t ciphertext, uint64_t share);                   /* kind 10 */
uint64_t own_share(int host, uint64_t ciphertext);                                      /* kind 11 */
uint64_t decrypted(uint64_t ciphertext, const uint64_t shares[HOSTS]);                  /* kind 12 */
bool contribution_reads(uint64_t plaintext);                                            /* kind 13 */

#endif
