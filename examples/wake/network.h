/* The network between the four hosts: it delivers messages in any order, chosen by a seed. */
#ifndef NETWORK_H
#define NETWORK_H

#include "scene.h"

struct message {
    int to;
    uint64_t sender, epoch, content, proposer, item; /* as hb_message takes them */
    uint64_t word;                                   /* contents 1 and 2: what the broadcast or agreement instance of the receiver gets */
};

void network_clear(uint64_t seed);
uint64_t any_below(uint64_t bound); /* the seeded numbers that choose the order */

/* To all other hosts, unless the sender is silent or cut off in this epoch. `word` is the share's handle where the content is 3 */
void send_to_all(int from, uint64_t epoch, uint64_t content, uint64_t proposer, uint64_t word);
void send_as_is(const struct message *m);

/* How many could be delivered now, where current[h] is host h's epoch, and one of them, by its place, taken out. A message for an epoch beyond the
 * receiver's look-ahead waits, as hbbft's SenderQueue has it wait */
int deliverable(const uint64_t current[HOSTS]);
struct message take(int place, const uint64_t current[HOSTS]);

#endif
