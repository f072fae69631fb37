/* WHAT THE ENGINE ASKS in a call, in its order: the host's half of hb_propose and hb_message. A host of your own can start from this file; outside.h is
 * what to replace.
 *
 * The engine reads its answers from a table and never calls out, so whoever fills the table has to know what comes next. The order is document 01's:
 *
 *   1 where the epoch is new; 2 in a propose; 3, 4 or 5 for the proposal that the call is about; 6 where that brings its value; 7 for each undecided
 *   proposal where exactly N-f are accepted; for each contribution that is accepted now, in an encrypted epoch: 8, 9, 10 for each share that waited,
 *   11, 12; at last 13 for each contribution of each batch that goes out.
 *
 * For this the host keeps what the engine keeps, by the rules of document 01 and not from the words of the state: it is a second reading, and the engine
 * checks it, since a wrong table is turned down (8 or 9) and changes nothing. */
#ifndef QUESTIONS_H
#define QUESTIONS_H

#include "belkjund.h"
#include "network.h"
#include "scene.h"

enum proposal { ONGOING, HAS_VALUE, ACCEPTED, REJECTED, COMPLETE };

/* An epoch, as far as questions depend on it */
struct round {
    bool built, done; /* instances built; subset done */
    enum proposal proposals[HOSTS];
    uint64_t values[HOSTS];
    int kept[HOSTS], kept_count; /* contributions that are accepted and not handled yet, in order of arrival */
    bool accepted[HOSTS];
    uint64_t ciphertexts[HOSTS], plaintexts[HOSTS], shares[HOSTS][HOSTS]; /* handles by proposer, and by sender; 0 for none */
};

struct questions {
    int own;
    uint64_t strategy;
    uint64_t current;                     /* the current epoch */
    struct round rounds[LOOK_AHEAD + 1];  /* epoch e is at e mod (LOOK_AHEAD + 1) */
    unsigned unreadable[EPOCHS];          /* bit p: host p's contribution to that epoch's batch does not read */
    uint64_t answers[HB_MAX_ANSWER_WORDS];
    size_t length; /* of the table, in words */
};

/* Each makes the table for a call that the engine takes, asking the outside on the way. Once for each call with reply 0 */
void ask_propose(struct questions *q);
void ask_message(struct questions *q, const struct message *m);
void note_skip(struct questions *q, uint64_t target);

#endif
