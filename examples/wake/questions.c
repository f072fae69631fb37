#include "questions.h"

#include "events.h"
#include "outside.h"

#include <stdio.h>
#include <stdlib.h>
#include <string.h>

/* The call that is being answered */
struct asking {
    struct questions *q;
    const struct message *message; /* NULL in a propose */
    uint64_t epoch;
    struct round *round;
};

static struct round *round_of(struct questions *q, uint64_t epoch) { return &q->rounds[epoch % (LOOK_AHEAD + 1)]; }

static void tell(struct asking *c, uint64_t kind, uint64_t a, uint64_t b)
{
    struct questions *q = c->q;
    q->length = hb_answers_add(q->answers, q->length, HB_MAX_ANSWER_WORDS, kind, a, b);
    if (q->length == 0) {
        fprintf(stderr, "wake: no room for more answers\n");
        exit(2);
    }
}

/* An instance's answer about proposer p, with its parts */
static void tell_outcome(struct asking *c, uint64_t kind, int p, const struct outcome *o)
{
    tell(c, kind, 1, (uint64_t)p);
    for (int i = 0; i < o->message_count; i++)
        tell(c, HB_MESSAGE_PART, 0, o->messages[i]);
    if (o->faulty_node >= 0)
        tell(c, HB_FAULT_PART, (uint64_t)o->faulty_node, o->fault_kind);
    if (o->has_output)
        tell(c, HB_OUTPUT_PART, 0, o->output);
}

/* Proposer p's value is here and its agreement has decided 1: its contribution waits to be handled */
static void hand_up(struct round *r, int p)
{
    r->proposals[p] = COMPLETE;
    r->kept[r->kept_count++] = p;
}

/* 5, 6 or 7: nothing is asked once the agreement has decided */
static void agreement(struct asking *c, uint64_t kind, int p)
{
    struct round *r = c->round;
    struct outcome o;
    if (r->proposals[p] != ONGOING && r->proposals[p] != HAS_VALUE)
        return;
    if (kind == HB_AGREEMENT_MESSAGE)
        o = agreement_word(c->q->own, c->epoch, p, (int)c->message->sender, c->message->word);
    else
        o = agreement_vote(c->q->own, c->epoch, p, kind == HB_PROPOSE_TRUE);
    tell_outcome(c, kind, p, &o);
    if (!o.has_output)
        return;
    note(c->q->own, c->epoch, DECIDED, c->q->own, p, o.output);
    if (o.output == 0)
        r->proposals[p] = REJECTED;
    else if (r->proposals[p] == HAS_VALUE)
        hand_up(r, p);
    else
        r->proposals[p] = ACCEPTED;
}

/* 3 or 4: nothing is asked once the value is here; a value that comes first earns a vote 1 */
static void broadcast(struct asking *c, uint64_t kind, int p, uint64_t own_value)
{
    struct round *r = c->round;
    struct outcome o;
    if (r->proposals[p] != ONGOING && r->proposals[p] != ACCEPTED)
        return;
    if (kind == HB_BROADCAST_PROPOSAL)
        o = broadcast_own(c->q->own, c->epoch, own_value);
    else
        o = broadcast_word(c->q->own, c->epoch, p, (int)c->message->sender, c->message->word);
    tell_outcome(c, kind, p, &o);
    if (!o.has_output)
        return;
    note(c->q->own, c->epoch, VALUE, p, p, o.output);
    r->values[p] = o.output;
    if (r->proposals[p] == ACCEPTED) {
        hand_up(r, p);
    } else {
        r->proposals[p] = HAS_VALUE;
        agreement(c, HB_PROPOSE_TRUE, p);
    }
}

/* 12, as soon as more than f shares are here */
static void combine(struct asking *c, int p)
{
    struct round *r = c->round;
    int count = 0;
    for (int s = 0; s < HOSTS; s++)
        count += r->shares[p][s] != 0;
    if (count <= FAULTY)
        return;
    r->plaintexts[p] = decrypted(r->ciphertexts[p], r->shares[p]);
    tell(c, HB_CONTRIBUTION_DECRYPTED, r->plaintexts[p] != 0, r->plaintexts[p]);
}

/* 8 to 12, for a contribution of an encrypted epoch */
static void unseal(struct asking *c, int p)
{
    struct round *r = c->round;
    uint64_t value = r->values[p];
    bool reads = ciphertext_reads(value), verifies = ciphertext_verifies(value);
    tell(c, HB_CIPHERTEXT_READS, reads, (uint64_t)p);
    if (!reads)
        return;
    tell(c, HB_CIPHERTEXT_VERIFIES, verifies, (uint64_t)p);
    if (!verifies)
        return;
    r->ciphertexts[p] = value;
    for (int s = 0; s < HOSTS; s++) {
        bool valid = share_verifies(s, value, r->shares[p][s]);
        if (r->shares[p][s] == 0)
            continue;
        tell(c, HB_SHARE_VERIFIES, valid, (uint64_t)s);
        if (!valid)
            r->shares[p][s] = 0;
    }
    r->shares[p][c->q->own] = own_share(c->q->own, value);
    tell(c, HB_OWN_DECRYPTION_SHARE, 1, r->shares[p][c->q->own]);
    combine(c, p);
}

static void handle_contributions(struct asking *c)
{
    struct round *r = c->round;
    for (int i = 0; i < r->kept_count; i++) {
        int p = r->kept[i];
        if (is_encrypted(c->epoch))
            unseal(c, p);
        else
            r->plaintexts[p] = r->values[p];
        r->accepted[p] = true;
    }
    r->kept_count = 0;
}

/* Shares for those who were not accepted are dropped when the subset is done */
static void finish(struct round *r)
{
    r->done = true;
    for (int p = 0; p < HOSTS; p++)
        if (!r->accepted[p])
            memset(r->shares[p], 0, sizeof r->shares[p]);
}

static int count_accepted(const struct round *r)
{
    int count = 0;
    for (int p = 0; p < HOSTS; p++)
        count += r->proposals[p] == ACCEPTED || r->proposals[p] == COMPLETE;
    return count;
}

static bool all_complete(const struct round *r)
{
    for (int p = 0; p < HOSTS; p++)
        if (r->proposals[p] != REJECTED && r->proposals[p] != COMPLETE)
            return false;
    return true;
}

/* After every call that comes to the subset: 7 where exactly N-f are accepted, then the contributions */
static void after_subset_call(struct asking *c)
{
    struct round *r = c->round;
    bool done = false;
    if (count_accepted(r) >= HOSTS - FAULTY) {
        if (count_accepted(r) == HOSTS - FAULTY)
            for (int p = 0; p < HOSTS; p++)
                agreement(c, HB_PROPOSE_FALSE, p);
        done = all_complete(r);
    }
    if (done || c->q->strategy == HB_INCREMENTAL)
        handle_contributions(c);
    if (done)
        finish(r);
}

/* 10 where the ciphertext is known, then 12 */
static void share(struct asking *c)
{
    struct round *r = c->round;
    int p = (int)c->message->proposer, sender = (int)c->message->sender;
    uint64_t item = c->message->item;
    if ((r->done && !r->accepted[p]) || r->plaintexts[p] != 0)
        return;
    if (r->ciphertexts[p] != 0) {
        bool valid = share_verifies(sender, r->ciphertexts[p], item);
        tell(c, HB_SHARE_VERIFIES, valid, (uint64_t)sender);
        if (!valid)
            return;
    }
    bool again = r->shares[p][sender] != 0;
    r->shares[p][sender] = item;
    if (!again && r->ciphertexts[p] != 0)
        combine(c, p);
}

static bool is_ready(const struct round *r)
{
    if (!r->built || !r->done)
        return false;
    for (int p = 0; p < HOSTS; p++)
        if (r->accepted[p] && r->plaintexts[p] == 0)
            return false;
    return true;
}

/* 13 for each contribution of each batch that goes out */
static void batches(struct asking *c)
{
    struct questions *q = c->q;
    for (struct round *r = round_of(q, q->current); is_ready(r); r = round_of(q, q->current)) {
        for (int p = 0; p < HOSTS; p++) {
            bool reads = contribution_reads(r->plaintexts[p]);
            if (!r->accepted[p])
                continue;
            tell(c, HB_CONTRIBUTION_READS, reads, (uint64_t)p);
            if (!reads)
                q->unreadable[q->current] |= 1u << p;
        }
        memset(r, 0, sizeof *r);
        q->current++;
    }
}

static struct asking begin(struct questions *q, const struct message *m, uint64_t epoch)
{
    struct asking c = {q, m, epoch, round_of(q, epoch)};
    q->length = hb_answers_clear(q->answers, HB_MAX_ANSWER_WORDS);
    return c;
}

static void build(struct asking *c)
{
    if (c->round->built)
        return;
    c->round->built = true;
    tell(c, HB_INSTANCES_BUILT, 1, 0);
}

void ask_propose(struct questions *q)
{
    struct asking c = begin(q, NULL, q->current);
    uint64_t value = serialised(q->own, q->current);
    build(&c);
    tell(&c, HB_PROPOSAL_SERIALISED, 1, value);
    if (!c.round->done) {
        broadcast(&c, HB_BROADCAST_PROPOSAL, q->own, value);
        after_subset_call(&c);
    }
    batches(&c);
}

void ask_message(struct questions *q, const struct message *m)
{
    struct asking c = begin(q, m, m->epoch);
    if (m->epoch < q->current || m->epoch > q->current + LOOK_AHEAD)
        return; /* late, or too far ahead: nothing is asked */
    build(&c);
    if (m->content == HB_SHARE) {
        share(&c);
    } else if (!c.round->done) {
        if (m->content == HB_BROADCAST)
            broadcast(&c, HB_BROADCAST_MESSAGE, (int)m->proposer, 0);
        else
            agreement(&c, HB_AGREEMENT_MESSAGE, (int)m->proposer);
        after_subset_call(&c);
    }
    batches(&c);
}

void note_skip(struct questions *q, uint64_t target)
{
    for (; q->current < target; q->current++)
        memset(round_of(q, q->current), 0, sizeof(struct round));
}
