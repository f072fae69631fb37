#include "host.h"

#include "bytes.h"
#include "events.h"

#include <string.h>

enum { STATE_WORDS = HB_STATE_WORDS(HOSTS, LOOK_AHEAD), SCRATCH_WORDS = HB_SCRATCH_WORDS(HOSTS, LOOK_AHEAD) };

/* own index, strategy and look-ahead may differ from host to host; N, f and schedule are equal */
void host_create(struct host *h, int index)
{
    memset(h, 0, sizeof *h);
    h->index = h->questions.own = index;
    h->questions.strategy = index == 2 ? HB_ALL_AT_END : HB_INCREMENTAL;
    if (hb_create(HOSTS, FAULTY, LOOK_AHEAD, (uint64_t)index, 1, h->questions.strategy, 0, HB_EVERY_NTH_EPOCH, ENCRYPT_EVERY, 0,
                  h->state, STATE_WORDS) != HB_SUCCESS)
        h->trouble = "create was turned down";
}

uint64_t host_epoch(struct host *h)
{
    uint64_t epoch = 0;
    if (hb_current_epoch(h->state, STATE_WORDS, &epoch) != HB_SUCCESS)
        h->trouble = "a query was turned down";
    return epoch;
}

bool host_has_input(struct host *h)
{
    uint64_t has = 0;
    if (hb_has_input(h->state, STATE_WORDS, &has) != HB_SUCCESS)
        h->trouble = "a query was turned down";
    return has == 1;
}

/* The engine is called with these answers: a propose, or a message */
static uint64_t engine(struct host *h, const struct message *m, const uint64_t *answers, size_t length)
{
    if (m == NULL)
        return hb_propose(h->state, STATE_WORDS, h->scratch, SCRATCH_WORDS, answers, length, h->step, HB_STEP_WORDS);
    return hb_message(m->sender, m->epoch, m->content, m->proposer, m->item, h->state, STATE_WORDS, h->scratch, SCRATCH_WORDS,
                      answers, length, h->step, HB_STEP_WORDS);
}

static void conclude(struct host *h, uint64_t epoch, const struct batch *batch, uint64_t entries)
{
    struct conclusion *c = &h->conclusions[epoch];
    if (c->has_batch || c->skipped)
        h->trouble = "an epoch was handed out twice, or after a skip";
    c->has_batch = true;
    c->batch = *batch;
    c->waker = may_wake(batch);
    note(h->index, epoch, BATCH, c->waker, h->index, entries);
}

/* The step's batches: each is followed by its entries. The step's faults 5 name no epoch; which batch they belong to the host knows from its answers 13 */
static void read_outputs(struct host *h)
{
    const uint64_t *step = h->step;
    uint64_t unreadable = 0, i = hb_first_output(step);
    while (i != 0) {
        uint64_t epoch = hb_a(step, i), entries = hb_b(step, i);
        struct batch batch = {{-1, -1, -1, -1}, h->questions.unreadable[epoch]};
        for (i = hb_next(step, i); i != 0 && hb_kind(step, i) == HB_ENTRY; i = hb_next(step, i))
            batch.free_mib[hb_a(step, i)] = read_contribution(text_of(hb_b(step, i)));
        for (int p = 0; p < HOSTS; p++)
            unreadable += batch.unreadable >> p & 1;
        conclude(h, epoch, &batch, entries);
    }
    for (i = hb_first_fault(step); i != 0; i = hb_next(step, i))
        unreadable -= hb_kind(step, i) == HB_BATCH_DESERIALIZATION_FAILED;
    if (unreadable != 0)
        h->trouble = "the faults 5 are not the contributions that do not read";
}

/* Who sends rubbish sends shares that do not verify */
static uint64_t share_sent(struct host *h, uint64_t epoch, uint64_t share)
{
    return sends_rubbish(h->index, epoch) ? handle_of("a share of nothing") : share;
}

/* Where the page shows what concerns an epoch: one that the scene does not have is shown in the host's own */
static uint64_t shown_in(struct host *h, uint64_t epoch)
{
    uint64_t own = host_epoch(h);
    if (epoch < EPOCHS)
        return epoch;
    return own < EPOCHS ? own : EPOCHS - 1;
}

static void read_step(struct host *h)
{
    const uint64_t *step = h->step;
    uint64_t epoch = hb_step_epoch(step);
    for (uint64_t i = hb_first_message(step); i != 0; i = hb_next(step, i)) {
        uint64_t word = hb_kind(step, i) == HB_SHARE ? share_sent(h, epoch, hb_b(step, i)) : hb_b(step, i);
        send_to_all(h->index, epoch, hb_kind(step, i), hb_a(step, i), word);
    }
    for (uint64_t i = hb_first_fault(step); i != 0; i = hb_next(step, i)) {
        h->faults_seen++;
        h->seen_faults[hb_kind(step, i)]++;
        note(h->index, shown_in(h, epoch), FAULT, (int)hb_a(step, i), h->index, hb_kind(step, i));
    }
    read_outputs(h);
}

/* A call, in two goes. The first has no answers: a malformed call is turned down here, before the outside is asked anything, and a call that asks nothing is
 * done. On reply 8 the engine wants answers; the call has changed nothing, so it is made again with the table that the outside gave. */
static void call(struct host *h, const struct message *m)
{
    uint64_t no_answers[HB_MIN_ANSWER_WORDS];
    size_t length = hb_answers_clear(no_answers, HB_MIN_ANSWER_WORDS);
    uint64_t reply = engine(h, m, no_answers, length);
    h->seen_replies[reply]++;
    if (reply != HB_SUCCESS && reply != HB_ANSWER_NOT_NEXT) {
        note(h->index, shown_in(h, m == NULL ? host_epoch(h) : m->epoch), REFUSED, m == NULL ? h->index : (int)m->sender, h->index, reply);
        return;
    }
    if (m == NULL) {
        note(h->index, h->questions.current, PROPOSED, h->index, h->index, 0);
        ask_propose(&h->questions);
    } else {
        note(h->index, shown_in(h, m->epoch), m->epoch < h->questions.current ? LATE : HANDLED, (int)m->sender, (int)m->proposer, m->content);
        ask_message(&h->questions, m);
    }
    if (reply == HB_SUCCESS && h->questions.length != HB_MIN_ANSWER_WORDS)
        h->trouble = "the engine asked less than the host answered";
    if (reply == HB_ANSWER_NOT_NEXT) {
        reply = engine(h, m, h->questions.answers, h->questions.length);
        h->seen_replies[reply]++;
    }
    if (reply != HB_SUCCESS)
        h->trouble = hb_reply_name(reply);
    else
        read_step(h);
    if (host_epoch(h) != h->questions.current)
        h->trouble = "the host's epoch is not the engine's";
}

void host_propose(struct host *h)
{
    next_call();
    call(h, NULL);
}

void host_message(struct host *h, const struct message *m)
{
    next_call();
    call(h, m);
}

void host_skip(struct host *h, uint64_t target)
{
    next_call();
    for (uint64_t epoch = host_epoch(h); epoch < target; epoch++) {
        h->conclusions[epoch].skipped = true;
        note(h->index, epoch, SKIPPED, h->index, h->index, target);
    }
    if (hb_skip(target, h->state, STATE_WORDS) != HB_SUCCESS)
        h->trouble = "skip was turned down";
    note_skip(&h->questions, target);
}

void host_check(struct host *h)
{
    uint64_t count = 0;
    if (hb_fault_count(h->state, STATE_WORDS, &count) != HB_SUCCESS || count != h->faults_seen)
        h->trouble = "the engine counts other faults than its steps have";
    if (host_epoch(h) != EPOCHS)
        h->trouble = "the host did not come to the end";
}
