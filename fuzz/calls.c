#define _GNU_SOURCE
#include "calls.h"

#include <signal.h>
#include <stdio.h>
#include <stdlib.h>
#include <string.h>
#include <unistd.h>

#include "belkjund.h"
#include "rules.h"

const char *const operation_names[OPERATIONS] = {"create", "propose", "message", "skip", "current_epoch", "has_input",
                                                 "received_proposals", "fault_count"};
static const int number_counts[OPERATIONS] = {10, 0, 5, 1, 0, 0, 0, 0};

uint64_t counts[OPERATIONS][REPLIES];
uint64_t calls_made;

static struct lent state, scratch, answers, step, result;
static uint64_t rubbish[2 * ARENA];
static const struct call *now; /* the call that is being made */
static uint64_t now_seed, now_round, now_index;

/* The words of a call that went wrong; zero words of the state are left out, and answers off the chain. */
static void describe(void)
{
    fprintf(stderr, "seed %llu round %llu call %llu; again: fuzz --seed %llu --round %llu\n", (unsigned long long)now_seed,
            (unsigned long long)now_round, (unsigned long long)now_index, (unsigned long long)now_seed,
            (unsigned long long)now_round);
    if (now == NULL)
        return;
    fprintf(stderr, "%s", operation_names[now->operation]);
    for (int i = 0; i < number_counts[now->operation]; i++)
        fprintf(stderr, " %llu", (unsigned long long)now->numbers[i]);
    fprintf(stderr, "\nscratch of %zu words, step of %zu\nstate of %zu words:", now->scratch_len, now->step_len, now->state_len);
    for (size_t i = 0; i < now->state_len; i++)
        if (now->state[i] != 0)
            fprintf(stderr, " %zu:%llu", i, (unsigned long long)now->state[i]);
    fprintf(stderr, "\nanswers of %zu words:", now->answers_len);
    const uint64_t *t = now->answers;
    for (size_t at = 0; at < now->answers_len / 4; at = t[4 * at]) {
        fprintf(stderr, " %zu:%llu,%llu,%llu,%llu", at, (unsigned long long)t[4 * at], (unsigned long long)t[4 * at + 1],
                (unsigned long long)t[4 * at + 2], (unsigned long long)t[4 * at + 3]);
        if (t[4 * at] <= at)
            break;
    }
    fprintf(stderr, "\n");
}

static void wrong(const char *what)
{
    fprintf(stderr, "FAILED: %s (reply %llu)\n", what, now == NULL ? 0 : (unsigned long long)now->reply);
    describe();
    exit(1);
}

void call_wrong(const char *what)
{
    wrong(what);
}

static void caught(int number)
{
    fprintf(stderr, "FAILED: the call ended with signal %d\n", number);
    describe();
    _exit(1);
}

void calls_open(uint64_t seed)
{
    struct lent *all[] = {&state, &scratch, &answers, &step, &result};
    for (size_t i = 0; i < sizeof all / sizeof *all; i++)
        lent_open(all[i]);
    struct random random = random_new(seed, UINT64_MAX);
    for (size_t i = 0; i < 2 * ARENA; i++)
        rubbish[i] = random_word(&random);
    int signals[] = {SIGSEGV, SIGBUS, SIGILL, SIGFPE, SIGABRT, SIGALRM, SIGTRAP};
    for (size_t i = 0; i < sizeof signals / sizeof *signals; i++)
        signal(signals[i], caught);
}

void round_begins(uint64_t seed, uint64_t round)
{
    now = NULL;
    now_seed = seed;
    now_round = round;
    now_index = 0;
    alarm(60); /* a call that does not come back */
}

/* The reply that turns the call down before it runs, by the document. */
static uint64_t refusal(const struct call *c)
{
    switch (c->operation) {
    case CREATE:
        return create_refusal(c->numbers, c->state_len);
    case PROPOSE:
        return propose_refusal(c->state, c->state_len, c->scratch_len, c->answers, c->answers_len);
    case MESSAGE:
        return message_refusal(c->numbers, c->state, c->state_len, c->scratch_len, c->answers, c->answers_len);
    case SKIP:
        return skip_refusal(c->numbers[0], c->state, c->state_len);
    default:
        return is_state(c->state, c->state_len) ? 0 : 3;
    }
}

/* An empty slice may be NULL. */
static uint64_t *pointer(const struct lent *lent, bool writable, bool null)
{
    return null && lent->len == 0 ? NULL : lent_pointer(lent, writable);
}

/* What must not be written is lent read-only. */
static uint64_t enter(const struct call *c, uint64_t refused, bool null)
{
    const uint64_t *x = c->numbers;
    bool write = refused == 0;
    uint64_t *s = pointer(&state, write && c->operation <= SKIP, null);
    uint64_t *w = pointer(&scratch, refused != 3 && refused != 4, null);
    uint64_t *a = pointer(&answers, false, null);
    uint64_t *t = pointer(&step, write, null);
    uint64_t *r = lent_pointer(&result, write);
    switch (c->operation) {
    case CREATE:
        return hb_create(x[0], x[1], x[2], x[3], x[4], x[5], x[6], x[7], x[8], x[9], s, c->state_len);
    case PROPOSE:
        return hb_propose(s, c->state_len, w, c->scratch_len, a, c->answers_len, t, c->step_len);
    case MESSAGE:
        return hb_message(x[0], x[1], x[2], x[3], x[4], s, c->state_len, w, c->scratch_len, a, c->answers_len, t, c->step_len);
    case SKIP:
        return hb_skip(x[0], s, c->state_len);
    case CURRENT_EPOCH:
        return hb_current_epoch(s, c->state_len, r);
    case HAS_INPUT:
        return hb_has_input(s, c->state_len, r);
    case RECEIVED_PROPOSALS:
        return hb_received_proposals(s, c->state_len, r);
    default:
        return hb_fault_count(s, c->state_len, r);
    }
}

/* The replies that 01 lists for a call that passes its checks, as bits. */
static uint64_t listed(enum operation operation)
{
    uint64_t both = UINT64_C(1) << 0 | 1 << 8 | 1 << 9 | 1 << 10 | 1 << 20 | 1 << 24 | 1 << 25;
    switch (operation) {
    case PROPOSE:
        return both | 1 << 21 | 1 << 22;
    case MESSAGE:
        return both | 1 << 23;
    default:
        return 1;
    }
}

/* Reads one chain of the step, whose first index the header gives; records must follow each other. Answers the index
   after it. */
static size_t chain_end(uint64_t first, size_t from, const uint64_t *t, size_t records)
{
    if (first == 0)
        return from;
    if (first != from)
        wrong("a chain of the step does not begin where the one before ends");
    for (size_t i = from;; i++) {
        if (i >= records)
            wrong("the step runs past its table");
        if (t[4 * i] == 0)
            return i + 1;
        if (t[4 * i] != i + 1)
            wrong("a next of the step is not the next record");
    }
}

/* Messages and faults have their kinds and names. */
static void check_messages_and_faults(const uint64_t *t, size_t messages_end, size_t faults_end, uint64_t n)
{
    for (size_t i = 1; i < messages_end; i++) {
        const uint64_t *r = t + 4 * i;
        if (r[1] < 1 || r[1] > 3 || r[2] >= n || (r[1] == 3 && (r[3] < 1 || r[3] > HANDLE_LIMIT)))
            wrong("a message of the step is out of range");
    }
    for (size_t i = messages_end; i < faults_end; i++) {
        const uint64_t *r = t + 4 * i;
        if (r[1] < 1 || r[1] > 9 || r[2] >= n || r[3] > (r[1] >= 8 ? HANDLE_LIMIT : 0))
            wrong("a fault of the step is out of range");
    }
}

/* The batches, from the current epoch on, each with its entries by rising proposer. Answers how many there are. */
static uint64_t check_batches(const uint64_t *t, size_t from, size_t end, uint64_t n, uint64_t current)
{
    uint64_t batches = 0;
    for (size_t i = from; i < end; batches++) {
        const uint64_t *r = t + 4 * i;
        if (r[1] != 1 || r[2] != current + batches || r[3] > n || r[3] > end - i - 1)
            wrong("a batch of the step is not the next epoch's");
        uint64_t entries = r[3], above = 0;
        for (i++; entries > 0; entries--, i++) {
            const uint64_t *e = t + 4 * i;
            if (e[1] != 2 || e[2] < above || e[2] >= n || e[3] > HANDLE_LIMIT)
                wrong("an entry of a batch is out of range");
            above = e[2] + 1;
        }
    }
    return batches;
}

/* The words of a state that a run may not touch, and those that follow from its step: `faults` and `batches` of them. */
static void check_state_after(const struct call *c, uint64_t epoch, bool runs, uint64_t faults, uint64_t batches)
{
    static uint64_t wanted[ARENA];
    const uint64_t *before = c->state, *after = state.at;
    uint64_t current = before[CURRENT];
    memcpy(wanted, before, c->state_len * sizeof *wanted);
    if (runs && c->operation == PROPOSE)
        wanted[INPUT] = 1;
    size_t size = epoch_words(before[NODES]) * sizeof *wanted;
    /* The call's epoch may have any words in range; 20 has changed nothing of it. */
    if (runs && c->reply != 20)
        memcpy(wanted + place_of(before, epoch), after + place_of(before, epoch), size);
    skipped(current + batches, wanted);
    uint64_t room = HANDLE_LIMIT - before[FAULTS];
    wanted[FAULTS] += faults < room ? faults : room;
    if (memcmp(wanted, after, c->state_len * sizeof *wanted) != 0)
        wrong("a word of the state changed that may not, or one that should has not");
    if (!is_state(after, c->state_len))
        wrong("what the call left is not a state");
}

/* Step and state of a call that was run: reply 0 or 20 to 25. */
static void check_run(struct call *c)
{
    const uint64_t *t = step.at, *before = c->state;
    uint64_t n = before[NODES], current = before[CURRENT];
    uint64_t epoch = c->operation == PROPOSE ? current : c->numbers[1];
    bool ahead = epoch > current && epoch - current > before[AHEAD];
    bool runs = c->operation == PROPOSE ? before[OWN] < n : epoch >= current && !ahead;
    size_t records = c->step_len / 4;
    if (records < 1)
        wrong("no header fits the step table, and the reply is not 10");
    if (t[3] != epoch)
        wrong("the step's header has another epoch");
    if (c->reply >= 20 && (t[0] != 0 || t[1] != 0 || t[2] != 0 || !runs))
        wrong("a failed call has more than an empty header, or ran no epoch");
    size_t messages_end = chain_end(t[0], 1, t, records);
    size_t faults_end = chain_end(t[1], messages_end, t, records);
    size_t end = chain_end(t[2], faults_end, t, records);
    c->records = end;
    if (!lent_kept_from(&step, 4 * end))
        wrong("a word of the step table past the step changed");
    check_messages_and_faults(t, messages_end, faults_end, n);
    uint64_t batches = check_batches(t, faults_end, end, n, current);
    if (!runs && end != (ahead ? 2 : 1))
        wrong("a call that runs no epoch has another step than an empty one or fault 1");
    if (ahead && (t[5] != 1 || t[6] != c->numbers[0]))
        wrong("a message from too far ahead is not fault 1 of its sender");
    check_state_after(c, epoch, runs, faults_end - messages_end, batches);
}

static void check_scratch(const struct call *c)
{
    bool zeroed = c->reply != 3 && c->reply != 4;
    size_t len = zeroed ? c->state_len : 0;
    for (size_t i = 0; i < len; i++)
        if (scratch.at[i] != 0)
            wrong("a word of scratch is not zero");
    if (!lent_kept_from(&scratch, len))
        wrong("a word of scratch past the state's length changed");
}

static void check_query(const struct call *c)
{
    const uint64_t *s = c->state;
    uint64_t wanted = c->operation == CURRENT_EPOCH ? s[CURRENT]
        : c->operation == HAS_INPUT                 ? has_input(s)
        : c->operation == RECEIVED_PROPOSALS        ? received_proposals(s)
                                                    : s[FAULTS];
    if (*result.at != wanted)
        wrong("a query has another result");
    if (!lent_kept_from(&state, 0))
        wrong("a query changed the state");
}

/* A create or a skip with reply 0 leaves exactly these words. */
static void check_words(const struct call *c)
{
    static uint64_t wanted[ARENA];
    memcpy(wanted, c->state, c->state_len * sizeof *wanted);
    if (c->operation == CREATE)
        created(c->numbers, wanted);
    else
        skipped(c->numbers[0], wanted);
    if (memcmp(wanted, state.at, c->state_len * sizeof *wanted) != 0)
        wrong("create or skip left other words");
    if (!is_state(state.at, c->state_len))
        wrong("what create or skip left is not a state");
}

static void check(struct call *c, uint64_t refused)
{
    struct lent *all[] = {&state, &scratch, &answers, &step, &result};
    for (size_t i = 0; i < sizeof all / sizeof *all; i++)
        if (!lent_around_kept(all[i]))
            wrong("a word outside a lent slice changed");
    if (refused != 0 && c->reply != refused)
        wrong("the document turns this call down with another reply");
    if (refused == 0 && (c->reply >= REPLIES || (listed(c->operation) >> c->reply & 1) == 0))
        wrong("a reply that the document does not list, or that its rules do not give here");
    if (c->reply == 10 && c->step_len >= HB_STEP_WORDS)
        wrong("a step table of the length that the header promises to be enough got 10");
    if (!lent_kept_from(&answers, 0))
        wrong("an answer changed");
    bool steps = c->operation == PROPOSE || c->operation == MESSAGE;
    if (steps)
        check_scratch(c);
    if (!was_run(c)) {
        if (!lent_kept_from(&state, 0) || !lent_kept_from(&step, 0) || !lent_kept_from(&result, 0))
            wrong("a refused call changed something");
    } else if (steps) {
        check_run(c);
    } else if (c->operation == CREATE || c->operation == SKIP) {
        check_words(c);
    } else {
        check_query(c);
    }
}

void make_call(struct call *c, struct random *random)
{
    now = c;
    now_index++;
    c->reply = 0;
    c->records = 0;
    uint64_t how = random_word(random);
    const uint64_t *words = rubbish + (how >> 16) % (ARENA - 1);
    bool steps = c->operation == PROPOSE || c->operation == MESSAGE;
    lend(&state, c->state, c->state_len, how & 1);
    lend(&scratch, words, steps ? c->scratch_len : 0, how & 2);
    lend(&answers, c->answers, steps ? c->answers_len : 0, how & 4);
    lend(&step, words + 1, steps ? c->step_len : 0, how & 8);
    lend(&result, words, 1, how & 16);
    uint64_t refused = refusal(c);
    c->reply = enter(c, refused, how & 32);
    calls_made++;
    check(c, refused);
    counts[c->operation][c->reply]++;
    if (was_run(c) && c->state_len > 0)
        memcpy(c->state, state.at, c->state_len * sizeof *c->state);
}
