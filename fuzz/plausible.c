#include "plausible.h"

#include <string.h>

#include "rules.h"

enum { MAX_CHAIN = 1023 };

/* A call's epoch as it changes while its answers are chosen, after document 01. */
struct asker {
    uint64_t n, f, own;
    bool has_share, all_at_end, encrypted, failed;
    uint64_t words[MAX_EPOCH_WORDS];
    uint64_t handed[2 * MAX_NODES][2]; /* contributions that the subset hands up: proposer and value */
    size_t handed_count;
    uint64_t chain[MAX_CHAIN][3];
    size_t count;
    const struct style *style;
    struct random *random;
};

struct style random_style(struct random *r)
{
    struct style style = {
        .fail = (unsigned)PICK(r, 0, 0, 5, 60),
        .output = (unsigned)PICK(r, 100, 400, 850, 850),
        .vote = (unsigned)PICK(r, 50, 300, 800, 950),
        .bad_share = (unsigned)PICK(r, 0, 50, 250),
        .parts = (unsigned)PICK(r, 50, 150, 400),
        .unreadable = (unsigned)PICK(r, 0, 0, 15, 200),
        .skip = (unsigned)PICK(r, 0, 10, 40),
        .stray = (unsigned)PICK(r, 10, 40, 100),
        .again = (unsigned)PICK(r, 20, 60),
        .ahead = (unsigned)PICK(r, 0, 0, 0, 970),
    };
    return style;
}

void plausible_numbers(struct call *c, struct random *r)
{
    uint64_t *x = c->numbers, n = PICK(r, 1, 1, 2, 3, 4, 4, 4, 5, 7, 7, 1 + below(r, 16), 16);
    bool validator = chance(r, 800);
    x[0] = n;
    x[1] = chance(r, 850) ? (n - 1) / 3 : below(r, (n + 2) / 3);
    x[2] = PICK(r, 0, 1, 2, 3, 3, 3, below(r, 16), 15);
    x[3] = validator ? below(r, n) : n;
    x[4] = chance(r, 900) ? validator : !validator;
    x[5] = below(r, 2);
    x[6] = PICK(r, 0, 0, 1, 7, 1000, LAST_EPOCH - below(r, 20), LAST_EPOCH);
    x[7] = below(r, 4);
    x[8] = random_word(r);
    x[9] = random_word(r);
    if (x[7] == 2)
        x[8] = PICK(r, 1, 2, 3, HANDLE_LIMIT);
    if (x[7] == 3) {
        x[8] = PICK(r, 0, 1, 2, HANDLE_LIMIT - 1);
        x[9] = x[8] < 4 ? PICK(r, x[8] == 0, 1, 2, 3) : below(r, 2);
    }
}

static void append(struct asker *k, uint64_t kind, uint64_t a, uint64_t b)
{
    if (k->count == MAX_CHAIN)
        return;
    k->chain[k->count][0] = kind;
    k->chain[k->count][1] = a;
    k->chain[k->count][2] = b;
    k->count++;
}

static bool has_no(unsigned a, struct random *r)
{
    return chance(r, a);
}

/* Answers kinds 1, 2 and 8 to 13; whether it is a yes. `b` names someone or is a handle. */
static bool asks(struct asker *k, uint64_t kind, uint64_t b)
{
    const struct style *s = k->style;
    bool may_fail = kind <= 2 || kind == 12;
    unsigned no = may_fail ? s->fail : kind == 10 ? s->bad_share : kind == 11 ? 0 : s->unreadable;
    bool a = !has_no(no, k->random);
    append(k, kind, a, !a && (kind == 2 || kind == 12) ? 0 : b);
    if (may_fail && !a)
        k->failed = true;
    return a;
}

/* Answers kinds 3 to 7 with their parts; whether there is an output, and which. */
static bool asks_instance(struct asker *k, uint64_t kind, uint64_t p, uint64_t *output)
{
    struct random *r = k->random;
    bool a = !has_no(k->style->fail, r), has_output = false;
    append(k, kind, a, p);
    if (!a) {
        k->failed = true;
        return false;
    }
    unsigned wanted = kind >= 6 ? k->style->vote : k->style->output;
    int outputs = chance(r, wanted) ? 1 + chance(r, 80) : 0;
    while (outputs > 0 || chance(r, k->style->parts)) {
        if (outputs > 0 && chance(r, 600)) {
            *output = kind <= 4 ? random_handle(r) : chance(r, kind == 7 ? 250 : 850);
            append(k, 18, 0, *output);
            has_output = true;
            outputs--;
        } else if (chance(r, 250)) {
            append(k, 17, below(r, k->n), PICK(r, 0, 1, 77, HANDLE_LIMIT));
        } else {
            append(k, 16, 0, PICK(r, 0, 1, random_word(r), UINT64_MAX));
        }
    }
    return has_output;
}

static uint64_t *field(struct asker *k, uint64_t p, size_t i)
{
    return &k->words[EPOCH_HEADER + p * (RECORD + k->n) + i];
}

static void hand_up(struct asker *k, uint64_t p, uint64_t value)
{
    k->handed[k->handed_count][0] = p;
    k->handed[k->handed_count][1] = value;
    k->handed_count++;
}

static void agreement(struct asker *k, uint64_t kind, uint64_t p)
{
    uint64_t output, *proposal = field(k, p, PROPOSAL);
    if (k->failed || *proposal > 1 || !asks_instance(k, kind, p, &output))
        return;
    if (output == 0) {
        *proposal = 3;
    } else if (*proposal == 0) {
        *proposal = 2;
    } else {
        *proposal = 4;
        hand_up(k, p, *field(k, p, VALUE));
    }
}

static void broadcast(struct asker *k, uint64_t kind, uint64_t p)
{
    uint64_t output, *proposal = field(k, p, PROPOSAL);
    if ((*proposal != 0 && *proposal != 2) || !asks_instance(k, kind, p, &output))
        return;
    if (*proposal == 0) {
        *proposal = 1;
        *field(k, p, VALUE) = output;
        agreement(k, 6, p);
    } else {
        *proposal = 4;
        hand_up(k, p, output);
    }
}

static void combine(struct asker *k, uint64_t p)
{
    uint64_t shares = 0;
    for (uint64_t s = 0; s < k->n; s++)
        shares += *field(k, p, RECORD + s) != 0;
    if (*field(k, p, TERMINATED) == 1 || shares <= k->f || *field(k, p, CIPHERTEXT) == 0)
        return;
    *field(k, p, TERMINATED) = 1;
    uint64_t plaintext = random_handle(k->random);
    if (!asks(k, 12, plaintext))
        return;
    *field(k, p, DECRYPTION) = 2;
    *field(k, p, PLAINTEXT) = plaintext;
}

static void send_share(struct asker *k, uint64_t p, uint64_t value)
{
    if (!asks(k, 8, p) || *field(k, p, DECRYPTION) == 2)
        return;
    *field(k, p, DECRYPTION) = 1;
    if (*field(k, p, CIPHERTEXT) != 0)
        k->failed = true; /* 25 */
    if (k->failed || !asks(k, 9, p))
        return;
    *field(k, p, CIPHERTEXT) = value;
    for (uint64_t s = 0; s < k->n; s++)
        if (*field(k, p, RECORD + s) != 0 && !asks(k, 10, s))
            *field(k, p, RECORD + s) = 0;
    *field(k, p, HAD_INPUT) = 1;
    if (value == 0)
        k->failed = true; /* 24: nothing to decrypt */
    if (k->has_share && !k->failed) {
        uint64_t share = random_handle(k->random);
        asks(k, 11, share);
        *field(k, p, RECORD + k->own) = share;
    }
    combine(k, p);
}

static void contribution(struct asker *k, uint64_t p, uint64_t value)
{
    if (k->failed)
        return;
    if (k->encrypted) {
        send_share(k, p, value);
    } else {
        *field(k, p, DECRYPTION) = 2;
        *field(k, p, PLAINTEXT) = value;
    }
    if (!k->failed)
        k->words[ACCEPTED] |= UINT64_C(1) << p;
}

static void keep(struct asker *k, uint64_t p, uint64_t value)
{
    uint64_t count = k->words[KEPT];
    if (count >= k->n)
        return;
    *field(k, count, ARRIVAL) = p;
    *field(k, p, VALUE) = value;
    k->words[KEPT]++;
}

static uint64_t proposals_in(struct asker *k, unsigned tags)
{
    uint64_t count = 0;
    for (uint64_t p = 0; p < k->n; p++)
        count += tags >> *field(k, p, PROPOSAL) & 1;
    return count;
}

/* Votes where N-f are accepted, then what the subset hands up. */
static void after_subset_call(struct asker *k)
{
    bool done = false;
    if (!k->failed && k->words[DECIDED] == 0) {
        uint64_t accepted = proposals_in(k, 1 << 2 | 1 << 4);
        for (uint64_t p = 0; accepted == k->n - k->f && p < k->n; p++)
            agreement(k, 7, p);
        done = accepted >= k->n - k->f && proposals_in(k, 1 << 3 | 1 << 4) == k->n;
    }
    for (size_t i = 0; i < k->handed_count; i++)
        if (k->all_at_end)
            keep(k, k->handed[i][0], k->handed[i][1]);
        else
            contribution(k, k->handed[i][0], k->handed[i][1]);
    for (uint64_t i = 0; done && i < k->words[KEPT]; i++)
        contribution(k, *field(k, i, ARRIVAL), *field(k, *field(k, i, ARRIVAL), VALUE));
    if (done)
        k->words[STATUS] = 2;
}

static void share(struct asker *k, uint64_t sender, uint64_t p, uint64_t item)
{
    bool accepted = k->words[ACCEPTED] >> p & 1;
    if ((k->words[STATUS] == 2 && !accepted) || *field(k, p, DECRYPTION) == 2)
        return;
    *field(k, p, DECRYPTION) = 1;
    if (*field(k, p, TERMINATED) == 1 || (*field(k, p, CIPHERTEXT) != 0 && !asks(k, 10, sender)))
        return;
    bool second = *field(k, p, RECORD + sender) != 0;
    *field(k, p, RECORD + sender) = item;
    if (!second)
        combine(k, p);
}

/* What the call asks before any batch goes out. */
static void ask_call(struct asker *k, const struct call *c)
{
    if (k->words[STATUS] == 0) {
        memset(k->words, 0, sizeof k->words);
        k->words[STATUS] = 1;
        if (!asks(k, 1, 0))
            return;
    }
    if (c->operation == PROPOSE && !asks(k, 2, random_handle(k->random)))
        return;
    uint64_t content = c->operation == PROPOSE ? 0 : c->numbers[2], p = c->numbers[3];
    if (content == 3)
        share(k, c->numbers[0], p, c->numbers[4]);
    if (content == 3 || k->words[STATUS] == 2)
        return;
    if (content == 0)
        broadcast(k, 3, k->own);
    if (content == 1)
        broadcast(k, 4, p);
    if (content == 2)
        agreement(k, 5, p);
    after_subset_call(k);
}

static bool is_ready(const uint64_t *epoch, uint64_t n)
{
    if (epoch[STATUS] != 2)
        return false;
    for (uint64_t p = 0; p < n; p++)
        if ((epoch[ACCEPTED] >> p & 1) && epoch[EPOCH_HEADER + p * (RECORD + n) + DECRYPTION] != 2)
            return false;
    return true;
}

static void ask_batches(struct asker *k, const uint64_t *state, uint64_t called)
{
    for (uint64_t i = 0; i <= state[AHEAD] && !k->failed; i++) {
        uint64_t number = state[CURRENT] + i;
        const uint64_t *epoch = number == called ? k->words : state + place_of(state, number);
        if (!is_ready(epoch, k->n))
            return;
        for (uint64_t p = 0; p < k->n; p++)
            if (epoch[ACCEPTED] >> p & 1)
                asks(k, 13, p);
    }
}

/* The answers that the call wants, in order. */
static void ask(struct asker *k, const struct call *c)
{
    const uint64_t *state = c->state;
    uint64_t current = state[CURRENT], n = state[NODES];
    uint64_t epoch = c->operation == PROPOSE ? current : c->numbers[1];
    bool runs = c->operation == PROPOSE ? state[OWN] < n : epoch >= current && epoch - current <= state[AHEAD];
    k->count = k->handed_count = 0;
    k->failed = false;
    if (!runs)
        return;
    k->n = n;
    k->f = state[FAULTY];
    k->own = state[OWN];
    k->has_share = state[OWN] < n && state[KEY] == 1;
    k->all_at_end = state[STRATEGY] == 1;
    k->encrypted = is_encrypted(state, epoch);
    memcpy(k->words, state + place_of(state, epoch), epoch_words(n) * sizeof *k->words);
    ask_call(k, c);
    ask_batches(k, state, epoch);
}

/* Lays a chain out: without gaps, with gaps and rubbish off the chain, or in a table of full length. */
static void lay_out(struct call *c, const struct asker *k, struct random *r)
{
    size_t records = k->count + 1, gaps = 0;
    uint64_t how = below(r, 8);
    if (how == 0)
        records = 1024;
    if (how == 1)
        records += below(r, 20);
    if (records > 1024)
        records = 1024;
    gaps = records - k->count - 1;
    c->answers_len = 4 * records;
    for (size_t i = 0; gaps > 0 && i < c->answers_len; i++)
        c->answers[i] = chance(r, 300) ? random_word(r) : below(r, 20);
    size_t at = 0;
    memset(c->answers, 0, 4 * sizeof *c->answers);
    for (size_t i = 0; i < k->count; i++) {
        size_t gap = gaps > 0 && chance(r, 300) ? below(r, gaps < 4 ? gaps + 1 : 5) : 0;
        gaps -= gap;
        c->answers[4 * at] = at + 1 + gap;
        at += 1 + gap;
        c->answers[4 * at] = 0;
        memcpy(c->answers + 4 * at + 1, k->chain[i], sizeof k->chain[i]);
    }
}

/* Content, proposer and sender of a message that brings the epoch on. */
static void helpful_message(struct call *c, uint64_t epoch, struct random *r)
{
    const uint64_t *state = c->state, *words = state + place_of(state, epoch);
    uint64_t n = state[NODES], p = below(r, n), sender = below(r, n), content = 1 + below(r, 3);
    /* Where the first proposer has nothing open, another one is looked for. */
    for (uint64_t i = 0; i < n; i++, p = (p + 1) % n) {
        const uint64_t *record = words + EPOCH_HEADER + p * (RECORD + n);
        if (words[STATUS] == 2) {
            content = 3;
            if ((words[ACCEPTED] >> p & 1) && record[DECRYPTION] == 1 && record[CIPHERTEXT] != 0) {
                while (record[RECORD + sender] != 0 && chance(r, 900))
                    sender = (sender + 1) % n;
                break;
            }
        } else {
            content = record[PROPOSAL] == 1 ? 2 : record[PROPOSAL] == 2 ? 1 : 1 + chance(r, 400);
            if (record[PROPOSAL] < 3)
                break;
        }
    }
    if (words[STATUS] != 2 && chance(r, is_encrypted(state, epoch) ? 150 : 20))
        content = 3;
    if (chance(r, 60))
        content = 1 + below(r, 3);
    uint64_t numbers[5] = {sender, epoch, content, p, content == 3 ? random_handle(r) : 0};
    memcpy(c->numbers, numbers, sizeof numbers);
}

static uint64_t message_epoch(const uint64_t *state, const struct style *s, struct random *r)
{
    uint64_t current = state[CURRENT], ahead = state[AHEAD];
    if (chance(r, s->stray))
        return PICK(r, current - 1, 0, current + ahead, current + ahead + 1, current + ahead + 2, LAST_EPOCH, random_word(r), UINT64_MAX);
    if (chance(r, s->ahead)) {
        /* Later epochs come to their end first. */
        for (uint64_t epoch = current + ahead; epoch > current; epoch--)
            if (!is_ready(state + place_of(state, epoch), state[NODES]))
                return epoch;
        return current;
    }
    return chance(r, 750) ? current : current + below(r, ahead + 1);
}

static uint64_t skip_target(uint64_t current, uint64_t ahead, struct random *r)
{
    return PICK(r, current, current - 1, 0, LAST_EPOCH, LAST_EPOCH + 1, UINT64_MAX, current + ahead, current + ahead + 1,
                current + below(r, 1000), current + 1, current + 1, current + 1, random_word(r));
}

void plausible_call(struct call *c, const struct style *s, struct random *r)
{
    static struct asker asker;
    const uint64_t *state = c->state;
    if (chance(r, s->skip)) {
        c->operation = SKIP;
        c->numbers[0] = skip_target(state[CURRENT], state[AHEAD], r);
        return;
    }
    bool wants_input = state[INPUT] == 0 && state[OWN] < state[NODES];
    if (chance(r, wants_input ? 150 : s->again)) {
        c->operation = PROPOSE;
    } else {
        c->operation = MESSAGE;
        helpful_message(c, message_epoch(state, s, r), r);
    }
    asker.style = s;
    asker.random = r;
    ask(&asker, c);
    lay_out(c, &asker, r);
    c->scratch_len = c->state_len + PICK(r, 0, 0, 1, 40);
    c->step_len = PICK(r, 4 * 1553, 4 * 1553, 4096, 1024, 1024, 256 + below(r, 256), below(r, 64));
}
