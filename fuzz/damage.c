#include "damage.h"

#include "plausible.h"
#include "rules.h"

static uint64_t any_word(struct random *r)
{
    switch (below(r, 6)) {
    case 0:
        return random_word(r);
    case 1:
        return below(r, 20);
    case 2:
        return (UINT64_C(1) << below(r, 64)) - below(r, 2);
    case 3:
        return PICK(r, 0, 1, UINT64_MAX, HANDLE_LIMIT, HANDLE_LIMIT + 1, LAST_EPOCH, LAST_EPOCH + 1);
    case 4:
        return random_handle(r);
    default:
        return random_word(r) >> below(r, 64);
    }
}

static uint64_t up_to(uint64_t limit, struct random *r)
{
    return PICK(r, 0, limit, limit == UINT64_MAX ? random_word(r) : below(r, limit + 1));
}

void random_words(struct call *c, struct random *r)
{
    uint64_t n = 1 + below(r, 16), ahead = below(r, 16);
    c->state_len = PICK(r, 0, 1, 15, 16, 17, state_words(n, ahead), state_words(n, ahead), below(r, LENT_MAX + 1));
    for (size_t i = 0; i < c->state_len; i++)
        c->state[i] = any_word(r);
    /* Half of them look like a state at first. */
    if (c->state_len >= HEADER && chance(r, 500)) {
        plausible_numbers(c, r);
        c->numbers[0] = n;
        c->numbers[2] = ahead;
        uint64_t header[MAX_STATE];
        created(c->numbers, header);
        for (size_t i = 0; i < HEADER; i++)
            c->state[i] = header[i];
    }
}

void random_state(struct call *c, struct random *r)
{
    plausible_numbers(c, r);
    created(c->numbers, c->state);
    c->state_len = state_words(c->numbers[0], c->numbers[2]);
    c->state[CURRENT] = PICK(r, 0, 1, 1000, LAST_EPOCH - 1, LAST_EPOCH, below(r, LAST_EPOCH), LAST_EPOCH + below(r, c->state[AHEAD] + 2));
    c->state[INPUT] = below(r, 2);
    c->state[FAULTS] = PICK(r, 0, HANDLE_LIMIT, HANDLE_LIMIT - below(r, 3), random_handle(r));
    uint64_t limits[MAX_EPOCH_WORDS];
    epoch_limits(c->state[NODES], c->state[STRATEGY], limits);
    size_t size = epoch_words(c->state[NODES]);
    unsigned density = (unsigned)PICK(r, 50, 500, 1000);
    for (size_t at = HEADER; at < c->state_len; at += size)
        for (size_t i = 0; i < size; i++)
            if (chance(r, density))
                c->state[at + i] = up_to(limits[i], r);
}

/* The highest value of each word of a state, all others being as they are; for the header's nearly so. */
static void state_limits(const uint64_t *state, uint64_t header[HEADER], uint64_t epoch[MAX_EPOCH_WORDS])
{
    uint64_t limits[HEADER] = {1, state[NODES], (state[NODES] - 1) / 3, state[AHEAD], state[NODES], 1, 1, 3, 0, 0,
                               LAST_EPOCH + state[AHEAD] + 1, 1, HANDLE_LIMIT, 0, 0, 0};
    for (size_t i = 0; i < HEADER; i++)
        header[i] = limits[i];
    epoch_limits(state[NODES], state[STRATEGY], epoch);
}

void damage_state(struct call *c, bool in_range, struct random *r)
{
    if (!is_state(c->state, c->state_len))
        return;
    if (!in_range && chance(r, 100)) {
        size_t len = c->state_len;
        c->state_len = PICK(r, len - 1, len + 1, 0, 15, 16, len / 2, len + 16);
        for (size_t i = len; i < c->state_len; i++)
            c->state[i] = 0;
        return;
    }
    uint64_t header[HEADER], epoch[MAX_EPOCH_WORDS];
    state_limits(c->state, header, epoch);
    size_t size = epoch_words(c->state[NODES]);
    for (uint64_t i = 1 + below(r, 4); i > 0; i--) {
        size_t at = below(r, chance(r, 250) ? HEADER : c->state_len);
        uint64_t old = c->state[at], limit = at < HEADER ? header[at] : epoch[(at - HEADER) % size];
        c->state[at] = in_range ? up_to(limit, r) : PICK(r, limit + 1, up_to(limit, r), old ^ UINT64_C(1) << below(r, 64), any_word(r));
        /* One number of the header can forbid another. */
        if (in_range && at < HEADER && !is_state(c->state, c->state_len))
            c->state[at] = old;
    }
}

void damage_create(struct call *c, struct random *r)
{
    uint64_t *x = c->numbers;
    c->state_len = state_words(x[0], x[2]);
    for (uint64_t i = below(r, 3); i > 0; i--) {
        size_t at = below(r, 10);
        x[at] = PICK(r, any_word(r), x[at] + 1, x[at] - 1, x[0], x[0] + 1, (x[0] + 2) / 3, 16, 17, 2, 4, UINT64_MAX);
    }
    if (chance(r, 200))
        c->state_len = PICK(r, c->state_len - 1, c->state_len + 1, 0, 15, below(r, LENT_MAX + 1));
    /* A sum that wraps. */
    if (chance(r, 100)) {
        x[7] = 3;
        x[8] = PICK(r, UINT64_MAX, UINT64_MAX - below(r, 5), UINT64_C(1) << 63, HANDLE_LIMIT);
        x[9] = PICK(r, 1, 2, 5, UINT64_C(1) << 63, HANDLE_LIMIT);
    }
    for (size_t i = 0; i < c->state_len; i++)
        c->state[i] = random_word(r);
}

/* A record of the chain, at random; record 0 too. */
static size_t pick_record(const struct call *c, struct random *r)
{
    size_t records = c->answers_len / 4, at = 0;
    for (uint64_t left = below(r, 12); left > 0 && c->answers[4 * at] > at && c->answers[4 * at] < records; left--)
        at = c->answers[4 * at];
    return at;
}

/* N of the state, or any where that has none. */
static uint64_t nodes_of(const struct call *c)
{
    return c->state_len > NODES && c->state[NODES] >= 1 && c->state[NODES] <= MAX_NODES ? c->state[NODES] : 4;
}

static void damage_table(struct call *c, struct random *r)
{
    uint64_t n = nodes_of(c);
    size_t len = c->answers_len;
    if (len < 4 || chance(r, 50)) {
        c->answers_len = PICK(r, 0, 1, 2, 3, 4, 8, 4096, 4100, below(r, LENT_MAX + 1));
        for (size_t i = 0; i < c->answers_len; i++)
            c->answers[i] = chance(r, 700) ? below(r, 20) : any_word(r);
        return;
    }
    size_t at = pick_record(c, r), other = pick_record(c, r);
    uint64_t *record = c->answers + 4 * at;
    switch (below(r, 9)) {
    case 0: /* the length */
        c->answers_len = PICK(r, len - 1, len + 1, len + 2, len - 4, len + 4, 4100, 4 * (at + 1), 4 * at);
        for (size_t i = len; i < c->answers_len; i++)
            c->answers[i] = 0;
        break;
    case 1: /* a next */
        record[0] = PICK(r, 0, at, at + 1, at + 2, at - 1, len / 4, len / 4 - 1, len / 4 + 1, any_word(r));
        break;
    case 2: /* a kind */
        record[1] = PICK(r, below(r, 20), 1 + below(r, 13), 16 + below(r, 3), any_word(r));
        break;
    case 3:
        record[2] = PICK(r, record[2] ^ 1, 1, 0, 2, n - 1, n, any_word(r));
        break;
    case 4:
        record[3] = PICK(r, below(r, n + 1), n, 0, 1, HANDLE_LIMIT, HANDLE_LIMIT + 1, any_word(r));
        break;
    case 5: /* any word of the table, on the chain or not */
        c->answers[below(r, len)] = any_word(r);
        break;
    case 6: /* an answer is left out */
        if (record[0] > at && record[0] < len / 4)
            record[0] = c->answers[4 * record[0]];
        break;
    case 7: /* two change places */
        for (size_t i = 1; i < 4; i++) {
            uint64_t word = record[i];
            record[i] = c->answers[4 * other + i];
            c->answers[4 * other + i] = word;
        }
        break;
    default: /* one more, at the end of the table */
        if (len + 4 > ARENA - MARGIN)
            break;
        c->answers_len = len + 4;
        c->answers[len] = record[0];
        c->answers[len + 1] = PICK(r, 1 + below(r, 13), 16 + below(r, 3));
        c->answers[len + 2] = below(r, 2);
        c->answers[len + 3] = PICK(r, 0, below(r, n), random_handle(r));
        record[0] = len / 4;
        break;
    }
}

static void damage_numbers(struct call *c, struct random *r)
{
    uint64_t *x = c->numbers, n = nodes_of(c);
    uint64_t current = c->state_len > CURRENT ? c->state[CURRENT] : 0;
    switch (below(r, 5)) {
    case 0:
        x[0] = PICK(r, n, n - 1, n + 1, below(r, n), any_word(r));
        break;
    case 1:
        x[1] = PICK(r, current, current + below(r, 20), current - 1, any_word(r));
        break;
    case 2:
        x[2] = PICK(r, 0, 1, 2, 3, 4, any_word(r));
        break;
    case 3:
        x[3] = PICK(r, n, n - 1, n + 1, below(r, n), any_word(r));
        break;
    default:
        x[4] = PICK(r, 0, 1, HANDLE_LIMIT, HANDLE_LIMIT + 1, any_word(r));
        break;
    }
}

void damage_call(struct call *c, struct random *r)
{
    if (c->operation == SKIP) {
        if (chance(r, 500))
            damage_state(c, false, r);
        else
            c->numbers[0] = any_word(r);
        return;
    }
    for (uint64_t i = 1 + below(r, 2); i > 0; i--) {
        switch (below(r, 10)) {
        case 0:
        case 1:
            damage_state(c, false, r);
            break;
        case 2:
            damage_state(c, true, r);
            break;
        case 3:
        case 4:
        case 5:
        case 6:
            damage_table(c, r);
            break;
        case 7:
            damage_numbers(c, r);
            break;
        case 8:
            c->scratch_len = PICK(r, c->state_len, c->state_len == 0 ? 0 : c->state_len - 1, 0, c->state_len / 2, below(r, LENT_MAX + 1));
            break;
        default:
            c->step_len = below(r, 16);
            break;
        }
    }
}
