#include "rules.h"

#include <string.h>

#include "random.h"

size_t epoch_words(uint64_t n)
{
    return EPOCH_HEADER + (size_t)n * (RECORD + (size_t)n);
}

size_t state_words(uint64_t n, uint64_t ahead)
{
    return HEADER + ((size_t)ahead + 1) * epoch_words(n);
}

size_t place_of(const uint64_t *state, uint64_t epoch)
{
    return HEADER + (size_t)(epoch % (state[AHEAD] + 1)) * epoch_words(state[NODES]);
}

void epoch_limits(uint64_t n, uint64_t strategy, uint64_t limits[MAX_EPOCH_WORDS])
{
    memset(limits, 0, MAX_EPOCH_WORDS * sizeof *limits);
    limits[STATUS] = 2;
    limits[DECIDED] = 1;
    limits[ACCEPTED] = (UINT64_C(1) << n) - 1;
    limits[KEPT] = strategy == 1 ? n : 0;
    for (uint64_t p = 0; p < n; p++) {
        uint64_t *record = limits + EPOCH_HEADER + p * (RECORD + n);
        record[PROPOSAL] = 4;
        record[VALUE] = HANDLE_LIMIT;
        record[DECRYPTION] = 2;
        record[PLAINTEXT] = HANDLE_LIMIT;
        record[CIPHERTEXT] = HANDLE_LIMIT;
        record[HAD_INPUT] = 1;
        record[TERMINATED] = 1;
        record[ARRIVAL] = n - 1;
        for (uint64_t s = 0; s < n; s++)
            record[RECORD + s] = HANDLE_LIMIT;
    }
}

bool schedule_in_range(uint64_t kind, uint64_t a, uint64_t b)
{
    switch (kind) {
    case 0:
    case 1:
        return true;
    case 2:
        return a >= 1 && a <= HANDLE_LIMIT;
    case 3:
        return a <= HANDLE_LIMIT && b <= HANDLE_LIMIT && a + b >= 1 && a + b <= HANDLE_LIMIT;
    default:
        return false;
    }
}

static bool nodes_in_range(uint64_t n, uint64_t f, uint64_t ahead, uint64_t own)
{
    return n >= 1 && n <= MAX_NODES && f < n && 3 * f < n && ahead <= MAX_AHEAD && own <= n;
}

static bool is_header(const uint64_t *w)
{
    uint64_t kind = w[SCHEDULE];
    return w[PROFILE] == 1 && nodes_in_range(w[NODES], w[FAULTY], w[AHEAD], w[OWN]) && w[KEY] <= 1
        && w[STRATEGY] <= 1 && schedule_in_range(kind, w[NUMBER_A], w[NUMBER_B])
        && (kind >= 2 || w[NUMBER_A] == 0) && (kind == 3 || w[NUMBER_B] == 0)
        && w[CURRENT] <= LAST_EPOCH + w[AHEAD] + 1 && w[INPUT] <= 1 && w[FAULTS] <= HANDLE_LIMIT
        && w[13] == 0 && w[14] == 0 && w[15] == 0;
}

bool is_state(const uint64_t *w, size_t len)
{
    if (len < HEADER || !is_header(w) || len != state_words(w[NODES], w[AHEAD]))
        return false;
    uint64_t limits[MAX_EPOCH_WORDS];
    epoch_limits(w[NODES], w[STRATEGY], limits);
    size_t size = epoch_words(w[NODES]);
    for (size_t at = HEADER; at < len; at += size)
        for (size_t i = 0; i < size; i++)
            if (w[at + i] > limits[i])
                return false;
    return true;
}

static bool is_handle(uint64_t x)
{
    return x >= 1 && x <= HANDLE_LIMIT;
}

/* Whether a record of the chain is in its range; `of` is the kind of the answer whose parts may follow, or 0. */
static bool is_record(uint64_t n, uint64_t kind, uint64_t a, uint64_t b, uint64_t of)
{
    switch (kind) {
    case 1:
        return a <= 1 && b == 0;
    case 2:
    case 12:
        return a == 1 ? is_handle(b) : a == 0 && b == 0;
    case 3: case 4: case 5: case 6: case 7: case 8: case 9: case 10: case 13:
        return a <= 1 && b < n;
    case 11:
        return a == 1 && is_handle(b);
    case 16:
        return of != 0 && a == 0;
    case 17:
        return of != 0 && a < n && b <= HANDLE_LIMIT;
    case 18:
        return of != 0 && a == 0 && (of <= 4 ? is_handle(b) : b <= 1);
    default:
        return false;
    }
}

bool is_table(uint64_t n, const uint64_t *w, size_t len)
{
    if (len < 4 || len > 4096 || len % 4 != 0 || w[1] != 0 || w[2] != 0 || w[3] != 0)
        return false;
    uint64_t of = 0;
    for (uint64_t i = 0; w[4 * i] != 0;) {
        uint64_t next = w[4 * i];
        if (next <= i || next >= len / 4)
            return false;
        i = next;
        uint64_t kind = w[4 * i + 1], a = w[4 * i + 2];
        if (!is_record(n, kind, a, w[4 * i + 3], of))
            return false;
        if (kind <= 13)
            of = kind >= 3 && kind <= 7 && a == 1 ? kind : 0;
    }
    return true;
}

bool is_encrypted(const uint64_t *state, uint64_t epoch)
{
    switch (state[SCHEDULE]) {
    case 0:
        return true;
    case 1:
        return false;
    case 2:
        return epoch % state[NUMBER_A] == 0;
    default:
        return epoch % (state[NUMBER_A] + state[NUMBER_B]) < state[NUMBER_A];
    }
}

uint64_t create_refusal(const uint64_t x[10], size_t state_len)
{
    if (!nodes_in_range(x[0], x[1], x[2], x[3]) || x[4] > 1 || x[5] > 1 || x[6] > LAST_EPOCH
        || !schedule_in_range(x[7], x[8], x[9]))
        return 1;
    return state_len == state_words(x[0], x[2]) ? 0 : 2;
}

static uint64_t first_refusal(const uint64_t *state, size_t state_len, size_t scratch_len, const uint64_t *answers,
                              size_t answers_len)
{
    if (!is_state(state, state_len))
        return 3;
    if (scratch_len < state_len)
        return 4;
    return is_table(state[NODES], answers, answers_len) ? 0 : 5;
}

uint64_t propose_refusal(const uint64_t *state, size_t state_len, size_t scratch_len, const uint64_t *answers,
                         size_t answers_len)
{
    uint64_t first = first_refusal(state, state_len, scratch_len, answers, answers_len);
    if (first != 0)
        return first;
    return state[CURRENT] > LAST_EPOCH ? 6 : 0;
}

uint64_t message_refusal(const uint64_t x[5], const uint64_t *state, size_t state_len, size_t scratch_len,
                         const uint64_t *answers, size_t answers_len)
{
    uint64_t first = first_refusal(state, state_len, scratch_len, answers, answers_len);
    if (first != 0)
        return first;
    uint64_t sender = x[0], content = x[2], proposer = x[3], item = x[4];
    if (sender >= state[NODES])
        return 11;
    if (content < 1 || content > 3 || proposer >= state[NODES] || (content == 3 ? !is_handle(item) : item != 0))
        return 7;
    return state[CURRENT] > LAST_EPOCH ? 6 : 0;
}

uint64_t skip_refusal(uint64_t target, const uint64_t *state, size_t state_len)
{
    if (!is_state(state, state_len))
        return 3;
    return target > LAST_EPOCH ? 12 : 0;
}

uint64_t has_input(const uint64_t *state)
{
    return state[INPUT] == 1 || state[OWN] == state[NODES];
}

uint64_t received_proposals(const uint64_t *state)
{
    uint64_t n = state[NODES], count = 0;
    const uint64_t *epoch = state + place_of(state, state[CURRENT]);
    for (uint64_t p = 0; p < n; p++) {
        uint64_t proposal = epoch[EPOCH_HEADER + p * (RECORD + n) + PROPOSAL];
        if (epoch[STATUS] == 1)
            count += proposal == 1 || proposal == 4;
        if (epoch[STATUS] == 2)
            count += epoch[ACCEPTED] >> p & 1;
    }
    return count;
}

void created(const uint64_t x[10], uint64_t *state)
{
    memset(state, 0, state_words(x[0], x[2]) * sizeof *state);
    state[PROFILE] = 1;
    for (size_t i = 0; i < 6; i++)
        state[NODES + i] = x[i];
    state[SCHEDULE] = x[7];
    state[NUMBER_A] = x[7] >= 2 ? x[8] : 0;
    state[NUMBER_B] = x[7] == 3 ? x[9] : 0;
    state[CURRENT] = x[6];
}

void skipped(uint64_t target, uint64_t *state)
{
    uint64_t current = state[CURRENT];
    if (target <= current)
        return;
    for (uint64_t epoch = current; epoch < target && epoch <= current + state[AHEAD]; epoch++)
        memset(state + place_of(state, epoch), 0, epoch_words(state[NODES]) * sizeof *state);
    state[CURRENT] = target;
    state[INPUT] = 0;
}
