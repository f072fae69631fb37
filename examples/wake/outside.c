#include "outside.h"

#include "bytes.h"
#include "events.h"

#include <stdio.h>
#include <string.h>

/* RELIABLE BROADCAST, one instance for each host, epoch and proposer */
struct broadcast {
    uint64_t echo[HOSTS], ready[HOSTS]; /* the value that each host sent, 0 for none yet */
    bool delivered;
};

/* BINARY AGREEMENT, likewise */
struct agreement {
    bool heard[HOSTS], one[HOSTS];
    bool voted, decided;
};

static struct broadcast broadcasts[HOSTS][EPOCHS][HOSTS];
static struct agreement agreements[HOSTS][EPOCHS][HOSTS];
static struct {
    bool fixed, decision;
} arbiter[EPOCHS][HOSTS];

void outside_clear(void)
{
    memset(broadcasts, 0, sizeof broadcasts);
    memset(agreements, 0, sizeof agreements);
    memset(arbiter, 0, sizeof arbiter);
}

static struct outcome nothing(void)
{
    struct outcome o = {{0}, 0, -1, 0, false, 0};
    return o;
}

static void sends(struct outcome *o, uint64_t word) { o->messages[o->message_count++] = word; }

static struct outcome blames(int node, uint64_t kind)
{
    struct outcome o = nothing();
    o.faulty_node = node;
    o.fault_kind = kind;
    return o;
}

static int count_of(const uint64_t values[HOSTS], uint64_t value)
{
    int n = 0;
    for (int i = 0; i < HOSTS; i++)
        n += values[i] == value;
    return n;
}

/* What follows once `value` has one more ECHO or READY: the own READY, and delivery */
static void advance(struct broadcast *b, int host, uint64_t value, struct outcome *o)
{
    if (b->ready[host] == 0 && (count_of(b->echo, value) >= HOSTS - FAULTY || count_of(b->ready, value) > FAULTY)) {
        b->ready[host] = value;
        sends(o, (uint64_t)READY << 32 | value);
    }
    if (!b->delivered && count_of(b->ready, value) > 2 * FAULTY) {
        b->delivered = true;
        o->has_output = true;
        o->output = value;
    }
}

static void echo(struct broadcast *b, int host, uint64_t value, struct outcome *o)
{
    if (b->echo[host] != 0)
        return;
    b->echo[host] = value;
    sends(o, (uint64_t)ECHO << 32 | value);
    advance(b, host, value, o);
}

struct outcome broadcast_own(int host, uint64_t epoch, uint64_t value)
{
    struct outcome o = nothing();
    sends(&o, (uint64_t)FIRST << 32 | value);
    echo(&broadcasts[host][epoch][host], host, value, &o);
    return o;
}

struct outcome broadcast_word(int host, uint64_t epoch, int proposer, int sender, uint64_t word)
{
    struct broadcast *b = &broadcasts[host][epoch][proposer];
    uint64_t value = word & 0xffffffff, *seen;
    struct outcome o = nothing();
    switch (word >> 32) {
    case FIRST:
        if (sender != proposer)
            return blames(sender, UNREADABLE_WORD);
        echo(b, host, value, &o);
        return o;
    case ECHO: seen = &b->echo[sender]; break;
    case READY: seen = &b->ready[sender]; break;
    default: return blames(sender, UNREADABLE_WORD);
    }
    if (*seen != 0)
        return *seen == value ? o : blames(sender, CONTRADICTION);
    *seen = value;
    advance(b, host, value, &o);
    return o;
}

/* Where the instance has heard N-f hosts it learns the decision, which the first that asks brings about */
static void learn(int host, uint64_t epoch, int proposer, struct outcome *o)
{
    struct agreement *g = &agreements[host][epoch][proposer];
    int heard = 0, ones = 0;
    for (int i = 0; i < HOSTS; i++) {
        heard += g->heard[i];
        ones += g->one[i];
    }
    if (g->decided || heard < HOSTS - FAULTY)
        return;
    if (!arbiter[epoch][proposer].fixed) {
        arbiter[epoch][proposer].fixed = true;
        arbiter[epoch][proposer].decision = ones > FAULTY;
    }
    g->decided = true;
    if (!g->voted)
        sends(o, HAS_DECIDED); /* it will not be asked to vote any more; the others may be waiting for it */
    o->has_output = true;
    o->output = arbiter[epoch][proposer].decision;
}

struct outcome agreement_vote(int host, uint64_t epoch, int proposer, bool vote)
{
    struct agreement *g = &agreements[host][epoch][proposer];
    struct outcome o = nothing();
    if (g->voted || g->decided)
        return o; /* the first vote stands */
    g->voted = g->heard[host] = true;
    g->one[host] = vote;
    note(host, epoch, VOTED, host, proposer, vote);
    sends(&o, vote ? VOTE_1 : VOTE_0);
    learn(host, epoch, proposer, &o);
    return o;
}

struct outcome agreement_word(int host, uint64_t epoch, int proposer, int sender, uint64_t word)
{
    struct agreement *g = &agreements[host][epoch][proposer];
    struct outcome o = nothing();
    if (word > HAS_DECIDED)
        return blames(sender, UNREADABLE_WORD);
    if (g->heard[sender] && word != HAS_DECIDED && g->one[sender] != (word == VOTE_1))
        return blames(sender, CONTRADICTION);
    if (!g->heard[sender]) {
        g->heard[sender] = true;
        g->one[sender] = word == HAS_DECIDED ? arbiter[epoch][proposer].decision : word == VOTE_1;
        learn(host, epoch, proposer, &o);
    }
    return o;
}

/* THE CIPHER */

static void sealed(const char *plain, char *text) { snprintf(text, TEXT_SIZE, "sealed(%s)", plain); }

/* the text inside "sealed(…)", false if it is none */
static bool inside(uint64_t value, char *plain)
{
    const char *text = text_of(value);
    size_t length = strlen(text);
    if (strncmp(text, "sealed(", 7) != 0 || text[length - 1] != ')')
        return false;
    memcpy(plain, text + 7, length - 8);
    plain[length - 8] = '\0';
    return true;
}

uint64_t serialised(int host, uint64_t epoch)
{
    char plain[TEXT_SIZE / 2], text[TEXT_SIZE];
    contribution(host, epoch, plain, sizeof plain);
    if (!is_encrypted(epoch))
        return handle_of(plain);
    sealed(plain, text);
    return handle_of(text);
}

bool ciphertext_reads(uint64_t value)
{
    char plain[TEXT_SIZE];
    return inside(value, plain);
}

bool ciphertext_verifies(uint64_t value) { return ciphertext_reads(value); }

static uint64_t share_of(int host, uint64_t ciphertext)
{
    char text[TEXT_SIZE];
    snprintf(text, sizeof text, "share of host %d for number %u", host, (unsigned)ciphertext);
    return handle_of(text);
}

uint64_t own_share(int host, uint64_t ciphertext) { return share_of(host, ciphertext); }

bool share_verifies(int sender, uint64_t ciphertext, uint64_t share) { return share == share_of(sender, ciphertext); }

uint64_t decrypted(uint64_t ciphertext, const uint64_t shares[HOSTS])
{
    char plain[TEXT_SIZE];
    int valid = 0;
    for (int i = 0; i < HOSTS; i++)
        valid += shares[i] != 0 && share_verifies(i, ciphertext, shares[i]);
    return valid > FAULTY && inside(ciphertext, plain) ? handle_of(plain) : 0;
}

bool contribution_reads(uint64_t plaintext) { return read_contribution(text_of(plaintext)) >= 0; }
