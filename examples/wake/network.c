#include "network.h"

#include "belkjund.h"

#include <stdio.h>
#include <stdlib.h>

enum { MOST = 4096, FORGED = 1000 };

static struct message flying[MOST];
static int count;
static uint64_t random_state;

void network_clear(uint64_t seed)
{
    count = 0;
    random_state = seed * UINT64_C(0x9e3779b97f4a7c15) + 1;
}

uint64_t any_below(uint64_t bound)
{
    random_state ^= random_state << 13; /* xorshift64 */
    random_state ^= random_state >> 7;
    random_state ^= random_state << 17;
    return (random_state >> 11) % bound;
}

void send_as_is(const struct message *m)
{
    if (count == MOST) {
        fprintf(stderr, "wake: too many messages under way\n");
        exit(2);
    }
    flying[count++] = *m;
}

void send_to_all(int from, uint64_t epoch, uint64_t content, uint64_t proposer, uint64_t word)
{
    bool is_share = content == HB_SHARE;
    for (int to = 0; to < HOSTS; to++) {
        struct message m = {to, (uint64_t)from, epoch, content, proposer, is_share ? word : 0, is_share ? 0 : word};
        if (to == from || is_silent(from, epoch) || is_cut_off(from, epoch) || is_cut_off(to, epoch))
            continue;
        send_as_is(&m);
    }
}

/* No host of the scene comes to epoch FORGED, so that what names it is rubbish, and rubbish waits for nobody */
static bool may_go(const struct message *m, const uint64_t current[HOSTS])
{
    return m->epoch <= current[m->to] + LOOK_AHEAD || m->epoch >= FORGED;
}

int deliverable(const uint64_t current[HOSTS])
{
    int n = 0;
    for (int i = 0; i < count; i++)
        n += may_go(&flying[i], current);
    return n;
}

struct message take(int place, const uint64_t current[HOSTS])
{
    int i = 0;
    while (!may_go(&flying[i], current) || place-- > 0)
        i++;
    struct message m = flying[i];
    flying[i] = flying[--count];
    return m;
}
