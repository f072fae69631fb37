#include "report.h"

#include "events.h"

#include <stdio.h>
#include <string.h>

const char *grouped(int number, char text[16])
{
    if (number >= 1000)
        snprintf(text, 16, "%d,%03d", number / 1000 % 1000, number % 1000);
    else
        snprintf(text, 16, "%d", number);
    return text;
}

/* One epoch: the first host with a batch gives it, the others must have the same */
static const char *disagreement(const struct host hosts[HOSTS], int epoch)
{
    const struct conclusion *first = NULL;
    int with_batch = 0, wakes = 0, agreed_on = 0;
    for (int h = 0; h < HOSTS; h++) {
        const struct conclusion *c = &hosts[h].conclusions[epoch];
        if (!c->has_batch && !c->skipped)
            return "a host neither has the batch of an epoch nor skipped it";
        if (!c->has_batch)
            continue;
        with_batch++;
        wakes += c->waker == h;
        if (first == NULL)
            first = c;
        if (memcmp(&c->batch, &first->batch, sizeof c->batch) != 0)
            return "two hosts have different batches";
        if (c->waker != first->waker)
            return "two hosts name different hosts";
    }
    if (with_batch < HOSTS - FAULTY)
        return "too few hosts have the batch";
    for (int p = 0; p < HOSTS; p++)
        agreed_on += first->batch.free_mib[p] >= 0 || (first->batch.unreadable >> p & 1);
    if (agreed_on < HOSTS - FAULTY)
        return "a batch has too few contributions";
    return wakes > 1 ? "two hosts wake the guest" : NULL;
}

bool all_agree(const struct host hosts[HOSTS], const char **why)
{
    *why = NULL;
    for (int h = 0; h < HOSTS && *why == NULL; h++)
        *why = hosts[h].trouble;
    for (int e = 0; e < EPOCHS && *why == NULL; e++)
        *why = disagreement(hosts, e);
    return *why == NULL;
}

void report_scene(uint64_t seed)
{
    char host[16], guest[16];
    printf("Four hosts with %s MiB each. Host 0 has two guests and one of them is paused; it needs %s MiB to be woken.\n", grouped(HOST_MIB, host),
           grouped(GUEST_MIB, guest));
    printf("In each epoch the hosts offer their free memory and agree on a batch of offers. By the batch they know who may wake the guest:\n");
    printf("the contributor with most room, the lowest index on a tie. Afterwards the guest is paused again, for the next epoch.\n");
    printf("SIMULATED in this process: network, reliable broadcast, binary agreement, threshold cipher (examples/wake/outside.h). Real: the engines, one a host.\n");
    printf("Messages arrive in any order; this order is that of seed %llu.\n", (unsigned long long)seed);
}

static void print_batch(const struct batch *b)
{
    char text[16];
    printf("  batch:");
    for (int p = 0; p < HOSTS; p++)
        if (b->free_mib[p] >= 0)
            printf("  host %d %s MiB", p, grouped(b->free_mib[p], text));
        else
            printf("  host %d %s", p, b->unreadable >> p & 1 ? "does not read" : "-");
    printf("\n");
}

static void print_conclusion(int h, const struct conclusion *c)
{
    if (c->skipped)
        printf("  host %d: I skipped this epoch and wake nobody.\n", h);
    else if (c->waker == NOBODY)
        printf("  host %d: nobody has room for the guest.\n", h);
    else if (c->waker == h)
        printf("  host %d: host %d may wake the guest. That is me: I WAKE IT.\n", h, c->waker);
    else
        printf("  host %d: host %d may wake the guest. I leave it paused.\n", h, c->waker);
}

void report_hosts(const struct host hosts[HOSTS])
{
    for (int e = 0; e < EPOCHS; e++) {
        int with = 0;
        while (with < HOSTS - 1 && !hosts[with].conclusions[e].has_batch)
            with++;
        printf("\nEpoch %d, %s. %s\n", e, is_encrypted((uint64_t)e) ? "encrypted" : "plain", story((uint64_t)e));
        print_batch(&hosts[with].conclusions[e].batch);
        for (int h = 0; h < HOSTS; h++)
            print_conclusion(h, &hosts[h].conclusions[e]);
    }
}

void report_table(const struct host hosts[HOSTS])
{
    printf("\nWho may wake the guest, as each host has it (* it is the host itself)\n\n  epoch           ");
    for (int h = 0; h < HOSTS; h++)
        printf("host %d    ", h);
    printf("agree\n");
    for (int e = 0; e < EPOCHS; e++) {
        printf("  %d %-12s  ", e, is_encrypted((uint64_t)e) ? "encrypted" : "plain");
        for (int h = 0; h < HOSTS; h++) {
            const struct conclusion *c = &hosts[h].conclusions[e];
            if (c->skipped)
                printf("skipped   ");
            else if (!c->has_batch)
                printf("?         ");
            else if (c->waker == NOBODY)
                printf("nobody    ");
            else
                printf("host %d%-4s", c->waker, c->waker == h ? "*" : "");
        }
        printf("%s\n", disagreement(hosts, e) == NULL ? "yes" : "NO");
    }
}

/* A line for each number that came, with how often it came on each host */
static void print_seen(const char *what, int number, const char *name, const uint64_t counts[HOSTS])
{
    uint64_t sum = 0;
    for (int h = 0; h < HOSTS; h++)
        sum += counts[h];
    if (sum == 0)
        return;
    printf("  %s %2d %-32s", what, number, name);
    for (int h = 0; h < HOSTS; h++)
        printf(" %7llu", (unsigned long long)counts[h]);
    printf("\n");
}

void report_seen(const struct host hosts[HOSTS])
{
    uint64_t counts[HOSTS];
    printf("\nWhat the engines said, by host                 0       1       2       3\n");
    for (int r = 0; r < 32; r++) {
        for (int h = 0; h < HOSTS; h++)
            counts[h] = hosts[h].seen_replies[r];
        print_seen("reply", r, hb_reply_name((uint64_t)r), counts);
    }
    for (int f = 1; f < 10; f++) {
        for (int h = 0; h < HOSTS; h++)
            counts[h] = hosts[h].seen_faults[f];
        print_seen("fault", f, hb_fault_name((uint64_t)f), counts);
    }
    printf("Each call is first made without answers; reply 8 says that it wants some and changed nothing.\n");
}
