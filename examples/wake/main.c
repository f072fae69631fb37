/* Four hosts agree which of them may wake the paused guest: wake [--seed N] [--html FILE] [--runs N]
 *
 * Exit status: 0 where all hosts agree in every epoch and nothing happened that should not, else 1; 2 for a wrong argument. */
#include "bytes.h"
#include "events.h"
#include "host.h"
#include "network.h"
#include "outside.h"
#include "page.h"
#include "report.h"
#include "rubbish.h"

#include <stdio.h>
#include <stdlib.h>
#include <string.h>

static struct host hosts[HOSTS];

/* The host that was cut off skips its epoch once all others have left it */
static void skip_if_left_behind(uint64_t current[HOSTS])
{
    for (int h = 0; h < HOSTS; h++) {
        bool left_behind = is_cut_off(h, current[h]);
        for (int other = 0; other < HOSTS; other++)
            left_behind = left_behind && (other == h || current[other] > current[h]);
        if (!left_behind)
            continue;
        host_skip(&hosts[h], current[h] + 1);
        current[h]++;
    }
}

static void propose(struct host *h)
{
    uint64_t epoch = host_epoch(h);
    host_propose(h);
    if (sends_rubbish(h->index, epoch))
        send_rubbish(h->index, epoch);
}

/* One call, chosen by the seed: a message that is under way, or a propose of a host that has not proposed in its epoch. False where there is none */
static bool one_call(void)
{
    uint64_t current[HOSTS];
    int waiting[HOSTS], proposals = 0, messages;
    for (int h = 0; h < HOSTS; h++)
        current[h] = host_epoch(&hosts[h]);
    skip_if_left_behind(current);
    for (int h = 0; h < HOSTS; h++)
        if (current[h] < EPOCHS && !host_has_input(&hosts[h]))
            waiting[proposals++] = h;
    messages = deliverable(current);
    if (proposals > 0 && (messages == 0 || any_below(4) == 0)) {
        propose(&hosts[waiting[any_below((uint64_t)proposals)]]);
    } else if (messages > 0) {
        struct message m = take((int)any_below((uint64_t)messages), current);
        host_message(&hosts[m.to], &m);
    } else {
        return false;
    }
    return true;
}

static bool run(uint64_t seed, const char **why)
{
    bytes_clear();
    events_clear();
    outside_clear();
    network_clear(seed);
    for (int h = 0; h < HOSTS; h++)
        host_create(&hosts[h], h);
    while (one_call())
        ;
    for (int h = 0; h < HOSTS; h++)
        host_check(&hosts[h]);
    return all_agree(hosts, why);
}

/* Many orders of the same scene, with a dot for each twentieth of them */
static int run_many(uint64_t seed, uint64_t runs)
{
    uint64_t calls = 0, dots = 0;
    const char *why;
    printf("wake: %llu orders of the scene ", (unsigned long long)runs);
    for (uint64_t i = 0; i < runs; i++) {
        if (!run(seed + i, &why)) {
            printf("\nwake: FAILED: seed %llu: %s\n", (unsigned long long)(seed + i), why);
            return 1;
        }
        calls += calls_so_far();
        for (; dots < (i + 1) * 20 / runs; dots++)
            printf(".");
        fflush(stdout);
    }
    printf("\nwake: %llu calls, all hosts agree in every epoch of each\n", (unsigned long long)calls);
    return 0;
}

static int run_once(uint64_t seed, const char *html)
{
    const char *why;
    bool agree;
    report_scene(seed);
    agree = run(seed, &why);
    report_hosts(hosts);
    report_table(hosts);
    report_seen(hosts);
    if (html != NULL && !write_page(html, hosts, seed, agree)) {
        fprintf(stderr, "wake: cannot write %s\n", html);
        return 1;
    }
    if (html != NULL)
        printf("\nThe timeline is in %s\n", html);
    if (agree)
        printf("\nwake: %llu calls, all hosts agree in every epoch\n", (unsigned long long)calls_so_far());
    else
        printf("\nwake: FAILED: %s\n", why);
    return agree ? 0 : 1;
}

int main(int argc, char **argv)
{
    uint64_t seed = 7, runs = 0;
    const char *html = NULL;
    for (int i = 1; i < argc; i += 2) {
        char *end = NULL;
        uint64_t number = i + 1 < argc ? strtoull(argv[i + 1], &end, 10) : 0;
        bool is_number = end != NULL && *end == '\0' && end != argv[i + 1];
        if (strcmp(argv[i], "--html") == 0 && i + 1 < argc) {
            html = argv[i + 1];
        } else if (strcmp(argv[i], "--seed") == 0 && is_number) {
            seed = number;
        } else if (strcmp(argv[i], "--runs") == 0 && is_number && number > 0) {
            runs = number;
        } else {
            fprintf(stderr, "wake [--seed N] [--html FILE] [--runs N]\n");
            return 2;
        }
    }
    return runs > 0 ? run_many(seed, runs) : run_once(seed, html);
}
