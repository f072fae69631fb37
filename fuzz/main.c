/* Hostile calls through the engine's C interface: see README.md. */
#define _GNU_SOURCE
#include <stdio.h>
#include <stdlib.h>
#include <string.h>
#include <time.h>

#include "calls.h"
#include "damage.h"
#include "plausible.h"
#include "rules.h"

/* Where the states of propose, message, skip and the queries came from. */
enum source { RUN, RUN_DAMAGED, RANDOM_STATE, RANDOM_WORDS, SOURCES };
static const char *const source_names[SOURCES] = {"reached by a run", "damaged, now or earlier in the run",
                                                  "random within the ranges, and what calls made of it", "random words"};
static uint64_t source_counts[SOURCES], batches_seen, probes_made, plausible_made;

static void copy_call(struct call *to, const struct call *from)
{
    to->operation = from->operation;
    memcpy(to->numbers, from->numbers, sizeof to->numbers);
    memcpy(to->state, from->state, from->state_len * sizeof *to->state);
    memcpy(to->answers, from->answers, from->answers_len * sizeof *to->answers);
    to->state_len = from->state_len;
    to->answers_len = from->answers_len;
    to->scratch_len = from->scratch_len;
    to->step_len = from->step_len;
}

static void expect(struct call *c, uint64_t reply, struct random *r)
{
    probes_made++;
    make_call(c, r);
    if (c->reply != reply)
        call_wrong("a call made again with one thing changed has another reply than it must");
}

/* The last answer of the chain and the record before it, or 0. */
static size_t last_answer(const uint64_t *t, size_t *before)
{
    size_t last = 0;
    for (size_t at = 0; t[4 * at] != 0; at = t[4 * at])
        if (t[4 * t[4 * at] + 1] <= 13) {
            *before = at;
            last = t[4 * at];
        }
    return last;
}

/* Makes a call again that was run, in ways that fix its reply: with a step table one word too short (10) or just long
   enough, with one answer more (9), without its last answer (8). */
static void probe(struct call *c, const struct call *done, struct random *r)
{
    uint64_t *t = c->answers;
    size_t before = 0, end = 0, last = last_answer(t, &before);
    switch (below(r, 4)) {
    case 0:
        c->step_len = 4 * done->records - 1;
        expect(c, 10, r);
        break;
    case 1:
        c->step_len = 4 * done->records;
        expect(c, done->reply, r);
        if (memcmp(c->state, done->state, c->state_len * sizeof *c->state) != 0)
            call_wrong("the same call left another state");
        break;
    case 2:
        if (c->answers_len + 4 > 4096)
            break;
        while (t[4 * end] != 0)
            end = t[4 * end];
        t[4 * end] = c->answers_len / 4;
        memcpy(t + c->answers_len, (uint64_t[4]){0, 1, 1, 0}, 4 * sizeof *t);
        c->answers_len += 4;
        expect(c, 9, r);
        break;
    default:
        if (last == 0)
            break;
        t[4 * before] = 0;
        expect(c, 8, r);
        break;
    }
}

static void queries(struct call *c, enum source source, struct random *r)
{
    for (int q = CURRENT_EPOCH; q <= FAULT_COUNT; q++) {
        c->operation = (enum operation)q;
        make_call(c, r);
        source_counts[source]++;
    }
}

/* Calls from the state that `c` holds on, most of them plausible. */
static void run(struct call *c, enum source source, uint64_t calls, struct random *r)
{
    static struct call now, again;
    struct style style = random_style(r);
    unsigned damage = (unsigned)PICK(r, 50, 300, 600), adopt = (unsigned)PICK(r, 0, 0, 30, 300);
    copy_call(&now, c);
    for (uint64_t i = 0; i < calls && is_state(now.state, now.state_len); i++) {
        copy_call(c, &now);
        plausible_call(c, &style, r);
        bool damaged = chance(r, damage);
        if (damaged)
            damage_call(c, r);
        bool steps = c->operation != SKIP, probes = steps && chance(r, 100);
        if (probes)
            copy_call(&again, c);
        uint64_t epoch = c->state_len > CURRENT ? c->state[CURRENT] : 0;
        make_call(c, r);
        source_counts[source == RUN && damaged ? RUN_DAMAGED : source]++;
        if (!damaged && source == RUN && steps) {
            plausible_made++;
            if (c->reply == 8 || c->reply == 9)
                call_wrong("the call wants other answers than plausible.c chose for it");
        }
        if (probes && was_run(c))
            probe(&again, c, r);
        if (chance(r, 60))
            queries(c, damaged && source == RUN ? RUN_DAMAGED : source, r);
        if (was_run(c) && c->reply == 0 && steps && c->state_len > CURRENT)
            batches_seen += c->state[CURRENT] - epoch;
        if (was_run(c) && (!damaged || chance(r, adopt))) {
            copy_call(&now, c);
            if (damaged && source == RUN)
                source = RUN_DAMAGED;
        }
        if (now.state[CURRENT] > LAST_EPOCH && chance(r, 200))
            break;
    }
}

static void hostile_creates(struct call *c, struct random *r)
{
    for (int i = 0; i < 40; i++) {
        plausible_numbers(c, r);
        damage_create(c, r);
        c->operation = CREATE;
        make_call(c, r);
    }
}

static void hostile_words(struct call *c, struct random *r)
{
    struct style style = random_style(r);
    for (int i = 0; i < 20; i++) {
        random_state(c, r);
        plausible_call(c, &style, r);
        enum operation operation = c->operation;
        uint64_t numbers[5];
        memcpy(numbers, c->numbers, sizeof numbers);
        random_words(c, r);
        c->operation = operation;
        memcpy(c->numbers, numbers, sizeof numbers);
        if (chance(r, 500))
            damage_call(c, r);
        make_call(c, r);
        source_counts[RANDOM_WORDS]++;
        if (chance(r, 300))
            queries(c, RANDOM_WORDS, r);
    }
}

/* A round depends on the seed and its number alone. */
static void play(uint64_t seed, uint64_t round)
{
    static struct call c;
    struct random random = random_new(seed, round), *r = &random;
    round_begins(seed, round);
    c.answers_len = c.scratch_len = c.step_len = 0;
    switch (below(r, 16)) {
    case 0:
        hostile_creates(&c, r);
        break;
    case 1:
        hostile_words(&c, r);
        break;
    case 2:
    case 3:
    case 4:
    case 5:
    case 6:
        random_state(&c, r);
        run(&c, RANDOM_STATE, 1 + below(r, 60), r);
        break;
    default:
        plausible_numbers(&c, r);
        c.operation = CREATE;
        c.state_len = state_words(c.numbers[0], c.numbers[2]);
        for (size_t i = 0; i < c.state_len; i++)
            c.state[i] = random_word(r);
        make_call(&c, r);
        run(&c, RUN, 1 + below(r, 60 * c.numbers[0]), r);
        break;
    }
}

static void print_counts(void)
{
    printf("| operation | replies | calls |\n|---|---|--:|\n");
    for (int o = 0; o < OPERATIONS; o++) {
        uint64_t sum = 0;
        printf("| %s |", operation_names[o]);
        for (int reply = 0; reply < REPLIES; reply++) {
            if (counts[o][reply] > 0)
                printf("%s %d: %llu", sum == 0 ? "" : ",", reply, (unsigned long long)counts[o][reply]);
            sum += counts[o][reply];
        }
        printf(" | %llu |\n", (unsigned long long)sum);
    }
    printf("\n| state | calls |\n|---|--:|\n");
    for (int s = 0; s < SOURCES; s++)
        printf("| %s | %llu |\n", source_names[s], (unsigned long long)source_counts[s]);
    printf("\nBatches handed out: %llu. Calls made again for 8, 9 or 10: %llu. Plausible calls, none of them with 8 or 9: %llu.\n",
           (unsigned long long)batches_seen, (unsigned long long)probes_made, (unsigned long long)plausible_made);
}

static uint64_t number(const char *text)
{
    char *end;
    unsigned long long value = strtoull(text, &end, 10);
    if (*text == 0 || *end != 0) {
        fprintf(stderr, "not a number: %s\n", text);
        exit(2);
    }
    return value;
}

int main(int count, char **arguments)
{
    uint64_t seed = 1, calls = 1000000, round = 0;
    bool one = false;
    for (int i = 1; i < count; i += 2) {
        if (i + 1 < count && strcmp(arguments[i], "--seed") == 0) {
            seed = number(arguments[i + 1]);
        } else if (i + 1 < count && strcmp(arguments[i], "--calls") == 0) {
            calls = number(arguments[i + 1]);
        } else if (i + 1 < count && strcmp(arguments[i], "--round") == 0) {
            round = number(arguments[i + 1]);
            one = true;
        } else {
            fprintf(stderr, "usage: fuzz [--seed S] [--calls N] [--round R]\n");
            return 2;
        }
    }
    calls_open(seed);
    time_t start = time(NULL), shown = start;
    printf("seed %llu\n", (unsigned long long)seed);
    fflush(stdout);
    do {
        play(seed, round++);
        time_t now = time(NULL);
        if (now - shown >= 10) {
            shown = now;
            fprintf(stderr, "%llu of %llu calls, %llu s\n", (unsigned long long)calls_made, (unsigned long long)calls,
                    (unsigned long long)(now - start));
        }
    } while (!one && calls_made < calls);
    print_counts();
    printf("\nfuzz: ok, %llu calls in %llu rounds, seed %llu, %llu s\n", (unsigned long long)calls_made,
           (unsigned long long)(one ? 1 : round), (unsigned long long)seed, (unsigned long long)(time(NULL) - start));
    return 0;
}
