/* Makes the calls of recorded runs (oracle/README.md, 'Recorded files') on the engine alone.
 *   drive stack FILE...     the stack that each operation uses at most, painted
 *   drive loop TIMES FILE   the same calls over and over, for a profiler
 */
#define _GNU_SOURCE
#include <stdint.h>
#include <stdio.h>
#include <stdlib.h>
#include <string.h>
#include <ucontext.h>

#include "belkjund.h"

enum { CREATE, PROPOSE, BROADCAST, AGREEMENT, SHARE, SKIP, QUERIES, KINDS };
static const char *const kinds[KINDS] = {"create", "propose", "message, broadcast", "message, agreement", "message, share",
                                         "skip", "queries"};

enum { STEP_WORDS = 8192, MAX_STATE = 6416, STACK = 1 << 16 };

static uint64_t state[MAX_STATE], scratch[MAX_STATE], step[STEP_WORDS];
static size_t state_len;

/* One call, by the words of its record. */
struct call {
    const uint64_t *record;
    uint64_t reply, wanted;
    int kind;
};

/* A call with as many arguments as hb_message has, that does nothing. */
static __attribute__((noinline)) uint64_t nothing(uint64_t a, uint64_t b, uint64_t c, uint64_t d, uint64_t e, uint64_t *f,
                                                  size_t g, uint64_t *h, size_t i, const uint64_t *j, size_t k, uint64_t *l,
                                                  size_t m)
{
    __asm__ volatile("" : : "r"(f), "r"(h), "r"(j), "r"(l));
    return a + b + c + d + e + g + i + k + m;
}

static void make(struct call *c)
{
    const uint64_t *x = c->record + 2;
    uint64_t result[4];
    switch (c->record[1]) {
    case 0:
        c->reply = nothing(x[0], x[0], x[0], x[0], x[0], state, 0, scratch, 0, x, 0, step, 0);
        break;
    case 1:
        c->kind = CREATE;
        if (x[10] == 0)
            state_len = 16 + (x[2] + 1) * (16 + x[0] * (8 + x[0]));
        c->reply = hb_create(x[0], x[1], x[2], x[3], x[4], x[5], x[6], x[7], x[8], x[9], state, state_len);
        c->wanted = x[10];
        break;
    case 2:
        c->kind = PROPOSE;
        c->reply = hb_propose(state, state_len, scratch, state_len, x + 2, x[1], step, 4 * x[0]);
        c->wanted = x[2 + x[1]];
        break;
    case 3:
        c->kind = x[2] == 1 ? BROADCAST : x[2] == 2 ? AGREEMENT : SHARE;
        c->reply = hb_message(x[0], x[1], x[2], x[3], x[4], state, state_len, scratch, state_len, x + 7, x[6], step, 4 * x[5]);
        c->wanted = x[7 + x[6]];
        break;
    case 4:
        c->kind = SKIP;
        c->reply = hb_skip(x[0], state, state_len);
        c->wanted = x[1];
        break;
    default:
        c->kind = QUERIES;
        c->reply = hb_current_epoch(state, state_len, result) + hb_has_input(state, state_len, result + 1)
            + hb_received_proposals(state, state_len, result + 2) + hb_fault_count(state, state_len, result + 3);
        c->wanted = memcmp(result, x, sizeof result) != 0;
        break;
    }
}

static void check(const struct call *c)
{
    if (c->reply != c->wanted) {
        fprintf(stderr, "%s: reply %llu, recorded %llu\n", kinds[c->kind], (unsigned long long)c->reply,
                (unsigned long long)c->wanted);
        exit(1);
    }
}

static uint64_t *read_file(const char *name, size_t *words)
{
    FILE *file = fopen(name, "rb");
    if (file == NULL || fseek(file, 0, SEEK_END) != 0) {
        perror(name);
        exit(2);
    }
    *words = (size_t)ftell(file) / 8;
    uint64_t *all = malloc(*words * 8 + 8);
    rewind(file);
    if (all == NULL || fread(all, 8, *words, file) != *words) {
        perror(name);
        exit(2);
    }
    fclose(file);
    return all;
}

static unsigned char *stack_area;
static struct call now;
static ucontext_t here, there;
static unsigned char *frame;

/* On the painted stack. */
static void enter(void)
{
    frame = __builtin_frame_address(0);
    make(&now);
}

static size_t painted(void)
{
    memset(stack_area, 0x5a, STACK);
    getcontext(&there);
    there.uc_stack.ss_sp = stack_area;
    there.uc_stack.ss_size = STACK;
    there.uc_link = &here;
    makecontext(&there, enter, 0);
    swapcontext(&here, &there);
    unsigned char *lowest = stack_area;
    while (*lowest == 0x5a)
        lowest++;
    return (size_t)(frame - lowest);
}

static void stack(int count, char **names)
{
    size_t most[KINDS] = {0};
    uint64_t calls[KINDS] = {0}, none[3] = {3, 0, 0};
    now.record = none;
    size_t own = painted(); /* the driver's, with arguments and return address */
    for (int i = 0; i < count; i++) {
        size_t words;
        uint64_t *all = read_file(names[i], &words);
        for (size_t at = 0; at < words; at += all[at]) {
            now.record = all + at;
            size_t used = painted() - own;
            check(&now);
            calls[now.kind]++;
            if (used > most[now.kind])
                most[now.kind] = used;
        }
        free(all);
    }
    for (int k = 0; k < KINDS; k++)
        printf("%s\t%llu\t%zu\n", kinds[k], (unsigned long long)calls[k], most[k]);
}

static void loop(unsigned long times, const char *name)
{
    size_t words;
    uint64_t *all = read_file(name, &words);
    for (; times > 0; times--)
        for (size_t at = 0; at < words; at += all[at]) {
            now.record = all + at;
            make(&now);
            check(&now);
        }
    free(all);
}

int main(int count, char **arguments)
{
    stack_area = malloc(STACK);
    if (count > 2 && strcmp(arguments[1], "stack") == 0) {
        stack(count - 2, arguments + 2);
        return 0;
    }
    if (count == 4 && strcmp(arguments[1], "loop") == 0) {
        loop(strtoul(arguments[2], NULL, 10), arguments[3]);
        return 0;
    }
    fprintf(stderr, "usage: drive stack FILE... | drive loop TIMES FILE\n");
    return 2;
}
