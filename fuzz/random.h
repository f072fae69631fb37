/* Random numbers that depend on the seed alone. */
#ifndef FUZZ_RANDOM_H
#define FUZZ_RANDOM_H

#include <stdbool.h>
#include <stddef.h>
#include <stdint.h>

struct random {
    uint64_t word;
};

/* splitmix64 */
static inline uint64_t random_word(struct random *r)
{
    uint64_t z = (r->word += UINT64_C(0x9e3779b97f4a7c15));
    z = (z ^ (z >> 30)) * UINT64_C(0xbf58476d1ce4e5b9);
    z = (z ^ (z >> 27)) * UINT64_C(0x94d049bb133111eb);
    return z ^ (z >> 31);
}

static inline struct random random_new(uint64_t seed, uint64_t round)
{
    struct random r = {seed};
    r.word = random_word(&r) ^ round;
    r.word = random_word(&r);
    return r;
}

/* Below `bound`, which is above 0; the bias of the remainder does no harm here. */
static inline uint64_t below(struct random *r, uint64_t bound)
{
    return random_word(r) % bound;
}

static inline bool chance(struct random *r, unsigned in_a_thousand)
{
    return below(r, 1000) < in_a_thousand;
}

static inline uint64_t pick(struct random *r, const uint64_t *from, size_t count)
{
    return from[below(r, count)];
}

#define PICK(r, ...) \
    pick((r), (const uint64_t[]){__VA_ARGS__}, sizeof((const uint64_t[]){__VA_ARGS__}) / sizeof(uint64_t))

#define HANDLE_LIMIT ((UINT64_C(1) << 32) - 1)
#define LAST_EPOCH (UINT64_C(1) << 62)

static inline uint64_t random_handle(struct random *r)
{
    return chance(r, 900) ? 1 + below(r, HANDLE_LIMIT) : PICK(r, 1, 2, HANDLE_LIMIT);
}

#endif
