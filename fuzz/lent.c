#define _GNU_SOURCE
#include "lent.h"

#include <stdio.h>
#include <stdlib.h>
#include <string.h>
#include <sys/mman.h>
#include <unistd.h>

#if defined(__SANITIZE_ADDRESS__)
#include <sanitizer/asan_interface.h>
#define POISON(at, bytes) __asan_poison_memory_region(at, bytes)
#define UNPOISON(at, bytes) __asan_unpoison_memory_region(at, bytes)
#else
#define POISON(at, bytes) ((void)0)
#define UNPOISON(at, bytes) ((void)0)
#endif

static void stop(const char *what)
{
    perror(what);
    exit(2);
}

/* A view of the file between two pages without access. */
static uint64_t *view(int file, int protection)
{
    size_t page = (size_t)sysconf(_SC_PAGESIZE), bytes = ARENA * sizeof(uint64_t);
    char *all = mmap(NULL, bytes + 2 * page, PROT_NONE, MAP_PRIVATE | MAP_ANONYMOUS, -1, 0);
    if (all == MAP_FAILED)
        stop("mmap");
    if (mmap(all + page, bytes, protection, MAP_SHARED | MAP_FIXED, file, 0) == MAP_FAILED)
        stop("mmap");
    return (uint64_t *)(void *)(all + page);
}

void lent_open(struct lent *lent)
{
    int file = memfd_create("lent", 0);
    if (file < 0 || ftruncate(file, ARENA * sizeof(uint64_t)) != 0)
        stop("memfd_create");
    lent->arena = view(file, PROT_READ | PROT_WRITE);
    lent->read_only = view(file, PROT_READ);
    lent->at = lent->arena;
    lent->len = 0;
    close(file);
}

/* The words on the side that has no page without access. */
static uint64_t *margin(const struct lent *lent)
{
    return lent->at_end ? lent->at - MARGIN : lent->at + lent->len;
}

static uint64_t margin_word(size_t i)
{
    return UINT64_C(0xa5a5a5a500000000) + i;
}

void lend(struct lent *lent, const uint64_t *source, size_t len, bool at_end)
{
    lent->source = source;
    lent->len = len;
    lent->at_end = at_end;
    lent->at = at_end ? lent->arena + ARENA - len : lent->arena;
    if (len > 0)
        memcpy(lent->at, source, len * sizeof *source);
    uint64_t *words = margin(lent);
    for (size_t i = 0; i < MARGIN; i++)
        words[i] = margin_word(i);
    POISON(words, MARGIN * sizeof *words);
}

uint64_t *lent_pointer(const struct lent *lent, bool writable)
{
    return writable ? lent->at : lent->read_only + (lent->at - lent->arena);
}

bool lent_around_kept(struct lent *lent)
{
    uint64_t *words = margin(lent);
    UNPOISON(words, MARGIN * sizeof *words);
    for (size_t i = 0; i < MARGIN; i++)
        if (words[i] != margin_word(i))
            return false;
    return true;
}

bool lent_kept_from(const struct lent *lent, size_t from)
{
    return from >= lent->len
        || memcmp(lent->at + from, lent->source + from, (lent->len - from) * sizeof *lent->at) == 0;
}
