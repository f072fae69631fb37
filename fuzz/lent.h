/* Words lent to the engine: flush against a page that can't be touched, with known words on the other side. */
#ifndef FUZZ_LENT_H
#define FUZZ_LENT_H

#include <stdbool.h>
#include <stddef.h>
#include <stdint.h>

enum { ARENA = 8192, MARGIN = 32, LENT_MAX = ARENA - MARGIN };

struct lent {
    uint64_t *arena;      /* ARENA words between two pages without access */
    uint64_t *read_only;  /* the same words, where writing ends the program */
    uint64_t *at;         /* what is lent now; a place in `arena` */
    size_t len;
    bool at_end;
    const uint64_t *source;
};

void lent_open(struct lent *lent);

/* Copies the words in; `source` must stay as it is until the checks are over. */
void lend(struct lent *lent, const uint64_t *source, size_t len, bool at_end);

/* The pointer to pass on: a view that can be written, or one that can't. */
uint64_t *lent_pointer(const struct lent *lent, bool writable);

/* Whether the words around, and those from `from` on, are as they were. */
bool lent_around_kept(struct lent *lent);
bool lent_kept_from(const struct lent *lent, size_t from);

#endif
