/* The scene: four hosts of four gigabytes. Host 0 has two guests, and one of them is paused. In each epoch the four agree which of them may wake it. */
#ifndef SCENE_H
#define SCENE_H

#include <stdbool.h>
#include <stdint.h>

enum { HOSTS = 4, FAULTY = 1, LOOK_AHEAD = 3, EPOCHS = 6 };

enum { HOST_MIB = 4096, GUEST_MIB = 1536 }; /* what a host has, and what the paused guest needs */

enum { NOBODY = -1 };

/* A batch as a host reads it: the free memory that each contributor offers, -1 where a host is not in the batch */
struct batch {
    int free_mib[HOSTS];
    unsigned unreadable; /* bit p: the contribution of host p is agreed on, but does not read (fault 5) */
};

/* THE RULE, a plain function of the batch, so that equal batches give equal answers: of the contributors with room for the guest the one with
 * most free memory may wake it, the lowest index on a tie; NOBODY where none has room */
int may_wake(const struct batch *batch);

/* The schedule that all hosts create their engines with is EveryNthEpoch(2) */
enum { ENCRYPT_EVERY = 2 };
bool is_encrypted(uint64_t epoch);

/* What a host offers in an epoch, as the bytes of its contribution, and how these bytes are read: -1 where they do not read */
void contribution(int host, uint64_t epoch, char *text, int size);
int read_contribution(const char *text);

/* What goes wrong, and when. At most FAULTY hosts are at fault in one epoch */
const char *story(uint64_t epoch);
bool is_silent(int host, uint64_t epoch);   /* nothing that it sends in this epoch arrives */
bool is_cut_off(int host, uint64_t epoch);  /* nothing of this epoch reaches it or leaves it */
bool sends_rubbish(int host, uint64_t epoch);

#endif
