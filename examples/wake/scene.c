#include "scene.h"

#include <stdio.h>
#include <string.h>

/* The host's free memory in MiB; -1: it sends something that is no number */
static const int offers[EPOCHS][HOSTS] = {
    {1920, 2304, 2816, 1280},
    {2048, 1792, 1024, 3072},
    {1664, 1152, 2432, 1984},
    {1408, 1792, -1, 1664},
    {2176, 1536, 1920, 2944},
    {1024, 2240, 1344, 2240},
};

static const char *const stories[EPOCHS] = {
    "All is well.",
    "Host 3 has most room, but nothing that it sends arrives.",
    "Host 1 sends rubbish: malformed messages, a sender that is no host, an epoch far ahead, two votes for one, decryption shares that do not verify.",
    "The contribution of host 2 does not read.",
    "Host 3 is cut off. When the others have gone on, it skips to the next epoch.",
    "Hosts 1 and 3 offer the same.",
};

const char *story(uint64_t epoch) { return stories[epoch]; }

bool is_silent(int host, uint64_t epoch) { return host == 3 && epoch == 1; }

bool sends_rubbish(int host, uint64_t epoch) { return host == 1 && epoch == 2; }

bool is_cut_off(int host, uint64_t epoch) { return host == 3 && epoch == 4; }

bool is_encrypted(uint64_t epoch) { return epoch % ENCRYPT_EVERY == 0; }

void contribution(int host, uint64_t epoch, char *text, int size)
{
    if (offers[epoch][host] < 0)
        snprintf(text, (size_t)size, "free plenty");
    else
        snprintf(text, (size_t)size, "free %d MiB", offers[epoch][host]);
}

int read_contribution(const char *text)
{
    int mib = -1, end = 0;
    if (sscanf(text, "free %d MiB%n", &mib, &end) != 1 || end == 0 || text[end] != '\0' || mib < 0 || mib > HOST_MIB)
        return -1;
    return mib;
}

int may_wake(const struct batch *batch)
{
    int best = NOBODY;
    for (int host = 0; host < HOSTS; host++)
        if (batch->free_mib[host] >= GUEST_MIB && (best == NOBODY || batch->free_mib[host] > batch->free_mib[best]))
            best = host;
    return best;
}
