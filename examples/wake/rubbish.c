#include "rubbish.h"

#include "belkjund.h"
#include "bytes.h"
#include "outside.h"

/* To every other host. Turned down: four malformed messages (reply 7) and a sender that is no host (11). Taken, and laid to the sender's charge: an epoch far
 * ahead (fault 1), a word that the broadcast cannot read (8), two votes that contradict each other (9), a share of nothing, twice (7, or 6 while the
 * ciphertext is not here) */
void send_rubbish(int from, uint64_t epoch)
{
    uint64_t me = (uint64_t)from, share = handle_of("a share of nothing");
    const struct message rubbish[] = {
        {0, me, epoch, 9, 0, 0, 0},
        {0, me, epoch, HB_BROADCAST, HOSTS + 3, 0, 0},
        {0, me, epoch, HB_AGREEMENT, 0, 5, 0},
        {0, me, epoch, HB_SHARE, 0, 0, 0},
        {0, 9, epoch, HB_AGREEMENT, 0, 0, VOTE_1},
        {0, me, epoch + 1000, HB_AGREEMENT, 0, 0, VOTE_1},
        {0, me, epoch, HB_BROADCAST, 0, 0, 77},
        {0, me, epoch, HB_AGREEMENT, 2, 0, VOTE_0},
        {0, me, epoch, HB_AGREEMENT, 2, 0, VOTE_1},
        {0, me, epoch, HB_SHARE, 3, share, 0},
        {0, me, epoch, HB_SHARE, 3, share, 0},
    };
    for (unsigned i = 0; i < sizeof rubbish / sizeof rubbish[0]; i++)
        for (int to = 0; to < HOSTS; to++) {
            struct message m = rubbish[i];
            m.to = to;
            if (to != from)
                send_as_is(&m);
        }
}
