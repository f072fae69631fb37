/* Between the example and its engine (ld --wrap): the batch that host 2 gets of epoch 0 has a contribution less. The example has to see that the hosts do
 * not agree any more. */
#include "belkjund.h"

uint64_t __real_hb_message(uint64_t sender, uint64_t epoch, uint64_t content, uint64_t proposer, uint64_t item, uint64_t *state, size_t state_len,
                           uint64_t *scratch, size_t scratch_len, const uint64_t *answers, size_t answers_len, uint64_t *step, size_t step_len);
uint64_t __wrap_hb_message(uint64_t sender, uint64_t epoch, uint64_t content, uint64_t proposer, uint64_t item, uint64_t *state, size_t state_len,
                           uint64_t *scratch, size_t scratch_len, const uint64_t *answers, size_t answers_len, uint64_t *step, size_t step_len);

enum { OWN_INDEX_AT = 4 }; /* docs/STATE.md */

uint64_t __wrap_hb_message(uint64_t sender, uint64_t epoch, uint64_t content, uint64_t proposer, uint64_t item, uint64_t *state, size_t state_len,
                           uint64_t *scratch, size_t scratch_len, const uint64_t *answers, size_t answers_len, uint64_t *step, size_t step_len)
{
    uint64_t reply = __real_hb_message(sender, epoch, content, proposer, item, state, state_len, scratch, scratch_len, answers, answers_len, step, step_len);
    uint64_t first = reply == HB_SUCCESS ? hb_first_output(step) : 0;
    if (first != 0 && hb_a(step, first) == 0 && state[OWN_INDEX_AT] == 2)
        step[HB_RECORD_WORDS * first] = hb_next(step, hb_next(step, first)); /* past the first entry */
    return reply;
}
