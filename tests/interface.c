/* The C interface: lengths, replies, what stays untouched, empty buffers, and the bench cases 1, 2, 6, 9, 10, 11 and 12 of document 01. Compiled as C99 and as C++. */
#include "belkjund.h"
#include "belkjund.h" /* twice does no harm */

#include <stdio.h>
#include <string.h>

#define LOOK_AHEAD 3
enum { SMALL = HB_STATE_WORDS(1, 0), LARGE = HB_STATE_WORDS(4, LOOK_AHEAD) };

static int failures, checks;

#define CHECK(is) check((is) != 0, #is, __LINE__)

static void check(int is, const char *what, int line)
{
    checks++;
    if (is)
        return;
    failures++;
    printf("tests/interface.c:%d: not so: %s\n", line, what);
}

static void fill(uint64_t *words, size_t len, uint64_t with)
{
    for (size_t i = 0; i < len; i++)
        words[i] = with;
}

static int all_are(const uint64_t *words, size_t len, uint64_t value)
{
    for (size_t i = 0; i < len; i++)
        if (words[i] != value)
            return 0;
    return 1;
}

static void lengths(void)
{
    CHECK(HB_STATE_WORDS(4, 3) == 272 && hb_state_words(4, 3) == 272);
    CHECK(hb_state_words(1, 0) == 41 && hb_state_words(16, 15) == HB_MAX_STATE_WORDS);
    CHECK(hb_state_words(0, 0) == 0 && hb_state_words(17, 0) == 0 && hb_state_words(1, 16) == 0);
    CHECK(hb_scratch_words(4, 3) == HB_SCRATCH_WORDS(4, 3) && hb_scratch_words(16, 15) == HB_MAX_SCRATCH_WORDS);
    CHECK(HB_STEP_WORDS == 6212);
}

/* Case 12, and create's other refusals: no word changes */
static void create(void)
{
    uint64_t state[LARGE];
    fill(state, LARGE, 9);
    CHECK(hb_create(4, 1, 3, 0, 1, HB_INCREMENTAL, 0, HB_ALWAYS, 0, 0, state, 271) == HB_WRONG_STATE_LENGTH);
    CHECK(hb_create(4, 1, 3, 0, 1, HB_INCREMENTAL, 0, HB_ALWAYS, 0, 0, NULL, 0) == HB_WRONG_STATE_LENGTH);
    CHECK(hb_create(4, 2, 3, 0, 1, HB_INCREMENTAL, 0, HB_ALWAYS, 0, 0, state, LARGE) == HB_NUMBERS_OUT_OF_RANGE);
    CHECK(hb_create(17, 1, 3, 0, 1, HB_INCREMENTAL, 0, HB_ALWAYS, 0, 0, NULL, 0) == HB_NUMBERS_OUT_OF_RANGE);
    CHECK(hb_create(4, 1, 3, 0, 1, HB_INCREMENTAL, HB_LAST_EPOCH + 1, HB_ALWAYS, 0, 0, state, LARGE) == HB_NUMBERS_OUT_OF_RANGE);
    CHECK(hb_create(4, 1, 3, 0, 1, HB_INCREMENTAL, 0, HB_TICK_TOCK, UINT64_MAX, 2, state, LARGE) == HB_NUMBERS_OUT_OF_RANGE);
    CHECK(all_are(state, LARGE, 9));
    CHECK(hb_create(4, 1, 3, 0, 1, HB_INCREMENTAL, 0, HB_ALWAYS, 0, 0, state, LARGE) == HB_SUCCESS);
}

static size_t case_1_answers(uint64_t *answers, size_t capacity, uint64_t reads)
{
    size_t len = hb_answers_clear(answers, capacity);
    len = hb_answers_add(answers, len, capacity, HB_INSTANCES_BUILT, 1, 0);
    len = hb_answers_add(answers, len, capacity, HB_PROPOSAL_SERIALISED, 1, 7);
    len = hb_answers_add(answers, len, capacity, HB_BROADCAST_PROPOSAL, 1, 0);
    len = hb_answers_add(answers, len, capacity, HB_OUTPUT_PART, 0, 7);
    len = hb_answers_add(answers, len, capacity, HB_PROPOSE_TRUE, 1, 0);
    len = hb_answers_add(answers, len, capacity, HB_OUTPUT_PART, 0, 1);
    return hb_answers_add(answers, len, capacity, HB_CONTRIBUTION_READS, reads, 0);
}

/* Case 1 where the contribution reads, case 2 where it does not; case 11 with a step table of two records */
static void propose(uint64_t reads)
{
    static const uint64_t step_1[12] = {0, 0, 1, 0, 2, 1, 0, 1, 0, 2, 0, 7}, step_2[12] = {0, 1, 2, 0, 0, 5, 0, 0, 0, 1, 0, 0};
    uint64_t state[SMALL], before[SMALL], scratch[SMALL + 2], answers[32], step[16], epoch = 9, faults = 9;
    size_t len = case_1_answers(answers, 32, reads);
    CHECK(len == 32);
    CHECK(hb_create(1, 0, 0, 0, 1, HB_INCREMENTAL, 0, HB_NEVER, 0, 0, state, SMALL) == HB_SUCCESS);
    memcpy(before, state, sizeof state);
    fill(scratch, SMALL + 2, 9);
    fill(step, 16, 9);
    CHECK(hb_propose(state, SMALL, scratch, SMALL + 2, answers, len, step, 11) == HB_STEP_TABLE_TOO_SHORT);
    CHECK(memcmp(before, state, sizeof state) == 0 && all_are(step, 16, 9));
    CHECK(all_are(scratch, SMALL, 0) && all_are(scratch + SMALL, 2, 9));
    CHECK(hb_propose(state, SMALL, scratch, SMALL, answers, len, step, 12) == HB_SUCCESS);
    CHECK(memcmp(step, reads ? step_1 : step_2, sizeof step_1) == 0 && all_are(step + 12, 4, 9));
    CHECK(hb_current_epoch(state, SMALL, &epoch) == HB_SUCCESS && epoch == 1);
    CHECK(hb_fault_count(state, SMALL, &faults) == HB_SUCCESS && faults == 1 - reads);
}

/* Case 10: a schedule's first epochs, '1' for an encrypted one, where case 1's answers lack one about the ciphertext */
static void encrypts(uint64_t schedule, uint64_t a, uint64_t b, const char *epochs)
{
    uint64_t state[SMALL], scratch[SMALL], answers[32], step[12];
    size_t len = case_1_answers(answers, 32, 1);
    for (uint64_t epoch = 0; epochs[epoch] != 0; epoch++) {
        CHECK(hb_create(1, 0, 0, 0, 1, HB_INCREMENTAL, epoch, schedule, a, b, state, SMALL) == HB_SUCCESS);
        uint64_t reply = hb_propose(state, SMALL, scratch, SMALL, answers, len, step, 12);
        CHECK(reply == (uint64_t)(epochs[epoch] == '1' ? HB_ANSWER_NOT_NEXT : HB_SUCCESS));
    }
}

static void schedules(void)
{
    encrypts(HB_TICK_TOCK, 1, 1, "1010");
    encrypts(HB_TICK_TOCK, 1, 2, "100100");
    encrypts(HB_TICK_TOCK, 2, 1, "110110");
    encrypts(HB_TICK_TOCK, 0, 1, "000");
    encrypts(HB_TICK_TOCK, 2, 0, "1111");
    encrypts(HB_EVERY_NTH_EPOCH, 2, 0, "1010");
}

/* A buffer of no words may be NULL, and each gets its reply */
static void empty_buffers(void)
{
    uint64_t state[SMALL], scratch[SMALL], answers[32], step[HB_STEP_WORDS], result = 9;
    size_t len = case_1_answers(answers, 32, 1);
    CHECK(hb_create(1, 0, 0, 0, 1, HB_INCREMENTAL, 0, HB_NEVER, 0, 0, state, SMALL) == HB_SUCCESS);
    CHECK(hb_propose(NULL, 0, scratch, SMALL, answers, len, step, HB_STEP_WORDS) == HB_NOT_A_STATE);
    CHECK(hb_propose(state, SMALL, NULL, 0, answers, len, step, HB_STEP_WORDS) == HB_SCRATCH_TOO_SHORT);
    CHECK(hb_propose(state, SMALL, scratch, SMALL, NULL, 0, step, HB_STEP_WORDS) == HB_ANSWERS_MALFORMED);
    CHECK(hb_propose(state, SMALL, scratch, SMALL, answers, len, NULL, 0) == HB_STEP_TABLE_TOO_SHORT);
    CHECK(hb_propose(NULL, 0, NULL, 0, NULL, 0, NULL, 0) == HB_NOT_A_STATE);
    CHECK(hb_message(0, 0, HB_BROADCAST, 0, 0, NULL, 0, NULL, 0, NULL, 0, NULL, 0) == HB_NOT_A_STATE);
    CHECK(hb_skip(1, NULL, 0) == HB_NOT_A_STATE);
    CHECK(hb_current_epoch(NULL, 0, &result) == HB_NOT_A_STATE && hb_has_input(NULL, 0, &result) == HB_NOT_A_STATE);
    CHECK(hb_received_proposals(NULL, 0, &result) == HB_NOT_A_STATE && hb_fault_count(NULL, 0, &result) == HB_NOT_A_STATE);
    CHECK(result == 9);
    CHECK(hb_propose(state, SMALL, scratch, SMALL, answers, len, step, HB_STEP_WORDS) == HB_SUCCESS);
}

/* Case 6: epoch 5, F 3. And the refusals of a message, in their order */
static void message(void)
{
    uint64_t state[LARGE], scratch[LARGE], answers[12], none[4], step[HB_STEP_WORDS];
    size_t len = hb_answers_clear(answers, 12), no = hb_answers_clear(none, 4);
    CHECK(hb_create(4, 1, LOOK_AHEAD, 0, 1, HB_INCREMENTAL, 5, HB_NEVER, 0, 0, state, LARGE) == HB_SUCCESS);
    CHECK(hb_message(4, 5, 9, 9, 9, state, LARGE, scratch, LARGE, none, no, step, HB_STEP_WORDS) == HB_UNKNOWN_SENDER);
    CHECK(hb_message(1, 5, 9, 0, 0, state, LARGE, scratch, LARGE, none, no, step, HB_STEP_WORDS) == HB_MESSAGE_MALFORMED);
    CHECK(hb_message(1, 5, HB_AGREEMENT, 4, 0, state, LARGE, scratch, LARGE, none, no, step, HB_STEP_WORDS) == HB_MESSAGE_MALFORMED);
    CHECK(hb_message(1, 5, HB_AGREEMENT, 0, 1, state, LARGE, scratch, LARGE, none, no, step, HB_STEP_WORDS) == HB_MESSAGE_MALFORMED);
    CHECK(hb_message(1, 5, HB_SHARE, 0, 0, state, LARGE, scratch, LARGE, none, no, step, HB_STEP_WORDS) == HB_MESSAGE_MALFORMED);
    CHECK(hb_message(1, 9, HB_BROADCAST, 0, 0, state, LARGE, scratch, LARGE, none, no, step, HB_STEP_WORDS) == HB_SUCCESS);
    CHECK(hb_first_fault(step) == 1 && hb_kind(step, 1) == HB_UNEXPECTED_HB_MESSAGE_EPOCH && hb_a(step, 1) == 1 && hb_next(step, 1) == 0);
    CHECK(hb_step_epoch(step) == 9 && hb_first_message(step) == 0 && hb_first_output(step) == 0);
    CHECK(hb_message(1, 4, HB_BROADCAST, 0, 0, state, LARGE, scratch, LARGE, none, no, step, HB_STEP_WORDS) == HB_SUCCESS);
    CHECK(all_are(step, 3, 0) && hb_step_epoch(step) == 4);
    CHECK(hb_message(1, 8, HB_BROADCAST, 1, 0, state, LARGE, scratch, LARGE, none, no, step, HB_STEP_WORDS) == HB_ANSWER_NOT_NEXT);
    len = hb_answers_add(answers, len, 12, HB_INSTANCES_BUILT, 1, 0);
    len = hb_answers_add(answers, len, 12, HB_BROADCAST_MESSAGE, 1, 1);
    CHECK(len == 12 && hb_answers_add(answers, len, 12, HB_MESSAGE_PART, 0, 5) == 0);
    CHECK(hb_message(1, 4, HB_BROADCAST, 1, 0, state, LARGE, scratch, LARGE, answers, len, step, HB_STEP_WORDS) == HB_ANSWERS_UNREAD);
    CHECK(hb_message(1, 8, HB_BROADCAST, 1, 0, state, LARGE, scratch, LARGE, answers, len, step, HB_STEP_WORDS) == HB_SUCCESS);
}

/* Case 9, and a failure: the header alone is written */
static void skip(void)
{
    uint64_t state[SMALL], scratch[SMALL], answers[8], step[8], result = 9;
    size_t len = hb_answers_clear(answers, 8);
    CHECK(hb_create(1, 0, 0, 0, 1, HB_INCREMENTAL, 3, HB_NEVER, 0, 0, state, SMALL) == HB_SUCCESS);
    len = hb_answers_add(answers, len, 8, HB_INSTANCES_BUILT, 0, 0);
    fill(step, 8, 9);
    CHECK(hb_has_input(state, SMALL, &result) == HB_SUCCESS && result == 0);
    CHECK(hb_propose(state, SMALL, scratch, SMALL, answers, len, step, 8) == HB_CREATE_SUBSET);
    CHECK(all_are(step, 3, 0) && step[3] == 3 && all_are(step + 4, 4, 9));
    CHECK(hb_has_input(state, SMALL, &result) == HB_SUCCESS && result == 1);
    CHECK(hb_received_proposals(state, SMALL, &result) == HB_SUCCESS && result == 0);
    CHECK(hb_skip(HB_LAST_EPOCH + 1, state, SMALL) == HB_TARGET_TOO_HIGH);
    CHECK(hb_skip(HB_LAST_EPOCH, state, SMALL) == HB_SUCCESS);
    CHECK(hb_current_epoch(state, SMALL, &result) == HB_SUCCESS && result == HB_LAST_EPOCH);
    CHECK(hb_skip(5, state, SMALL) == HB_SUCCESS);
    CHECK(hb_current_epoch(state, SMALL, &result) == HB_SUCCESS && result == HB_LAST_EPOCH);
}

static void names(void)
{
    CHECK(strcmp(hb_reply_name(HB_DECRYPTION), "Decryption") == 0 && strcmp(hb_fault_name(5), "BatchDeserializationFailed") == 0);
    for (uint64_t i = 0; i < 30; i++)
        CHECK(hb_reply_name(i) != NULL && hb_fault_name(i) != NULL);
}

int main(void)
{
    lengths();
    create();
    propose(1);
    propose(0);
    schedules();
    empty_buffers();
    message();
    skip();
    names();
    printf("interface: %d checks, %d not so\n", checks, failures);
    return failures != 0;
}
