/*
 * Belkjund: the Honey Badger epoch engine for up to sixteen hosts, as a C library (libbelkjund.a). C99 or C++.
 *
 * WORDS. The engine is called with numbers and slices of words of 64 bits. A slice is a pointer and a length IN WORDS. All
 * memory is the caller's: the engine has no heap, no globals and no threads, does no input or output, and keeps no pointer after a call.
 * From the C library it wants memcpy and memset only.
 *
 * A CALL. hb_propose and hb_message run on a state and on ANSWERS, a table of what the outside said: the host's own reliable
 * broadcast, binary agreement and threshold cipher. The engine never calls out. It reads the answers in its own order; where the
 * one that it wants is not next it turns the call down (reply 8) and nothing has changed, so that the host may call again
 * with a longer table. examples/wake/questions.c has the order as a program. What the call leads to is written to STEP, a table too:
 * messages to send, faults of other hosts, batches agreed on.
 *
 * HANDLES. Contributions, ciphertexts and shares stay with the host; the engine sees a handle for each, a number 1 to 2^32-1.
 *
 * BUFFERS
 * - No two buffers of one call overlap (an answer table may be shared by calls: it is only read).
 * - A pointer may be NULL exactly where its length is 0. A state of no words gets reply 3 (from hb_create 1 or 2), scratch of no words 4,
 *   answers of no words 5, a step table of no words 10. `result` of a query is never NULL.
 * - Nothing else is required: any words in any buffer and any numbers are met with a reply, never with a crash.
 *
 * WHAT IS LEFT UNTOUCHED
 * - Replies 1 to 12 turn a call down: state, step table and result are as before.
 * - Scratch: untouched at replies 3 and 4. After every other reply its first hb_scratch_words words are 0; words past these are never touched.
 * - Step table: with reply 0 the header and the step's records are written, records past them are untouched. Replies 20 to 25: the
 *   header alone is written, three zeros and the epoch.
 * - Replies 20 to 25 are failures of the outside: the state is as the original leaves it then, and the step is lost. The engine goes on.
 *
 * THREADS. Calls on different states may run at the same time in different threads, each with scratch and step table of its own. On
 * one state run one call at a time (queries only read it, so they may run beside each other). Lock around the call if threads share a state.
 *
 * NUMBERS are those of document 01, names those of the original (poanetwork/hbbft) where it has one.
 */
#ifndef BELKJUND_H
#define BELKJUND_H

#include <stddef.h>
#include <stdint.h>

#ifdef __cplusplus
extern "C" {
#endif

#define BELKJUND_VERSION "0.1.0"

/* LIMITS ------------------------------------------------------------------------------------------------------------------ */

#define HB_MAX_NODES 16u                               /* N is 1 to 16, and 3 * f is below N */
#define HB_MAX_LOOK_AHEAD 15u                          /* F is 0 to 15: messages are taken for the current epoch and F more */
#define HB_LAST_EPOCH UINT64_C(0x4000000000000000)     /* 2^62: the last start epoch, skip target, and epoch that propose and message run in */
#define HB_MAX_HANDLE UINT64_C(0xffffffff)             /* handles are 1 to this; a fault kind (part 17) is 0 to this */
#define HB_MAX_SCHEDULE UINT64_C(0xffffffff)           /* EveryNthEpoch's number, and TickTock's sum, are 1 to this */
#define HB_MAX_FAULT_COUNT UINT64_C(0xffffffff)        /* the fault count stops here */

/* LENGTHS, in words --------------------------------------------------------------------------------------------------------- */

#define HB_RECORD_WORDS 4u       /* a record of a table: next, kind, a, b */
#define HB_MIN_ANSWER_WORDS 4u   /* an answer table has 4 to 4096 words, a multiple of four: record 0 is the header */
#define HB_MAX_ANSWER_WORDS 4096u
#define HB_MAX_STEP_RECORDS 1553u /* no call's step has more: the header and 1552 entries */
#define HB_STEP_WORDS (HB_RECORD_WORDS * HB_MAX_STEP_RECORDS) /* a step table of this length never gets reply 10 */

/* The length of a state: it must be exactly this (all 256 are in docs/STATE-LENGTHS.md). As a macro for array bounds, as a function for numbers known at run time */
#define HB_STATE_WORDS(n, look_ahead) (16u + ((look_ahead) + 1u) * (16u + (n) * (8u + (n))))
/* The length that scratch must have at least */
#define HB_SCRATCH_WORDS(n, look_ahead) HB_STATE_WORDS(n, look_ahead)
/* Enough for every N and F */
#define HB_MAX_STATE_WORDS HB_STATE_WORDS(HB_MAX_NODES, HB_MAX_LOOK_AHEAD)
#define HB_MAX_SCRATCH_WORDS HB_SCRATCH_WORDS(HB_MAX_NODES, HB_MAX_LOOK_AHEAD)

/* 0 where N or F is out of range */
static inline size_t hb_state_words(uint64_t n, uint64_t look_ahead)
{
    if (n < 1 || n > HB_MAX_NODES || look_ahead > HB_MAX_LOOK_AHEAD)
        return 0;
    return HB_STATE_WORDS((size_t)n, (size_t)look_ahead);
}

static inline size_t hb_scratch_words(uint64_t n, uint64_t look_ahead)
{
    if (n < 1 || n > HB_MAX_NODES || look_ahead > HB_MAX_LOOK_AHEAD)
        return 0;
    return HB_SCRATCH_WORDS((size_t)n, (size_t)look_ahead);
}

/* REPLIES ------------------------------------------------------------------------------------------------------------------- */

enum hb_reply {
    HB_SUCCESS = 0,
    /* the call is turned down, nothing has changed. Checks run in this order: create 1 2; propose 3 4 5 6 8 9 10;
       message 3 4 5 11 7 6 8 9 10; skip 3 12; queries 3 */
    HB_NUMBERS_OUT_OF_RANGE = 1, /* create: one of its ten numbers */
    HB_WRONG_STATE_LENGTH = 2,   /* create: state_len is not hb_state_words(n, look_ahead) */
    HB_NOT_A_STATE = 3,          /* wrong length, or a word out of its range (docs/STATE.md) */
    HB_SCRATCH_TOO_SHORT = 4,    /* shorter than hb_scratch_words */
    HB_ANSWERS_MALFORMED = 5,    /* the answer table */
    HB_EPOCH_TOO_HIGH = 6,       /* the current epoch is above HB_LAST_EPOCH */
    HB_MESSAGE_MALFORMED = 7,    /* content, proposer or item of a message */
    HB_ANSWER_NOT_NEXT = 8,      /* the answer wanted next is not next in the chain, or the chain has ended */
    HB_ANSWERS_UNREAD = 9,       /* answers remain unread */
    HB_STEP_TABLE_TOO_SHORT = 10,
    HB_UNKNOWN_SENDER = 11,      /* the sender of a message is not below N */
    HB_TARGET_TOO_HIGH = 12,     /* skip: the target is above HB_LAST_EPOCH */
    /* the outside failed: the original's own errors. The state is as the original leaves it, the step is lost */
    HB_CREATE_SUBSET = 20,         /* answer 1 was no */
    HB_PROPOSE_BINCODE = 21,       /* answer 2 was no */
    HB_INPUT_SUBSET = 22,          /* propose: an answer 3, 6 or 7 was no */
    HB_HANDLE_SUBSET_MESSAGE = 23, /* message: an answer 4 to 7 was no */
    HB_DECRYPTION = 24,            /* answer 12 was no */
    HB_MULTIPLE_INPUTS = 25        /* a second ciphertext for one proposer */
};

/* ANSWERS: what the outside says. a is 1 for yes or Ok, else 0 ----------------------------------------------------------------- */

enum hb_answer {
    HB_INSTANCES_BUILT = 1,         /* b 0: the epoch's instances are built */
    HB_PROPOSAL_SERIALISED = 2,     /* b handle, 0 if a is 0: the own proposal, encrypted if the epoch is */
    HB_BROADCAST_PROPOSAL = 3,      /* b proposer: Broadcast::broadcast of the own proposal */
    HB_BROADCAST_MESSAGE = 4,       /* b proposer: Broadcast::handle_message */
    HB_AGREEMENT_MESSAGE = 5,       /* b proposer: BinaryAgreement::handle_message */
    HB_PROPOSE_TRUE = 6,            /* b proposer: BinaryAgreement::propose(true), a vote 1 */
    HB_PROPOSE_FALSE = 7,           /* b proposer: BinaryAgreement::propose(false), a vote 0 */
    HB_CIPHERTEXT_READS = 8,        /* b proposer: its value reads as a ciphertext */
    HB_CIPHERTEXT_VERIFIES = 9,     /* b proposer */
    HB_SHARE_VERIFIES = 10,         /* b sender of the share */
    HB_OWN_DECRYPTION_SHARE = 11,   /* a 1, b handle */
    HB_CONTRIBUTION_DECRYPTED = 12, /* b handle of the plaintext, 0 if a is 0 */
    HB_CONTRIBUTION_READS = 13      /* b proposer: its plaintext reads as a contribution */
};

/* Parts follow an answer 3 to 7 whose a is 1: what the instance did. Of several outputs the last counts */
enum hb_part {
    HB_MESSAGE_PART = 16, /* a 0, b any word: a message to send; the step has it with the same b */
    HB_FAULT_PART = 17,   /* a node below N, b the instance's own kind of fault, at most HB_MAX_HANDLE */
    HB_OUTPUT_PART = 18   /* a 0; b the value's handle after 3 and 4, the decision 0 or 1 after 5 to 7 */
};

/* MESSAGES: the contents that hb_message takes, and the kinds of a step's messages (a proposer, b word of part 16, or share) ------- */

enum hb_content {
    HB_BROADCAST = 1, /* item 0: the message itself stays with the host, who asks its broadcast instance (answer 4) */
    HB_AGREEMENT = 2, /* item 0; answer 5 */
    HB_SHARE = 3      /* item: the handle of the decryption share */
};

/* FAULTS of a step: a node, b 0 (8 and 9: the kind that part 17 gave) ------------------------------------------------------------ */

enum hb_fault {
    HB_UNEXPECTED_HB_MESSAGE_EPOCH = 1,        /* a message beyond the look-ahead */
    HB_UNEXPECTED_DECRYPTION_SHARE = 2,        /* a share for a proposer who was not accepted */
    HB_DESERIALIZE_CIPHERTEXT = 3,             /* answer 8 was no */
    HB_INVALID_CIPHERTEXT = 4,                 /* answer 9 was no */
    HB_BATCH_DESERIALIZATION_FAILED = 5,       /* answer 13 was no */
    HB_MULTIPLE_DECRYPTION_SHARES = 6,         /* a second share of one sender */
    HB_UNVERIFIED_DECRYPTION_SHARE_SENDER = 7, /* answer 10 was no */
    HB_BROADCAST_FAULT = 8,
    HB_AGREEMENT_FAULT = 9
};

/* OUTPUTS of a step ---------------------------------------------------------------------------------------------------------------- */

enum hb_output {
    HB_BATCH = 1, /* a epoch, b number of entries; the entries follow */
    HB_ENTRY = 2  /* a proposer, b handle of its contribution; by rising proposer */
};

enum hb_strategy {
    HB_INCREMENTAL = 0, /* contributions are decrypted as they are accepted */
    HB_ALL_AT_END = 1   /* all of them once the subset is done */
};

/* Which epochs are encrypted. Equal on all hosts */
enum hb_schedule {
    HB_ALWAYS = 0,
    HB_NEVER = 1,
    HB_EVERY_NTH_EPOCH = 2, /* number_a = n: where epoch mod n is 0 */
    HB_TICK_TOCK = 3        /* number_a = on, number_b = off: the first `on` epochs of each period of on + off, from epoch 0; the others are plain */
};

/* OPERATIONS ---------------------------------------------------------------------------------------------------------------------------
 * Each returns an enum hb_reply as a word. */

/* Makes the words a state. own: the own index, or n for an observer, who proposes nothing. key: 1 if the host holds its secret
 * key share. Numbers that a schedule does not use are ignored. Replies 0, 1, 2. */
uint64_t hb_create(uint64_t n, uint64_t f, uint64_t look_ahead, uint64_t own, uint64_t key, uint64_t strategy,
                   uint64_t start_epoch, uint64_t schedule, uint64_t number_a, uint64_t number_b,
                   uint64_t *state, size_t state_len);

/* Proposes in the current epoch. Replies 0, 3, 4, 5, 6, 8, 9, 10, and failures 20, 21, 22, 24, 25. */
uint64_t hb_propose(uint64_t *state, size_t state_len, uint64_t *scratch, size_t scratch_len,
                    const uint64_t *answers, size_t answers_len, uint64_t *step, size_t step_len);

/* Handles a message from another host (or the own one) for the epoch that it names. Late ones have an empty step, those beyond the
 * look-ahead a fault 1. Replies 0, 3, 4, 5, 11, 7, 6, 8, 9, 10, and failures 20, 23, 24, 25. */
uint64_t hb_message(uint64_t sender, uint64_t epoch, uint64_t content, uint64_t proposer, uint64_t item,
                    uint64_t *state, size_t state_len, uint64_t *scratch, size_t scratch_len,
                    const uint64_t *answers, size_t answers_len, uint64_t *step, size_t step_len);

/* Goes to a later epoch without a batch; a target at or below the current epoch changes nothing. Replies 0, 3, 12. */
uint64_t hb_skip(uint64_t target, uint64_t *state, size_t state_len);

/* Queries: reply 0 and the result, or 3 with the result untouched. */
uint64_t hb_current_epoch(const uint64_t *state, size_t state_len, uint64_t *result);
/* 1 once the host has proposed in the current epoch, and always for an observer; else 0 */
uint64_t hb_has_input(const uint64_t *state, size_t state_len, uint64_t *result);
/* how many proposals of the current epoch are here */
uint64_t hb_received_proposals(const uint64_t *state, size_t state_len, uint64_t *result);
/* all faults in steps with reply 0 since create */
uint64_t hb_fault_count(const uint64_t *state, size_t state_len, uint64_t *result);

/* READING A STEP. Record i is at word 4 * i; record 0 is the header; a next of 0 ends a chain. In a step that the engine wrote with reply 0:
 *
 *     for (i = hb_first_output(step); i != 0; i = hb_next(step, i))
 *         switch (hb_kind(step, i)) { case HB_BATCH: ...  case HB_ENTRY: ... }
 */

static inline uint64_t hb_first_message(const uint64_t *step) { return step[0]; }
static inline uint64_t hb_first_fault(const uint64_t *step) { return step[1]; }
static inline uint64_t hb_first_output(const uint64_t *step) { return step[2]; }
/* the epoch that the call was for */
static inline uint64_t hb_step_epoch(const uint64_t *step) { return step[3]; }

static inline uint64_t hb_next(const uint64_t *table, uint64_t record) { return table[HB_RECORD_WORDS * record]; }
static inline uint64_t hb_kind(const uint64_t *table, uint64_t record) { return table[HB_RECORD_WORDS * record + 1]; }
static inline uint64_t hb_a(const uint64_t *table, uint64_t record) { return table[HB_RECORD_WORDS * record + 2]; }
static inline uint64_t hb_b(const uint64_t *table, uint64_t record) { return table[HB_RECORD_WORDS * record + 3]; }

/* BUILDING ANSWERS. hb_answers_clear makes a table with no answers of the first four words; hb_answers_add puts a record at the end of the chain. Both give
 * the table's length in words, to be passed as answers_len, and 0 where there is no room: capacity below 4, or the record past capacity
 * or past HB_MAX_ANSWER_WORDS; the table is then as it was.
 *
 *     len = hb_answers_clear(answers, capacity);
 *     len = hb_answers_add(answers, len, capacity, HB_INSTANCES_BUILT, 1, 0);
 */
static inline size_t hb_answers_clear(uint64_t *answers, size_t capacity)
{
    if (capacity < HB_RECORD_WORDS)
        return 0;
    answers[0] = answers[1] = answers[2] = answers[3] = 0;
    return HB_RECORD_WORDS;
}

static inline size_t hb_answers_add(uint64_t *answers, size_t len, size_t capacity, uint64_t kind, uint64_t a, uint64_t b)
{
    if (len < HB_RECORD_WORDS || len % HB_RECORD_WORDS != 0 || len > capacity || capacity - len < HB_RECORD_WORDS
        || len + HB_RECORD_WORDS > HB_MAX_ANSWER_WORDS)
        return 0;
    answers[len - HB_RECORD_WORDS] = len / HB_RECORD_WORDS; /* the record before, or the header, leads to this one */
    answers[len] = 0;
    answers[len + 1] = kind;
    answers[len + 2] = a;
    answers[len + 3] = b;
    return len + HB_RECORD_WORDS;
}

/* NAMES, for a log */

static inline const char *hb_reply_name(uint64_t reply)
{
    switch (reply) {
    case HB_SUCCESS: return "success";
    case HB_NUMBERS_OUT_OF_RANGE: return "numbers out of range";
    case HB_WRONG_STATE_LENGTH: return "wrong state length";
    case HB_NOT_A_STATE: return "not a state";
    case HB_SCRATCH_TOO_SHORT: return "scratch too short";
    case HB_ANSWERS_MALFORMED: return "answer table malformed";
    case HB_EPOCH_TOO_HIGH: return "current epoch above 2^62";
    case HB_MESSAGE_MALFORMED: return "message malformed";
    case HB_ANSWER_NOT_NEXT: return "answer wanted is not next";
    case HB_ANSWERS_UNREAD: return "answers remain unread";
    case HB_STEP_TABLE_TOO_SHORT: return "step table too short";
    case HB_UNKNOWN_SENDER: return "unknown sender";
    case HB_TARGET_TOO_HIGH: return "target above 2^62";
    case HB_CREATE_SUBSET: return "CreateSubset";
    case HB_PROPOSE_BINCODE: return "ProposeBincode";
    case HB_INPUT_SUBSET: return "InputSubset";
    case HB_HANDLE_SUBSET_MESSAGE: return "HandleSubsetMessage";
    case HB_DECRYPTION: return "Decryption";
    case HB_MULTIPLE_INPUTS: return "MultipleInputs";
    default: return "no reply of the engine";
    }
}

static inline const char *hb_fault_name(uint64_t fault)
{
    switch (fault) {
    case HB_UNEXPECTED_HB_MESSAGE_EPOCH: return "UnexpectedHbMessageEpoch";
    case HB_UNEXPECTED_DECRYPTION_SHARE: return "UnexpectedDecryptionShare";
    case HB_DESERIALIZE_CIPHERTEXT: return "DeserializeCiphertext";
    case HB_INVALID_CIPHERTEXT: return "InvalidCiphertext";
    case HB_BATCH_DESERIALIZATION_FAILED: return "BatchDeserializationFailed";
    case HB_MULTIPLE_DECRYPTION_SHARES: return "MultipleDecryptionShares";
    case HB_UNVERIFIED_DECRYPTION_SHARE_SENDER: return "UnverifiedDecryptionShareSender";
    case HB_BROADCAST_FAULT: return "broadcast fault";
    case HB_AGREEMENT_FAULT: return "agreement fault";
    default: return "no fault of the engine";
    }
}

#ifdef __cplusplus
}
#endif

#endif
