/*
 * The books of every mailbox (document 01, "The books of one mailbox").
 *
 * What a step did is worked out from the event, the answer and the image before it: its MD, slot, TRR, mode,
 * waiting mode, TEC and recovery count, and of an eCAN what its search goes by: MC, masks, protection and word 0 of
 * the mailboxes. RMP, TRS and RML are never looked at for that: the books say what they should be.
 *
 * Beside them stand the frames that came to no mailbox, so that every accepted frame has an entry or a request that
 * waits already. Those that were passed over are counted apart, once for the run (document 02, g).
 */
#ifndef BOOKS_H
#define BOOKS_H

#include "frostsorrel.h"

#define BIT(n) (1u << (n))

enum entry {
    STORED, RELEASED, OVERWRITTEN, FRAME_RESET, /* frames: stored, and the three ways they end */
    RAISED, SENDINGS, ABORTED, SLEPT, REQUEST_RESET, /* requests: raised, and the four ways they end */
    NOT_HEARD, NOT_TAKEN, PASSED_OVER, /* frames that came to no mailbox: theirs is FROSTSORREL_NO_MAILBOX */
    ENTRIES
};

/* The latest step's entries. A reset may end every frame and every request. */
struct made {
    enum entry entry;
    int mailbox;
    int since; /* the step in which what ends here began; 0 for what begins */
};
enum { MOST_MADE = 2 * FROSTSORREL_MAILBOXES };

/* All begin empty, that is, zero. */
struct books {
    int steps;
    uint32_t held, lost, waiting; /* a bit for each mailbox */
    int stored_in[FROSTSORREL_MAILBOXES], raised_in[FROSTSORREL_MAILBOXES]; /* steps, for held and waiting */
    unsigned long count[ENTRIES][FROSTSORREL_MAILBOXES + 1]; /* the last for FROSTSORREL_NO_MAILBOX */
    struct made made[MOST_MADE];
    int mades;
};

/* Books the next step. */
void book(struct books *b, const uint8_t *before, const uint8_t *event, uint64_t answer);

/* Do the books of this mailbox balance? */
int balanced(const struct books *b, int n);

#endif
