#include "books.h"

static uint32_t word_of(const uint8_t *image, uint32_t number)
{
    return frostsorrel_register_word(image, number);
}

/* ---- what can happen to a mailbox */

static void enter(struct books *b, enum entry entry, int n, int since)
{
    b->count[entry][n]++;
    b->made[b->mades++] = (struct made){entry, n, since};
}

/* A store while a frame is held overwrites that frame. */
static void stored(struct books *b, int n)
{
    if (b->held & BIT(n)) {
        enter(b, OVERWRITTEN, n, b->stored_in[n]);
        b->lost |= BIT(n);
    }
    enter(b, STORED, n, 0);
    b->held |= BIT(n);
    b->stored_in[n] = b->steps;
}

/* With nothing held it is no release (D47). */
static void frame_ends(struct books *b, int n, enum entry how)
{
    if (!(b->held & BIT(n)))
        return;
    enter(b, how, n, b->stored_in[n]);
    b->held &= ~BIT(n);
    b->lost &= ~BIT(n);
}

/* A request is raised only where none waits. */
static void raised(struct books *b, int n)
{
    if (b->waiting & BIT(n))
        return;
    enter(b, RAISED, n, 0);
    b->waiting |= BIT(n);
    b->raised_in[n] = b->steps;
}

/* Booked whether or not a request waits: the balance then shows that one did. */
static void request_ends(struct books *b, int n, enum entry how)
{
    enter(b, how, n, b->raised_in[n]);
    b->waiting &= ~BIT(n);
}

static void all_requests_end(struct books *b, enum entry how)
{
    for (int n = 0; n < FROSTSORREL_MAILBOXES; n++)
        if (b->waiting & BIT(n))
            request_ends(b, n, how);
}

/* ---- what an accepted event did, by the rules of sections "Writing", "Receiving", "Sending" */

static void book_register_write(struct books *b, const uint8_t *before, uint32_t number, uint32_t value)
{
    for (int n = 0; n < FROSTSORREL_MAILBOXES; n++) {
        if (!(value & BIT(n)))
            continue;
        if (number == FROSTSORREL_RMP)
            frame_ends(b, n, RELEASED);
        if (number == FROSTSORREL_TRS && !(word_of(before, FROSTSORREL_MD) & BIT(n)))
            raised(b, n);
        if (number == FROSTSORREL_TRR && b->waiting & BIT(n) &&
            word_of(before, FROSTSORREL_WORD_SLOT) != (uint32_t)n)
            request_ends(b, n, ABORTED);
    }
}

/* The bus is heard in normal mode alone, and not in bus off. */
static int hears(const uint8_t *image)
{
    return word_of(image, FROSTSORREL_WORD_MODE) == FROSTSORREL_NORMAL &&
           word_of(image, FROSTSORREL_TEC) < FROSTSORREL_BUS_OFF_TEC;
}

/* Does mailbox n of an eCAN match this frame, under its own mask? */
static int matches(const uint8_t *before, uint32_t n, uint32_t frame)
{
    uint32_t word_0 = frostsorrel_mailbox_word(before, n, 0);
    uint32_t freed = word_0 & FROSTSORREL_GAME ? frostsorrel_mask_word(before, n) : 0;
    uint32_t identifier = frame & FROSTSORREL_IDE ? FROSTSORREL_IDENTIFIER_BITS : frostsorrel_standard(0x7FF);

    return ((word_0 ^ frame) & (FROSTSORREL_IDE | identifier) & ~freed) == 0;
}

/* The mailboxes that are compared with this frame and match it. */
static uint32_t matching(const uint8_t *before, uint32_t frame)
{
    uint32_t receiving = frame & FROSTSORREL_FRAME_RTR ? 0xFFFFFFFF : word_of(before, FROSTSORREL_MD);
    uint32_t compared = word_of(before, FROSTSORREL_MC) & receiving, found = 0;

    for (uint32_t n = 0; n < FROSTSORREL_MAILBOXES; n++)
        if (compared & BIT(n) && matches(before, n, frame))
            found |= BIT(n);
    return found;
}

/* One mailbox matches, and every one that does receives, is protected and holds a frame. */
static int passed_over(const struct books *b, const uint8_t *before, uint32_t frame)
{
    uint32_t guarded = frostsorrel_protection_word(before) & b->held & word_of(before, FROSTSORREL_MD);
    uint32_t found = matching(before, frame);

    return frostsorrel_profile_word(before) == FROSTSORREL_ECAN && found && !(found & ~guarded);
}

/* A frame that was compared was heard. */
static enum entry entry_of_untaken(const struct books *b, const uint8_t *before, uint32_t frame, uint64_t answer)
{
    if (!hears(before) && !frostsorrel_answer_count(answer))
        return NOT_HEARD;
    return passed_over(b, before, frame) ? PASSED_OVER : NOT_TAKEN;
}

/* The answer names the mailbox: one that receives has stored it, one that sends is to reply. */
static void book_frame(struct books *b, const uint8_t *before, uint32_t frame, uint64_t answer)
{
    uint32_t n = frostsorrel_answer_mailbox(answer);

    if (n == FROSTSORREL_NO_MAILBOX)
        enter(b, entry_of_untaken(b, before, frame, answer), (int)n, 0);
    else if (word_of(before, FROSTSORREL_MD) & BIT(n))
        stored(b, (int)n);
    else
        raised(b, (int)n);
}

static void book_outcome(struct books *b, const uint8_t *before, int how)
{
    int n = (int)word_of(before, FROSTSORREL_WORD_SLOT);

    if (how == FROSTSORREL_SENT)
        request_ends(b, n, SENDINGS);
    else if (word_of(before, FROSTSORREL_TRR) & BIT(n))
        request_ends(b, n, ABORTED);
}

static void book_reset(struct books *b)
{
    for (int n = 0; n < FROSTSORREL_MAILBOXES; n++)
        frame_ends(b, n, FRAME_RESET);
    all_requests_end(b, REQUEST_RESET);
}

/* Does this event let sleep in? At once, or a waiting one that nothing holds up any longer. */
static int enters_sleep(const uint8_t *before, const uint8_t *event)
{
    uint32_t tec = word_of(before, FROSTSORREL_TEC);
    int waits = word_of(before, FROSTSORREL_WORD_WAITING) == FROSTSORREL_SLEEP;

    switch (event[0]) {
    case FROSTSORREL_MODE:
        return frostsorrel_event_value(event) == FROSTSORREL_SLEEP &&
               word_of(before, FROSTSORREL_WORD_MODE) == FROSTSORREL_NORMAL &&
               word_of(before, FROSTSORREL_WORD_SLOT) == FROSTSORREL_EMPTY_SLOT && tec < FROSTSORREL_BUS_OFF_TEC;
    case FROSTSORREL_OUTCOME:
        /* in bus off it waits on, and to that an error alone can lead: unacknowledged, TEC rises from 127 at most */
        return waits && (event[1] != FROSTSORREL_ERROR || tec + 8 < FROSTSORREL_BUS_OFF_TEC);
    case FROSTSORREL_ELEVEN_RECESSIVE:
        return waits && tec == FROSTSORREL_BUS_OFF_TEC && word_of(before, FROSTSORREL_WORD_RECOVERY) == 127;
    default:
        return 0;
    }
}

void book(struct books *b, const uint8_t *before, const uint8_t *event, uint64_t answer)
{
    b->steps++;
    b->mades = 0;
    if (frostsorrel_answer_refusal(answer) != FROSTSORREL_ACCEPTED)
        return; /* a refused event books nothing (D48) */
    switch (event[0]) {
    case FROSTSORREL_WRITE_REGISTER:
        book_register_write(b, before, event[1], frostsorrel_event_value(event));
        break;
    case FROSTSORREL_FRAME:
        book_frame(b, before, frostsorrel_event_value(event), answer);
        break;
    case FROSTSORREL_OUTCOME:
        book_outcome(b, before, event[1]);
        break;
    case FROSTSORREL_RESET:
        book_reset(b);
        break;
    }
    if (enters_sleep(before, event))
        all_requests_end(b, SLEPT); /* after the outcome: also what has just lost (D43) */
}

/* ---- what must hold after every step */

int balanced(const struct books *b, int n)
{
    unsigned long frames = b->count[RELEASED][n] + b->count[OVERWRITTEN][n] + b->count[FRAME_RESET][n];
    unsigned long requests = b->count[SENDINGS][n] + b->count[ABORTED][n] + b->count[SLEPT][n] +
                             b->count[REQUEST_RESET][n];

    return b->count[STORED][n] == frames + (b->held >> n & 1) &&
           b->count[RAISED][n] == requests + (b->waiting >> n & 1);
}
