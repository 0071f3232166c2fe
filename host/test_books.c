/*
 * Keeps the books of every mailbox over long random runs of frostsorrel_step, with the code that the report has, and
 * compares them with the image after every step: what is held, lost and waiting with RMP, RML and TRS, and how each
 * frame and request ended with what the books never look at, TA, AA, GIF and the mode that the step leaves. A frame that
 * came to no mailbox has left all of them as they were, and one that was not heard has left everything, or woken the model.
 * One that was passed over has left everything but REC, and its explanation names a protected mailbox and none that
 * matched; no other frame has such an explanation. The runs are of both profiles.
 */
#include "check.h"
#include "command/books.h"
#include "generate.h"
#include "image.h"

static const char *const entry_names[ENTRIES] = {
    "stored", "released", "overwritten", "dropped by reset", "raised", "sent", "aborted",
    "dropped by sleep", "dropped by reset", "not heard", "not taken", "passed over",
};

/* ---- what must hold after every step */

static void check_flag(const uint8_t *image, int word, uint32_t booked, unsigned long run, int step)
{
    check(word_of(image, word) == booked, "run %lu, step %d: %s is 0x%08lX, the books say 0x%08lX", run,
          step, word_name(word), (unsigned long)word_of(image, word), (unsigned long)booked);
}

static void check_books(const struct books *b, const uint8_t *image, unsigned long run, int step)
{
    int n = 0;

    check_flag(image, RMP, b->held, run, step);
    check_flag(image, RML, b->lost, run, step);
    check_flag(image, TRS, b->waiting, run, step);
    while (n < FROSTSORREL_MAILBOXES && balanced(b, n))
        n++;
    check(n == FROSTSORREL_MAILBOXES, "run %lu, step %d: the books of mailbox %d do not balance", run, step, n);
}

/* Could the model hear a frame, and has no mailbox changed? */
static int only_heard(const uint8_t *before, const uint8_t *image)
{
    return word_of(before, MODE) == FROSTSORREL_NORMAL && word_of(before, TEC) < FROSTSORREL_BUS_OFF_TEC &&
           memcmp(before, image, 16 * FROSTSORREL_MAILBOXES) == 0;
}

/* Is nothing else of the image new than that the model is awake? */
static int only_woke(const uint8_t *before, const uint8_t *image)
{
    uint8_t woken[BYTES];

    memcpy(woken, before, BYTES);
    put(woken, MODE, FROSTSORREL_NORMAL);
    put(woken, GIF, word_of(before, GIF) | FROSTSORREL_WUIF);
    return word_of(before, MODE) == SLEEP && memcmp(woken, image, BYTES) == 0;
}

/* Is nothing else of the image new than that REC fell, as for a frame that was heard? */
static int only_rec_fell(const uint8_t *before, const uint8_t *image)
{
    uint32_t rec = word_of(before, REC);
    uint8_t heard[BYTES];

    memcpy(heard, before, BYTES);
    put(heard, REC, rec > 127 ? 127 : rec - (rec > 0));
    return memcmp(heard, image, BYTES) == 0;
}

/* Does the explanation of the frame say that it was passed over by all that match, and by one at least? */
static int explained_as_passed_over(const uint8_t *before, const uint8_t *event)
{
    uint8_t list[FROSTSORREL_EXPLANATION_BYTES];
    uint64_t answer = frostsorrel_explain(before, BYTES, event, FROSTSORREL_EVENT_BYTES, list, sizeof list);
    int is_protected = 0;

    for (size_t i = 0; i < frostsorrel_answer_count(answer); i++) {
        if (frostsorrel_line_reason(list, i) == FROSTSORREL_MATCHED)
            return 0;
        is_protected |= frostsorrel_line_reason(list, i) == FROSTSORREL_PROTECTED;
    }
    return is_protected;
}

/* Does the image after the step say so too? Of what begins RMP and TRS do. */
static int fits(const struct made *m, const uint8_t *before, const uint8_t *event, const uint8_t *image)
{
    switch (m->entry) {
    case RELEASED: return event[0] == FROSTSORREL_WRITE_REGISTER && event[1] == FROSTSORREL_RMP;
    case OVERWRITTEN: return (word_of(image, GIF) & FROSTSORREL_RMLIF) != 0;
    case SENDINGS: return (word_of(image, TA) & BIT(m->mailbox)) != 0;
    case ABORTED: return (word_of(image, AA) & BIT(m->mailbox)) != 0;
    case SLEPT: return word_of(image, MODE) == SLEEP;
    case FRAME_RESET:
    case REQUEST_RESET: return event[0] == FROSTSORREL_RESET;
    case NOT_HEARD: return memcmp(before, image, BYTES) == 0 || only_woke(before, image);
    case NOT_TAKEN: return only_heard(before, image) && !explained_as_passed_over(before, event);
    case PASSED_OVER:
        return only_heard(before, image) && only_rec_fell(before, image) && explained_as_passed_over(before, event);
    default: return 1;
    }
}

/* The mailboxes that have such an entry in the latest step. */
static uint32_t booked_now(const struct books *b, enum entry entry)
{
    uint32_t found = 0;

    for (int i = 0; i < b->mades; i++)
        if (b->made[i].entry == entry)
            found |= BIT(b->made[i].mailbox);
    return found;
}

static void check_entries(const struct books *b, const uint8_t *before, const uint8_t *event, const uint8_t *image,
                          unsigned long run, int step)
{
    uint32_t sent = word_of(image, TA) & ~word_of(before, TA), aborted = word_of(image, AA) & ~word_of(before, AA);

    for (int i = 0; i < b->mades; i++)
        check(fits(&b->made[i], before, event, image), "run %lu, step %d: mailbox %d was not %s", run, step,
              b->made[i].mailbox, entry_names[b->made[i].entry]);
    check(!(sent & ~booked_now(b, SENDINGS)), "run %lu, step %d: TA rises, and nothing is booked as sent", run, step);
    check(!(aborted & ~booked_now(b, ABORTED)), "run %lu, step %d: AA rises, and nothing is booked as aborted", run, step);
}

/* An accepted frame has an entry, but where the mailbox that is to reply has a request already. */
static void check_frame(const struct books *b, const uint8_t *before, const uint8_t *event, uint64_t answer,
                        unsigned long run, int step)
{
    uint32_t n = frostsorrel_answer_mailbox(answer);
    int waits = n < FROSTSORREL_MAILBOXES && word_of(before, TRS) & BIT(n);

    if (event[0] == FROSTSORREL_FRAME && frostsorrel_answer_refusal(answer) == FROSTSORREL_ACCEPTED)
        check(waits || b->mades > 0, "run %lu, step %d: a frame that nothing is booked of", run, step);
}

static void run(uint32_t profile, unsigned long number, int steps, struct books *b)
{
    uint8_t image[BYTES], before[BYTES], event[LONGEST_EVENT];

    seed_generator(number);
    frostsorrel_fresh(image, BYTES, profile);
    for (int step = 1; step <= steps; step++) {
        size_t len = likely_event(event, image);
        uint64_t answer;

        memcpy(before, image, BYTES);
        answer = frostsorrel_step(image, BYTES, event, len);
        book(b, before, event, answer);
        check_books(b, image, number, step);
        check_entries(b, before, event, image, number, step);
        check_frame(b, before, event, answer, number, step);
    }
}

/*
 * Can a mailbox have this entry? The last kinds are those of no mailbox. In a CAN-B 31 never sends, and nothing is passed
 * over.
 */
static int can_have(uint32_t profile, int n, int entry)
{
    if (n == FROSTSORREL_NO_MAILBOX)
        return entry >= NOT_HEARD && (entry != PASSED_OVER || profile == ECAN);
    return entry < (n == 31 && profile == CAN_B ? RAISED : NOT_HEARD);
}

typedef unsigned long sums_of_runs[ENTRIES][FROSTSORREL_MAILBOXES + 1];

/* The runs are worth something only if they had every kind of entry at every mailbox that can. */
static void check_not_empty(uint32_t profile, sums_of_runs sums)
{
    for (int e = 0; e < ENTRIES; e++)
        for (int n = 0; n <= FROSTSORREL_NO_MAILBOX; n++)
            check(can_have(profile, n, e) == (sums[e][n] > 0), "%s, mailbox %d: %lu %s",
                  frostsorrel_profile_name(profile), n, sums[e][n], entry_names[e]);
}

#define RUNS 20
#define STEPS 10000

static void runs_of(uint32_t profile, sums_of_runs sums)
{
    static struct books b;

    for (unsigned long number = 1; number <= RUNS; number++) {
        memset(&b, 0, sizeof b); /* all begin empty */
        run(profile, number, STEPS, &b);
        for (int e = 0; e < ENTRIES; e++)
            for (int n = 0; n <= FROSTSORREL_NO_MAILBOX; n++)
                sums[e][n] += b.count[e][n];
    }
    check_not_empty(profile, sums);
}

int main(void)
{
    static sums_of_runs of_can_b, of_ecan;

    runs_of(CAN_B, of_can_b);
    runs_of(ECAN, of_ecan);
    printf("host books: %lu frames passed over\n", of_ecan[PASSED_OVER][FROSTSORREL_NO_MAILBOX]);
    return report("host books");
}
