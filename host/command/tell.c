/* What a report says of a run, whatever it is laid out as. */
#include <string.h>

#include "report.h"
#include "words.h"

/* ---- the run as a whole */

static int refusals_of(const struct run *r)
{
    int sum = 0;

    for (int k = 1; k <= r->steps; k++)
        sum += refusal_of(r, k) != FROSTSORREL_ACCEPTED;
    return sum;
}

static int sum_of(const struct run *r, enum entry entry)
{
    int sum = 0;

    for (int n = 0; n <= FROSTSORREL_NO_MAILBOX; n++)
        sum += (int)r->books.count[entry][n];
    return sum;
}

/* The ways in which a frame does not come to the firmware, the worst first. */
static const struct way {
    enum entry entry;
    enum kind kind;
    const char *sum; /* in the first line, which has other words for what was overwritten */
} ways[] = {
    {OVERWRITTEN, LOSS, 0},
    {FRAME_RESET, LOSS, "dropped unread by a reset"},
    {NOT_HEARD, MISSED, "not heard"},
    {NOT_TAKEN, MISSED, "taken by no mailbox"},
    {PASSED_OVER, MISSED, "passed over by protected mailboxes"},
};
enum { WAYS = sizeof ways / sizeof ways[0] };

static enum kind kind_of(enum entry entry)
{
    for (int i = 0; i < WAYS; i++)
        if (ways[i].entry == entry)
            return ways[i].kind;
    return BOOKED;
}

enum kind worst_of(const struct run *r)
{
    for (int i = 0; i < WAYS; i++)
        if (sum_of(r, ways[i].entry))
            return ways[i].kind;
    return BOOKED;
}

static void say_count(struct text *t, int count, const char *thing, const char *what)
{
    text_add(t, count ? "%d " : "no ", count);
    text_add(t, "%s%s%s", thing, count == 1 ? "" : "s", what);
}

void say_sums(struct text *t, const struct run *r)
{
    say_count(t, r->steps, "step", ", ");
    if (sum_of(r, OVERWRITTEN))
        say_count(t, sum_of(r, OVERWRITTEN), "frame", " lost, ");
    else
        text_add(t, "no frame overwritten, "); /* which is all that can be said: others may be missing */
    for (int i = 1; i < WAYS; i++)
        if (sum_of(r, ways[i].entry))
            text_add(t, "%d %s, ", sum_of(r, ways[i].entry), ways[i].sum);
    say_count(t, refusals_of(r), "event", " refused");
}

uint32_t booked_in(const struct run *r, int first, int last)
{
    uint32_t booked = 0;

    for (int i = r->step[first].first_made; i < r->step[last + 1].first_made; i++)
        if (r->made[i].mailbox != FROSTSORREL_NO_MAILBOX)
            booked |= BIT(r->made[i].mailbox);
    return booked;
}

/* The mailboxes that are enabled after this step, or have an entry in it. */
static uint32_t used_in(const struct run *r, int step)
{
    return frostsorrel_register_word(r->image[step], FROSTSORREL_MC) | booked_in(r, step, step);
}

uint32_t in_use(const struct run *r)
{
    uint32_t used = 0;

    for (int k = 1; k <= r->steps; k++)
        used |= used_in(r, k);
    return used;
}

/* The identifier that the mailbox has after this step, as word 0 has it. */
static uint32_t identifier_in(const struct run *r, int step, int n)
{
    return frostsorrel_mailbox_word(r->image[step], (uint32_t)n, 0) & (FROSTSORREL_IDE | FROSTSORREL_IDENTIFIER_BITS);
}

void say_only_identifier(struct text *t, const char *before, const struct run *r, int n)
{
    uint32_t last = identifier_in(r, r->steps, n);
    int step = 1;

    while (step < r->steps && !(used_in(r, step) & BIT(n)))
        step++;
    while (step < r->steps && identifier_in(r, step, n) == last)
        step++;
    if (identifier_in(r, step, n) != last)
        return;
    text_add(t, "%s", before);
    say_identifier(t, last);
}

/* ---- the steps */

/* The counters that ticks, receive errors and recessive bits move on. */
static int is_counter(uint32_t word)
{
    return word == FIRST_REGISTER + FROSTSORREL_TSC || word == FIRST_REGISTER + FROSTSORREL_REC ||
           word == FIRST_REGISTER + FROSTSORREL_WORD_RECOVERY;
}

/* Does the step book nothing and change nothing but counters? */
static int is_quiet(const struct run *r, int step)
{
    struct changes c;

    changes_between(r, step - 1, step, &c);
    for (size_t i = 0; i < c.count; i++)
        if (!is_counter(frostsorrel_entry_number(c.list, i)))
            return 0;
    return r->step[step].first_made == r->step[step + 1].first_made;
}

/* Has the step behind this one the same event, and the same answer? */
static int is_repeated(const struct run *r, int step)
{
    return step < r->steps && r->step[step].answer == r->step[step + 1].answer &&
           memcmp(r->step[step].event, r->step[step + 1].event, FROSTSORREL_EVENT_BYTES) == 0;
}

/* The last of the quiet steps that do the same as this one, one behind the other: they are told as one. */
static int last_of_row(const struct run *r, int first)
{
    int last = first;

    if (is_quiet(r, first))
        while (is_repeated(r, last) && is_quiet(r, last + 1))
            last++;
    return last;
}

void say_refusal(struct text *t, const struct run *r, int step)
{
    uint32_t refusal = refusal_of(r, step);

    text_add(t, "REFUSED %lu, %s: ", wide(refusal), frostsorrel_refusal_name(refusal));
    say_reason(t, r->image[step - 1], r->step[step].event, refusal);
}

/* What may be wrong in an event that is refused for its own bytes is best seen in them. */
static void say_raw(struct text *t, const struct run *r, int step)
{
    uint32_t refusal = refusal_of(r, step);

    if (refusal != FROSTSORREL_UNKNOWN && refusal != FROSTSORREL_NOT_ALLOWED)
        return;
    for (int i = 0; i < FROSTSORREL_EVENT_BYTES; i++)
        text_add(t, i % 4 || !i ? "%s%02X" : "%s %02X", i ? " " : "", r->step[step].event[i]);
}

/* Each detail is two texts, which the next one uses again. */
static void put_detail(struct pen *p, enum kind kind, struct text *words, struct text *numbers)
{
    p->detail(p, kind, words->at, numbers->length ? numbers->at : "");
    text_free(words);
    text_free(numbers);
}

static void tell_entries(struct pen *p, const struct run *r, int step)
{
    struct text words = {0}, none = {0};

    for (int i = r->step[step].first_made; i < r->step[step + 1].first_made; i++) {
        say_made(&words, &r->made[i], r->image[step - 1], r->step[step].event);
        put_detail(p, kind_of(r->made[i].entry), &words, &none);
    }
}

/* Answers how many words changed from before the first to behind the last step. */
static size_t tell_changes(struct pen *p, const struct run *r, int first, int last)
{
    struct text words = {0}, numbers = {0};
    struct changes c;

    changes_between(r, first - 1, last, &c);
    for (size_t i = 0; i < c.count; i++) {
        say_change(&words, c.list, i);
        say_contents(&numbers, c.list, i);
        put_detail(p, CHANGED, &words, &numbers);
    }
    return c.count;
}

static void tell_row(struct pen *p, const struct run *r, int first, int last)
{
    const struct step *s = &r->step[first];
    struct text event = {0}, answer = {0}, words = {0}, numbers = {0};
    int refused = refusal_of(r, first) != FROSTSORREL_ACCEPTED;

    say_event(&event, s->event);
    if (!refused)
        say_answer(&answer, r->image[first - 1], s->event, s->answer);
    p->step(p, first, last, event.at, answer.length ? answer.at : "");
    if (refused) {
        say_refusal(&words, r, first);
        say_raw(&numbers, r, first);
        put_detail(p, REFUSAL, &words, &numbers);
    }
    tell_entries(p, r, first);
    if (tell_changes(p, r, first, last) == 0 && !refused)
        p->detail(p, NOTHING, "nothing changes", "");
    p->step_done(p);
    text_free(&event);
    text_free(&answer);
}

void tell_steps(struct pen *p, const struct run *r)
{
    int last;

    for (int first = 1; first <= r->steps; first = last + 1) {
        last = last_of_row(r, first);
        tell_row(p, r, first, last);
    }
}

/* ---- the books */

/* Frames and requests have books of one kind: what began, two ways to end, the rest, which are drops, and what is left. */
struct account {
    const char *head[MOST_CELLS];
    enum entry began, behind; /* its entries, and the one behind them */
    const char *left;
};
static const struct account frames = {
    {"Frames", "stored", "released", "overwritten", "dropped", "held", ""}, STORED, RAISED, "the frame of step %d"};
static const struct account requests = {
    {"Requests", "raised", "sent", "aborted", "dropped", "waiting", ""}, RAISED, NOT_HEARD, "the request of step %d"};

static void tell_account_of(struct pen *p, const struct run *r, const struct account *a, int n)
{
    const struct books *b = &r->books;
    int is_left = (int)((a == &frames ? b->held : b->waiting) >> n & 1);
    unsigned long dropped = 0;
    struct text cells[MOST_CELLS] = {{0}};
    const char *row[MOST_CELLS];

    text_add(&cells[0], "mailbox %d", n);
    say_only_identifier(&cells[0], ", ", r, n);
    for (int i = 0; i < 3; i++)
        text_add(&cells[1 + i], "%lu", b->count[(int)a->began + i][n]);
    for (int i = (int)a->began + 3; i < (int)a->behind; i++)
        dropped += b->count[i][n];
    text_add(&cells[4], "%lu", dropped);
    text_add(&cells[5], "%d", is_left);
    text_add(&cells[6], is_left ? a->left : "", a == &frames ? b->stored_in[n] : b->raised_in[n]);
    for (int i = 0; i < MOST_CELLS; i++)
        row[i] = cells[i].at;
    p->row(p, row, MOST_CELLS, 0);
    for (int i = 0; i < MOST_CELLS; i++)
        text_free(&cells[i]);
}

/* A table with a line for each of these mailboxes; no table where there is none. */
static void tell_account(struct pen *p, const struct run *r, const struct account *a, uint32_t mailboxes)
{
    if (!mailboxes)
        return;
    p->row(p, a->head, MOST_CELLS, 1);
    for (int n = 0; n < FROSTSORREL_MAILBOXES; n++)
        if (mailboxes & BIT(n))
            tell_account_of(p, r, a, n);
    p->row(p, 0, 0, 0);
}

/* The mailboxes that have such an entry. */
static uint32_t mailboxes_with(const struct run *r, enum entry entry)
{
    uint32_t found = 0;

    for (int n = 0; n < FROSTSORREL_MAILBOXES; n++)
        if (r->books.count[entry][n])
            found |= BIT(n);
    return found;
}

/* One line for each line of the text. */
static void tell_lines(struct pen *p, enum kind kind, const char *lines)
{
    while (*lines) {
        size_t length = strcspn(lines, "\n");
        struct text line = {0};

        text_bytes(&line, lines, length);
        p->line(p, kind, line.at);
        text_free(&line);
        lines += length + (lines[length] == '\n');
    }
}

void tell_mailboxes(struct pen *p, const struct run *r)
{
    uint32_t used = in_use(r), receive = frostsorrel_register_word(r->image[r->steps], FROSTSORREL_MD);
    uint32_t stored = mailboxes_with(r, STORED), raised = mailboxes_with(r, RAISED), idle = used & ~stored & ~raised;

    p->heading(p, "The books of the mailboxes in use");
    if (!used)
        p->line(p, NOTHING, "No mailbox was used.");
    tell_account(p, r, &frames, stored | (idle & receive));
    tell_account(p, r, &requests, raised | (idle & ~receive));
    if (r->fault.length)
        tell_lines(p, LOSS, r->fault.at);
    else if (used)
        p->line(p, BOOKED, "They balance, and after every step RMP, RML and TRS say the same as the books.");
}

/* ---- losses and refusals */

/* What a mailbox held came in the step in which it was stored, and any other frame in this one. */
static void tell_loss(struct pen *p, const struct run *r, int step, const struct made *m)
{
    const struct step *s = &r->step[step];
    int was_stored = m->mailbox != FROSTSORREL_NO_MAILBOX;
    struct text t = {0};

    say_made(&t, m, r->image[step - 1], s->event);
    text_add(&t, was_stored ? " in step %d: " : ", step %d: ", step);
    say_event(&t, r->step[was_stored ? m->since : step].event);
    p->line(p, kind_of(m->entry), t.at);
    text_free(&t);
}

static void tell_losses_of(struct pen *p, const struct run *r, enum entry entry)
{
    for (int k = 1; k <= r->steps; k++)
        for (int i = r->step[k].first_made; i < r->step[k + 1].first_made; i++)
            if (r->made[i].entry == entry)
                tell_loss(p, r, k, &r->made[i]);
}

void tell_losses(struct pen *p, const struct run *r)
{
    p->heading(p, "Losses");
    if (!sum_of(r, OVERWRITTEN))
        p->line(p, NOTHING, "No frame was overwritten.");
    for (int i = 0; i < WAYS; i++)
        tell_losses_of(p, r, ways[i].entry);
}

void tell_refusals(struct pen *p, const struct run *r)
{
    p->heading(p, "Refusals");
    if (refusals_of(r) == 0)
        p->line(p, NOTHING, "No event was refused.");
    for (int k = 1; k <= r->steps; k++) {
        struct text t = {0};

        if (refusal_of(r, k) == FROSTSORREL_ACCEPTED)
            continue;
        text_add(&t, "step %d, ", k);
        say_event(&t, r->step[k].event);
        text_add(&t, ": ");
        say_refusal(&t, r, k);
        p->line(p, REFUSAL, t.at);
        text_free(&t);
    }
}

/* ---- the end */

static void put_line(struct pen *p, struct text *t)
{
    p->line(p, BOOKED, t->at);
    text_free(t);
}

static void tell_flags(struct pen *p, const uint8_t *image, uint32_t number, const char *meaning)
{
    struct text t = {0};

    text_add(&t, "%s (%s): ", frostsorrel_register_name(number), meaning);
    say_mailboxes(&t, frostsorrel_register_word(image, number));
    put_line(p, &t);
}

/* Flags stay up in sleep, and the firmware does not see them. */
static void tell_sleep(struct pen *p, const uint8_t *image)
{
    uint64_t gsr = frostsorrel_read(image, FROSTSORREL_IMAGE_BYTES, FROSTSORREL_GSR);
    struct text t = {0};

    text_add(&t, "asleep the firmware reads GSR as 0x%08lX and every other register as 0, whatever stands below",
             wide(frostsorrel_read_value(gsr)));
    put_line(p, &t);
}

void tell_state(struct pen *p, const struct run *r)
{
    const uint8_t *image = r->image[r->steps];
    uint32_t slot = frostsorrel_register_word(image, FROSTSORREL_WORD_SLOT);
    uint32_t waiting = frostsorrel_register_word(image, FROSTSORREL_WORD_WAITING);
    uint32_t interrupts = frostsorrel_register_word(image, FROSTSORREL_GIF);
    struct text t = {0};

    p->heading(p, "At the end");
    text_add(&t, "mode: %s", frostsorrel_mode_name(frostsorrel_register_word(image, FROSTSORREL_WORD_MODE)));
    if (waiting != FROSTSORREL_NO_MODE)
        text_add(&t, ", and %s waits", frostsorrel_mode_name(waiting));
    put_line(p, &t);
    if (frostsorrel_register_word(image, FROSTSORREL_WORD_MODE) == FROSTSORREL_SLEEP)
        tell_sleep(p, image);
    text_add(&t, "slot:");
    say_slot(&t, slot);
    put_line(p, &t);
    text_add(&t, "TEC %lu, REC %lu: error state %s", wide(frostsorrel_register_word(image, FROSTSORREL_TEC)),
             wide(frostsorrel_register_word(image, FROSTSORREL_REC)), error_state(image));
    put_line(p, &t);
    text_add(&t, "TSC %lu", wide(frostsorrel_register_word(image, FROSTSORREL_TSC)));
    put_line(p, &t);
    tell_flags(p, image, FROSTSORREL_RMP, "a frame is held");
    tell_flags(p, image, FROSTSORREL_RML, "a frame was lost since the last release or reset");
    text_add(&t, interrupts ? "GIF:" : "GIF: no bit");
    say_interrupts(&t, "", interrupts);
    put_line(p, &t);
}
