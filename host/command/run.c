#include "run.h"

#include <stdlib.h>
#include <string.h>

/* ---- checks */

static void check_flags(struct run *r, int step, uint32_t number, uint32_t booked)
{
    uint32_t found = frostsorrel_register_word(r->image[step], number);

    if (found != booked)
        text_add(&r->fault, "step %d: %s is 0x%08lX, and the books say 0x%08lX\n", step,
                 frostsorrel_register_name(number), wide(found), wide(booked));
}

static void check_step(struct run *r, int step)
{
    check_flags(r, step, FROSTSORREL_RMP, r->books.held);
    check_flags(r, step, FROSTSORREL_RML, r->books.lost);
    check_flags(r, step, FROSTSORREL_TRS, r->books.waiting);
    for (int n = 0; n < FROSTSORREL_MAILBOXES; n++)
        if (!balanced(&r->books, n))
            text_add(&r->fault, "step %d: the books of mailbox %d do not balance\n", step, n);
}

/* Is this mailbox named where it matches? One that transmits and does not reply is not. */
static int is_named(const uint8_t *before, uint32_t n)
{
    return frostsorrel_register_word(before, FROSTSORREL_MD) & BIT(n) ||
           frostsorrel_mailbox_word(before, n, 0) & FROSTSORREL_RFH;
}

/*
 * How a frame has to be answered, going by its explanation: the lines with reasons 3, 4, 5 and 7 are the mailboxes that
 * were compared, and the one that matched is named. A frame that is not heard has no such line.
 */
static uint64_t explained_answer(const uint8_t *before, const struct explanation *e)
{
    uint32_t named = FROSTSORREL_NO_MAILBOX;
    uint64_t compared = 0;

    for (size_t i = 0; i < e->count; i++) {
        uint32_t n = frostsorrel_line_mailbox(e->list, i), reason = frostsorrel_line_reason(e->list, i);

        compared += (reason >= FROSTSORREL_IDE_DIFFERS && reason <= FROSTSORREL_MATCHED) ||
                    reason == FROSTSORREL_PROTECTED;
        if (reason == FROSTSORREL_MATCHED && is_named(before, n))
            named = n;
    }
    return 256 * named + 65536 * compared;
}

static void check_explanation(struct run *r, int step)
{
    uint64_t answer = r->step[step].answer, explained;
    struct explanation e;

    if (r->step[step].event[0] != FROSTSORREL_FRAME || refusal_of(r, step) != FROSTSORREL_ACCEPTED)
        return;
    explain_step(r, step, &e);
    explained = explained_answer(r->image[step - 1], &e);
    if (explained != answer)
        text_add(&r->fault, "step %d: mailbox %lu, %lu compared, and its explanation says mailbox %lu, %lu compared\n",
                 step, wide(frostsorrel_answer_mailbox(answer)), (unsigned long)frostsorrel_answer_count(answer),
                 wide(frostsorrel_answer_mailbox(explained)), (unsigned long)frostsorrel_answer_count(explained));
}

/* What the listing has to be, going by the answers of the steps. */
static void write_listing(struct text *t, const struct run *r)
{
    if (r->trace.fault.length) {
        text_add(t, "trace refused %d\n", FROSTSORREL_BAD_TRACE);
        return;
    }
    text_add(t, "step code mailbox count\n");
    for (int k = 1; k <= r->steps; k++)
        text_add(t, "%d %lu %lu %lu\n", k, wide(refusal_of(r, k)),
                 wide(frostsorrel_answer_mailbox(r->step[k].answer)),
                 (unsigned long)frostsorrel_answer_count(r->step[k].answer));
    text_add(t, "end %d\n", r->steps);
}

static void check_listing(struct run *r)
{
    uint8_t *listing = grown(0, FROSTSORREL_LISTING_BYTES);
    uint64_t length = frostsorrel_listing(r->trace.file.at, r->trace.file.length, listing, FROSTSORREL_LISTING_BYTES);
    struct text own = {0};

    write_listing(&own, r);
    if (length != own.length || memcmp(listing, own.at, own.length) != 0)
        text_add(&r->fault, "the library's listing is another than the steps give\n");
    text_free(&own);
    free(listing);
}

/* ---- running */

static void take_step(struct run *r, int step, const uint8_t *event)
{
    struct step *s = &r->step[step];

    memcpy(r->image[step], r->image[step - 1], FROSTSORREL_IMAGE_BYTES);
    s->event = event;
    s->answer = frostsorrel_step(r->image[step], FROSTSORREL_IMAGE_BYTES, event, FROSTSORREL_EVENT_BYTES);
    book(&r->books, r->image[step - 1], event, s->answer);
    s[1].first_made = s->first_made + r->books.mades;
    r->made = grown(r->made, (size_t)(s[1].first_made + 1) * sizeof *r->made);
    memcpy(r->made + s->first_made, r->books.made, (size_t)r->books.mades * sizeof *r->made);
    check_step(r, step);
    check_explanation(r, step);
}

static void take_steps(struct run *r)
{
    int step = 0;

    r->steps = r->trace.events;
    r->step = grown(0, ((size_t)r->steps + 2) * sizeof *r->step);
    r->image = grown(0, ((size_t)r->steps + 1) * sizeof *r->image);
    r->step[1].first_made = 0;
    frostsorrel_fresh(r->image[0], FROSTSORREL_IMAGE_BYTES, FROSTSORREL_CAN_B);
    for (int section = 0; section < SECTIONS; section++)
        for (int i = 0; i < r->trace.section[section].count; i++)
            take_step(r, ++step, r->trace.section[section].events + FROSTSORREL_EVENT_BYTES * i);
}

void run_steps(struct run *r)
{
    take_steps(r);
    check_listing(r);
}

int run_trace(const char *path, struct run *into)
{
    memset(into, 0, sizeof *into);
    if (read_trace(path, &into->trace) != COMMAND_DONE)
        return COMMAND_FAILED;
    run_steps(into);
    return COMMAND_DONE;
}

void free_run(struct run *r)
{
    free_trace(&r->trace);
    free(r->step);
    free(r->image);
    free(r->made);
    text_free(&r->fault);
}

uint32_t refusal_of(const struct run *r, int step)
{
    return frostsorrel_answer_refusal(r->step[step].answer);
}

void changes_between(const struct run *r, int from, int to, struct changes *into)
{
    uint64_t answer = frostsorrel_compare(r->image[from], FROSTSORREL_IMAGE_BYTES, r->image[to],
                                          FROSTSORREL_IMAGE_BYTES, into->list, sizeof into->list);
    uint32_t refusal = frostsorrel_answer_refusal(answer);

    if (refusal != FROSTSORREL_ACCEPTED) {
        complain("a fault: the library does not compare steps %d and %d: refusal %lu, %s", from, to, wide(refusal),
                 frostsorrel_refusal_reason(refusal));
        exit(COMMAND_DIFFERS); /* nothing is written before all of it is there */
    }
    into->count = (size_t)frostsorrel_answer_count(answer);
}

/* What is no frame cannot be explained, nor a frame that the step refuses for its own bytes. */
static uint32_t refusal_to_explain(const struct run *r, int step)
{
    if (r->step[step].event[0] != FROSTSORREL_FRAME)
        return FROSTSORREL_UNKNOWN;
    return refusal_of(r, step) == FROSTSORREL_NOT_ALLOWED ? FROSTSORREL_NOT_ALLOWED : FROSTSORREL_ACCEPTED;
}

void explain_step(const struct run *r, int step, struct explanation *into)
{
    uint64_t answer = frostsorrel_explain(r->image[step - 1], FROSTSORREL_IMAGE_BYTES, r->step[step].event,
                                          FROSTSORREL_EVENT_BYTES, into->list, sizeof into->list);
    uint32_t refusal = frostsorrel_answer_refusal(answer);

    if (refusal != refusal_to_explain(r, step)) {
        complain("a fault: the library is asked to explain step %d, and answers %lu, %s", step, wide(refusal),
                 frostsorrel_refusal_reason(refusal));
        exit(COMMAND_DIFFERS); /* nothing is written yet, here too */
    }
    into->refusal = refusal;
    into->count = (size_t)frostsorrel_answer_count(answer);
}

/* ---- subcommands whose words are a trace and steps of it */

static int is_step(const char *word, int first)
{
    return *word && word[strspn(word, "0123456789")] == 0 && strtol(word, 0, 10) >= first;
}

int understand_steps(int argc, char **argv, int first)
{
    if (!only_file(argc < 2 ? argc : 2, argv))
        return COMMAND_FAILED;
    for (int i = 2; i < argc; i++)
        if (!is_step(argv[i], first))
            return misused(argv[0], "\"%s\" is no step: steps are numbers from %d on", argv[i], first);
    return COMMAND_DONE;
}

/* Has the run such a step? Of a number that is too large strtol makes the largest long. */
static int has_step(const struct run *r, char **argv, const char *word)
{
    if (strtol(word, 0, 10) <= r->steps)
        return 1;
    misused(argv[0], "no step %s: %s has %d event%s", word, name_of_input(argv[1]), r->steps, r->steps == 1 ? "" : "s");
    return 0;
}

static int has_steps(const struct run *r, int argc, char **argv)
{
    for (int i = 2; i < argc; i++)
        if (!has_step(r, argv, argv[i]))
            return 0;
    return 1;
}

int show_steps(int argc, char **argv, int (*show)(const struct run *r, char **argv))
{
    struct run r;
    int status;

    if (run_trace(argv[1], &r) != COMMAND_DONE)
        return COMMAND_FAILED;
    if (r.trace.fault.length)
        status = complain_of_trace(argv[1], &r.trace);
    else
        status = has_steps(&r, argc, argv) ? show(&r, argv) : COMMAND_FAILED;
    if (status == COMMAND_DONE && r.fault.length) {
        complain("%s: a check of the run found a difference, which frostsorrel report tells", name_of_input(argv[1]));
        status = COMMAND_DIFFERS;
    }
    free_run(&r);
    return status;
}
