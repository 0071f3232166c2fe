/* frostsorrel explain TRACE STEP: why the frame of a step landed where it did. */
#include <stdlib.h>

#include "report.h"
#include "words.h"

static const char help[] =
    "frostsorrel explain TRACE STEP\n"
    "\n"
    "Runs a trace and says of a step that is a frame, mailbox by mailbox, why the frame did not land there: in the\n"
    "order of the search, up to the mailbox where it ended, or of all 32. Steps are numbered as in the report. - is\n"
    "standard input.\n"
    "\n"
    "The first line names the file, the step, the frame and the answer. A line for each mailbox follows, behind two\n"
    "blanks: the first of these that holds, then the mailbox's identifier, and what of it decided:\n"
    "\n"
    "  disabled                              MC does not enable it; its identifier is left out where word 0 is 0\n"
    "  transmits, and this is a data frame   it is compared with remote frames alone\n"
    "  IDE differs                           one is standard, the other extended\n"
    "  bit 24 of the identifier differs      the highest such bit, 28 to 0 as in word 0 of a mailbox; then the same\n"
    "                                        bit of the identifier as it is written: 0x040 in 11 bits\n"
    "  matched                               and stored there, or asked to reply; with RFH 0 nothing comes of it, and\n"
    "                                        the search ends all the same\n"
    "\n"
    "What a mask frees does not differ. Mailboxes 0 to 30 have one mask, GAM, and mailbox 31 has LAM, each where bit 30\n"
    "of word 0 (GAME, LAME) is set. A line tells what the mask frees of the bits that the frame has, or that it would\n"
    "free the one that differs but is not used. A mailbox that stored a frame has the frame's identifier from then on.\n"
    "\n"
    "Bits are written in the measure of the frame's identifier: 11 bits, or 29 where it is extended. Where a mask frees\n"
    "IDE and the mailbox is of the other kind, its identifier stands there in this measure too, as in\n"
    "0x31A (0x0C680000 in 29 bits). Of a standard frame 11 bits are compared, whatever the mailbox has below them.\n"
    "\n"
    "A frame that was not heard has one line, which says why. One that was refused because a mailbox was being sent is\n"
    "explained as if none were, and the first line says that nothing of it happened.\n"
    "\n"
    "The exit status is 0, wherever the frame landed; 1 where the trace is malformed, with the reason, or where a check\n"
    "of the run finds a difference, which the report tells; 2 where it cannot be read, has no such step, or the step is\n"
    "no frame, or one that is not allowed.\n";

/* The reason, and in one column what is said beside it: only that of a match of which nothing comes is longer. */
static void write_line(struct text *out, const struct run *r, int step, const struct explanation *e, size_t line)
{
    const uint8_t *before = r->image[step - 1];
    struct text words = {0}, detail = {0};

    say_line(&words, before, r->step[step].answer, e->list, line);
    say_line_detail(&detail, before, r->step[step].event, e->list, line);
    if (detail.length)
        text_add(out, "  %-48s  %s\n", words.at, detail.at);
    else
        text_add(out, "  %s\n", words.at);
    text_free(&words);
    text_free(&detail);
}

static void write_head(struct text *out, const struct run *r, const char *path, int step)
{
    const struct step *s = &r->step[step];

    text_add(out, "%s: step %d, ", name_of_input(path), step);
    say_event(out, s->event);
    if (refusal_of(r, step) == FROSTSORREL_ACCEPTED) {
        text_add(out, " -> ");
        say_answer(out, r->image[step - 1], s->event, s->answer);
    } else {
        text_add(out, ": ");
        say_refusal(out, r, step);
        text_add(out, ", so nothing of this happened");
    }
    text_add(out, "\n");
}

static int show_lines(const struct run *r, const char *path, int step, const struct explanation *e)
{
    struct text out = {0};
    int status;

    write_head(&out, r, path, step);
    for (size_t i = 0; i < e->count; i++)
        write_line(&out, r, step, e, i);
    status = text_show(&out, 0);
    text_free(&out);
    return status;
}

/* An event that is no frame, or a frame that is not allowed: which it is, and why it was refused if it was. */
static int complain_of_event(const struct run *r, const char *path, int step, const char *what)
{
    struct text event = {0};

    say_event(&event, r->step[step].event);
    if (refusal_of(r, step) != FROSTSORREL_ACCEPTED) {
        text_add(&event, ": ");
        say_refusal(&event, r, step);
    }
    complain("%s: step %d %s: %s", name_of_input(path), step, what, event.at);
    text_free(&event);
    return COMMAND_FAILED;
}

static int show_explanation(const struct run *r, char **argv)
{
    int step = atoi(argv[2]);
    struct explanation e;

    explain_step(r, step, &e);
    if (e.refusal == FROSTSORREL_UNKNOWN)
        return complain_of_event(r, argv[1], step, "is no frame");
    if (e.refusal != FROSTSORREL_ACCEPTED)
        return complain_of_event(r, argv[1], step, "cannot be explained");
    return show_lines(r, argv[1], step, &e);
}

int command_explain(int argc, char **argv)
{
    if (asks_help(argc, argv))
        return show_help(help);
    if (understand_steps(argc, argv, 1) != COMMAND_DONE)
        return COMMAND_FAILED;
    if (argc < 3)
        return misused("explain", "no step is named");
    if (argc > 3)
        return misused("explain", "one step at a time, and %s is another", argv[3]);
    return show_steps(argc, argv, show_explanation);
}
