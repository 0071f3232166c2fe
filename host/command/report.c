/* frostsorrel report [--html] TRACE: what happened in a run, for people. */
#include "report.h"

#include <string.h>

static const char help[] =
    "frostsorrel report [--html] TRACE\n"
    "\n"
    "Runs a trace and tells every step in words: the event, its refusal with the reason, the mailbox that the answer\n"
    "names, what is booked, and every word of the image that changed. Equal steps in a row that only move a counter on\n"
    "are told as one. Behind the steps stand the books of each mailbox in use, every loss, every refusal, and how the\n"
    "unit stands. Each frame that the firmware did not get has a line of its own under Losses:\n"
    "\n"
    "  LOST:       it was overwritten before anybody released it\n"
    "  DROPPED:    a reset dropped it before anybody released it\n"
    "  NOT HEARD:  it came while the unit was not in normal mode, or in bus off\n"
    "  NOT TAKEN:  no mailbox took it: usual for a frame that is meant for others\n"
    "\n"
    "There, and nowhere else, these words stand behind two blanks, so a script counts the frames that were overwritten\n"
    "with frostsorrel report TRACE | grep -c '^  LOST:'. A frame that was refused stands under Refusals.\n"
    "\n"
    "--html prints a page for a browser, all in one file, with a picture of the run. - is standard input.\n"
    "\n"
    "The exit status is 0; 1 where the trace is malformed, with the reason, or where the answers of the steps and the\n"
    "books, the listing or the explanation of a frame differ, which is told with the books; 2 where it cannot be read.\n";

/* ---- the report as text */

static const char *colour_of(enum kind kind)
{
    static const char *const colours[] = {"\033[1;31m", "\033[35m", "\033[33m", "", "\033[2m", "\033[2m"};

    return colours[kind];
}

/* Words in a colour, where colours are wanted. */
static void put_coloured(struct pen *p, const char *colour, const char *words)
{
    if (p->colour && *colour)
        text_add(&p->out, "%s%s\033[0m", colour, words);
    else
        text_add(&p->out, "%s", words);
}

static void text_heading(struct pen *p, const char *words)
{
    text_add(&p->out, "\n");
    put_coloured(p, "\033[1m", words);
    text_add(&p->out, "\n");
}

static void text_line(struct pen *p, enum kind kind, const char *words)
{
    text_add(&p->out, "  ");
    put_coloured(p, colour_of(kind), words);
    text_add(&p->out, "\n");
}

static void text_row(struct pen *p, const char *const *cells, int count, int is_head)
{
    struct text row = {0};

    for (int i = 0; i < count; i++)
        text_add(&row, i == 0 ? "  %-26s" : i < MOST_CELLS - 1 ? "%12s" : "   %s", cells[i]);
    while (row.length && row.at[row.length - 1] == ' ')
        row.at[--row.length] = 0;
    if (count)
        put_coloured(p, is_head ? "\033[1m" : "", row.at);
    text_add(&p->out, "\n");
    text_free(&row);
}

static void text_step(struct pen *p, int first, int last, const char *event, const char *answer)
{
    struct text number = {0};

    text_add(&number, "%5d  ", first);
    put_coloured(p, "\033[2m", number.at);
    put_coloured(p, "\033[1m", event);
    if (last > first)
        text_add(&p->out, ", %d times, up to step %d", last - first + 1, last);
    text_add(&p->out, "%s%s\n", *answer ? " -> " : "", answer);
    text_free(&number);
}

static void text_detail(struct pen *p, enum kind kind, const char *words, const char *numbers)
{
    struct text line = {0};

    text_add(&line, *numbers ? "%-50s  %s" : "%s%s", words, numbers);
    text_add(&p->out, "         ");
    put_coloured(p, colour_of(kind), line.at);
    text_add(&p->out, "\n");
    text_free(&line);
}

static void text_step_done(struct pen *p)
{
    (void)p;
}

void write_text(struct text *out, const struct run *r, const char *name)
{
    struct pen p = {{0}, wants_colour(), text_heading, text_line, text_row, text_step, text_detail, text_step_done};
    struct text sums = {0};

    say_sums(&sums, r);
    text_add(&p.out, "%s: ", name);
    put_coloured(&p, colour_of(worst_of(r)), sums.at);
    text_add(&p.out, "\n");
    text_free(&sums);
    text_heading(&p, "Step by step");
    tell_steps(&p, r);
    tell_mailboxes(&p, r);
    tell_losses(&p, r);
    tell_refusals(&p, r);
    tell_state(&p, r);
    *out = p.out;
}

/* ---- the subcommand */

/* Takes the word out of argv where it stands. Answers whether it did. */
static int take_word(int *argc, char **argv, const char *word)
{
    for (int i = 1; i < *argc; i++)
        if (strcmp(argv[i], word) == 0) {
            memmove(argv + i, argv + i + 1, (size_t)(--*argc - i) * sizeof *argv);
            return 1;
        }
    return 0;
}

/* That the library refuses it as well is one of the checks; where it does not, that is told too. */
static void write_refused(struct text *out, const struct run *r, const char *name)
{
    text_add(out, "trace refused %d: %s\n%s\n%s", FROSTSORREL_BAD_TRACE, name, r->trace.fault.at,
             r->fault.length ? r->fault.at : "");
}

int command_report(int argc, char **argv)
{
    struct text out = {0};
    struct run r;
    const char *path;
    int html, status, refused;

    if (asks_help(argc, argv))
        return show_help(help);
    html = take_word(&argc, argv, "--html");
    path = only_file(argc, argv);
    if (!path || run_trace(path, &r) != COMMAND_DONE)
        return COMMAND_FAILED;
    refused = r.trace.fault.length != 0;
    if (refused)
        write_refused(&out, &r, name_of_input(path));
    else if (html)
        write_page(&out, &r, name_of_input(path));
    else
        write_text(&out, &r, name_of_input(path));
    status = text_show(&out, 0);
    if (status == COMMAND_DONE && (refused || r.fault.length))
        status = COMMAND_DIFFERS;
    if (refused && html)
        complain_of_trace(path, &r.trace); /* a page goes into a file, where nobody looks yet */
    text_free(&out);
    free_run(&r);
    return status;
}
