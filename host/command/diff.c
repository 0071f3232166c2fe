/* frostsorrel diff TRACE STEP STEP: what differs between two steps of a run. */
#include <stdlib.h>

#include "run.h"
#include "words.h"

static const char help[] =
    "frostsorrel diff TRACE STEP STEP\n"
    "\n"
    "Runs a trace and prints every word of the image that differs between two of its steps, by the names of registers\n"
    "and mailbox words. Step 0 is the fresh model; step 5 is what event 5 left, as the report numbers them. A change\n"
    "goes from the step that is named first to the other: with the later one first, the way back. - is standard input.\n"
    "\n"
    "The first line names the file and the steps, and says how many words differ, or that nothing differs. A line for\n"
    "each of them follows, behind two blanks, mailboxes before registers: how it changed, and both contents. So a\n"
    "script finds with grep '^  RML:' whether RML differs, once diff has ended with 0: of a file that is no trace it\n"
    "prints nothing, and RML would seem to stay.\n"
    "\n"
    "Two steps are compared, and not what lies between them: a flag that rose and fell again does not show. The report\n"
    "tells every step.\n"
    "\n"
    "The exit status is 0, whether or not anything differs; 1 where the trace is malformed, with the reason, or where\n"
    "a check of the run finds a difference, which the report tells; 2 where it cannot be read, or has no such step.\n";

/* In the words and columns of the report. */
static void write_change(struct text *out, const struct changes *c, size_t entry)
{
    struct text words = {0};

    say_change(&words, c->list, entry);
    text_add(out, "  %-50s  ", words.at);
    say_contents(out, c->list, entry);
    text_add(out, "\n");
    text_free(&words);
}

static void write_changes(struct text *out, const struct changes *c)
{
    if (c->count)
        text_add(out, c->count == 1 ? "%lu word differs\n" : "%lu words differ\n", (unsigned long)c->count);
    else
        text_add(out, "nothing differs\n");
    for (size_t i = 0; i < c->count; i++)
        write_change(out, c, i);
}

static int show_changes(const struct run *r, char **argv)
{
    int from = atoi(argv[2]), to = atoi(argv[3]), status;
    struct text out = {0};
    struct changes c;

    changes_between(r, from, to, &c);
    text_add(&out, "%s: from step %d to step %d, ", name_of_input(argv[1]), from, to);
    write_changes(&out, &c);
    status = text_show(&out, 0);
    text_free(&out);
    return status;
}

int command_diff(int argc, char **argv)
{
    if (asks_help(argc, argv))
        return show_help(help);
    if (understand_steps(argc, argv, 0) != COMMAND_DONE)
        return COMMAND_FAILED;
    if (argc != 4)
        return misused("diff", "two steps are compared, and %d %s named", argc - 2, argc == 3 ? "is" : "are");
    return show_steps(argc, argv, show_changes);
}
