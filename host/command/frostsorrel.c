/* frostsorrel: traces of the model for people. Each subcommand is a file of its own. */
#define _XOPEN_SOURCE 700 /* SIGPIPE and SIGXFSZ beside C99 */

#include "command.h"

#include <signal.h>
#include <stdio.h>
#include <string.h>

#include "frostsorrel.h"

static const struct subcommand {
    const char *name;
    int (*run)(int argc, char **argv);
} subcommands[] = {
    {"make", command_make}, {"report", command_report},   {"explain", command_explain},
    {"diff", command_diff}, {"list", command_list},       {"follow", command_follow},
    {"text", command_text}, {"candump", command_candump}, {"registers", command_registers},
};

static const char help[] =
    "frostsorrel: runs traces through a proved model of a CAN controller, and shows what happened\n"
    "\n"
    "  frostsorrel make SCENARIO [-o TRACE]   makes a trace of a scenario, which is text\n"
    "  frostsorrel report [--html] TRACE      every step in words, every loss, the books of every mailbox\n"
    "  frostsorrel explain TRACE STEP         why the frame of a step landed where it did, mailbox by mailbox\n"
    "  frostsorrel diff TRACE STEP STEP       every word that differs between two steps of a run\n"
    "  frostsorrel list TRACE                 the listing: step, code, mailbox, count\n"
    "  frostsorrel follow [TRACE]             the same while the trace arrives, each line as soon as it is known\n"
    "  frostsorrel text TRACE                 the scenario that makes this trace\n"
    "  frostsorrel candump LOG                the frames of a can-utils log, for a scenario\n"
    "  frostsorrel registers                  every register of a fresh model\n"
    "\n"
    "  frostsorrel SUBCOMMAND --help          more about one of them\n"
    "  frostsorrel --version                  the version\n"
    "\n"
    "A file named - is standard input. The exit status is 0 when all is done, 1 when the trace was refused or\n"
    "a check found a difference, and 2 when something could not be read, written or understood.\n";

/* Shows what one word asks for; a word behind it is an error. */
static int alone(int argc, char **argv, const char *words)
{
    return argc > 2 ? misused("", "%s takes no words, and %s is one", argv[1], argv[2]) : show_help(words);
}

int main(int argc, char **argv)
{
    signal(SIGPIPE, SIG_IGN); /* a reader that has gone, and a file that may not grow, are errors like a full disk */
    signal(SIGXFSZ, SIG_IGN); /* and not a sudden end */
    if (argc < 2) {
        fputs(help, stderr);
        return COMMAND_FAILED;
    }
    if (strcmp(argv[1], "--help") == 0 || strcmp(argv[1], "-h") == 0 || strcmp(argv[1], "help") == 0)
        return alone(argc, argv, help);
    if (strcmp(argv[1], "--version") == 0)
        return alone(argc, argv, "frostsorrel " FROSTSORREL_VERSION "\n");
    for (size_t i = 0; i < sizeof subcommands / sizeof subcommands[0]; i++)
        if (strcmp(argv[1], subcommands[i].name) == 0)
            return subcommands[i].run(argc - 1, argv + 1);
    return misused("", "no subcommand %s", argv[1]);
}
