/* frostsorrel make SCENARIO [-o TRACE]: a trace made of a scenario. */
#define _XOPEN_SOURCE 700 /* stat beside C99 */

#include <string.h>
#include <sys/stat.h>

#include "scenario.h"

static const char help[] =
    "frostsorrel make SCENARIO [-o TRACE]\n"
    "\n"
    "Makes a trace of a scenario. Without -o the trace of NAME.txt is NAME.trace beside it, and that of standard\n"
    "input (-) goes to standard output; so does any with -o -. If a line is not understood nothing is written.\n"
    "\n"
    "A scenario is text, one event a line; # starts a comment. This is a whole one:\n"
    "\n"
    "  mailboxes:                              # mailbox writes alone; the model is in configuration\n"
    "  mailbox 2 sends 0x710 dlc 3 : 02 11 11\n"
    "  mailbox 5 receives 0x718\n"
    "  registers:                              # register writes and options alone\n"
    "  write BCR2 = 0x25                       # a bit timing, without which it stays in configuration\n"
    "  enable 2 5\n"
    "  events:                                 # anything\n"
    "  mode normal\n"
    "  send 2\n"
    "  start\n"
    "  outcome sent\n"
    "  frame 0x718 : 03 7F 11 22\n"
    "  release 5\n"
    "\n"
    "Sections come in this order; one that is left out is empty, and each takes at most 1,000 events. Lines for\n"
    "mailboxes and registers may stand in events: too. ID is an identifier, one number that is written with 0x: 0x0 to\n"
    "0x7FF, or `ext` and 0x0 to 0x1FFFFFFF. N is a mailbox. Data are bytes of two hexadecimal digits, without 0x. A DLC is\n"
    "0 to 15; beside data it is their number, or 8 to 15 beside eight, which is the most that a frame has:\n"
    "\n"
    "  mailbox N receives ID              word 0 = ID\n"
    "  mailbox N sends ID dlc 2 : 11 22   word 0 = ID, word 1 = DLC, words 2 and 3 as far as there are data;\n"
    "                                     `dlc` or the data may be left out\n"
    "  mailbox N replies ID ..            the same with RFH: it answers remote frames by itself\n"
    "  mailbox N word 0 = VALUE           any mailbox write, word 0 to 3\n"
    "  enable N ..                        two writes: MD, a bit for each mailbox that the lines above let receive,\n"
    "                                     and MC, a bit for each of these and of those enabled above; a mailbox\n"
    "                                     whose direction no line above says is refused\n"
    "  send N ..                          write TRS, with the bits of these mailboxes alone\n"
    "  abort N ..                         write TRR, as well\n"
    "  release N ..                       write RMP, as well\n"
    "  write REGISTER = VALUE             any register write, by name or number\n"
    "  options VALUE                      1 is MTOS, 2 is WUBA\n"
    "  frame ID dlc 2 : 11 22             a data frame from the bus, at most eight bytes; `dlc` may be left out\n"
    "  remote ID dlc 4                    a remote frame\n"
    "  start                              the controller may send\n"
    "  outcome sent | lost | error | unacknowledged\n"
    "                                     how the sending ended; `lost` is the arbitration, `unacknowledged` what a tool\n"
    "                                     alone on its bus meets: an error, but TEC stays once the unit is passive\n"
    "  receive error 1 | 8                an error seen as a receiver\n"
    "  recessive                          eleven recessive bits\n"
    "  tick                               of the time stamp counter\n"
    "  mode normal | configuration | sleep | suspend\n"
    "  reset\n"
    "  raw 0B 00 00 ..                    any 16 bytes\n"
    "\n"
    "`x 3` behind a line stands for three such lines. A VALUE has at most 32 bits: decimal or 0x.., also with <<\n"
    "and |, as in 1 << 31 | 0x20. Small and capital letters are the same.\n";

static int same_file(const char *a, const char *b)
{
    struct stat first, second;

    return stat(a, &first) == 0 && stat(b, &second) == 0 && first.st_dev == second.st_dev &&
           first.st_ino == second.st_ino;
}

/* SCENARIO, and where the trace goes, 0 if nothing says so. Answers COMMAND_DONE, or COMMAND_FAILED after a message. */
static int understand(int argc, char **argv, const char **scenario, const char **trace)
{
    *scenario = *trace = 0;
    for (int i = 1; i < argc; i++) {
        if (strcmp(argv[i], "-o") == 0) {
            if (*trace || ++i == argc)
                return misused("make", *trace ? "-o stands there twice" : "-o needs a file");
            *trace = argv[i];
        } else if (argv[i][0] == '-' && argv[i][1]) {
            return misused("make", "no option %s", argv[i]);
        } else if (*scenario) {
            return misused("make", "one scenario at a time: %s", argv[i]);
        } else {
            *scenario = argv[i];
        }
    }
    return *scenario ? COMMAND_DONE : misused("make", "no scenario is named");
}

/* NAME.trace for NAME.txt, and for NAME; - for -. */
static void name_trace(struct text *name, const char *scenario)
{
    size_t length = strlen(scenario);

    if (strcmp(scenario, "-") == 0) {
        text_add(name, "-");
        return;
    }
    if (length > 4 && strcmp(scenario + length - 4, ".txt") == 0)
        length -= 4;
    text_bytes(name, scenario, length);
    text_add(name, ".trace");
}

int command_make(int argc, char **argv)
{
    struct text name = {0};
    const char *scenario, *trace;
    int status;

    if (asks_help(argc, argv))
        return show_help(help);
    if (understand(argc, argv, &scenario, &trace) != COMMAND_DONE)
        return COMMAND_FAILED;
    name_trace(&name, scenario);
    if (!trace)
        trace = name.at;
    if (strcmp(scenario, "-") != 0 && same_file(scenario, trace))
        status = misused("make", "%s is the scenario: its trace needs another file", trace);
    else
        status = turn_text(scenario, trace, make_trace);
    text_free(&name);
    return status;
}
