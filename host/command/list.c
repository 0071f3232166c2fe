/* frostsorrel list TRACE: the listing of document 01, as the library writes it. */
#include <string.h>

#include "trace.h"

static const char help[] =
    "frostsorrel list TRACE\n"
    "\n"
    "Prints the listing of a trace; - is standard input. Each event has a line: its number, the refusal (0 means\n"
    "accepted), the mailbox that the answer names (32 means none) and how many mailboxes a frame was compared with.\n"
    "A file that is no trace prints `trace refused 8`; standard error says why, and the exit status is 1.\n";

static const char refused[] = "trace refused 8\n";

int command_list(int argc, char **argv)
{
    static uint8_t listing[FROSTSORREL_LISTING_BYTES];
    const char *path;
    struct trace trace;
    struct text t = {0};
    uint64_t length;
    int status;

    if (asks_help(argc, argv))
        return show_help(help);
    path = only_file(argc, argv);
    if (!path || read_trace(path, &trace) != COMMAND_DONE)
        return COMMAND_FAILED;
    length = frostsorrel_listing(trace.file.at, trace.file.length, listing, sizeof listing);
    text_bytes(&t, listing, (size_t)length);
    status = text_show(&t, 0);
    if (status == COMMAND_DONE && strcmp(t.at, refused) == 0)
        status = complain_of_trace(path, &trace);
    text_free(&t);
    free_trace(&trace);
    return status;
}
