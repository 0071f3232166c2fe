/* A trace file, taken apart (document 01, "The trace program"). */
#ifndef TRACE_H
#define TRACE_H

#include "command.h"
#include "frostsorrel.h"

enum { SECTIONS = 3 };

struct trace {
    struct bytes file; /* to be freed by the caller */
    struct section {
        const uint8_t *events; /* within the file */
        int count;
    } section[SECTIONS];
    int events;
    struct text fault; /* empty where the trace is well formed; else why not, in words for people */
};

/*
 * Reads a trace and takes it apart; "-" is standard input. Answers COMMAND_DONE, or COMMAND_FAILED after a
 * message, and then there is nothing to free. A malformed trace is one with a fault; it has no events.
 */
int read_trace(const char *path, struct trace *into);

/* Takes apart what stands in t->file already. */
void split_trace(struct trace *t);

void free_trace(struct trace *t);

/* Says on standard error why this is no trace. Answers COMMAND_DIFFERS. */
int complain_of_trace(const char *path, const struct trace *t);

/* Which operations may stand in a section, by its number from 0. */
int belongs(int section, uint8_t operation);

/* The same in words for people. */
const char *held_in(int section);

/*
 * Why bytes are no trace, for one that is read whole and for one that is followed. Sections are numbered from 0 here and
 * from 1 in the words; bytes are from 0 on.
 */
void say_no_count(struct text *t, int section, size_t length);
void say_over_counted(struct text *t, int section, int count, size_t at);
void say_too_long(struct text *t, size_t at);

/* To be added to these: the file is the scenario and not its trace. */
void say_it_is_text(struct text *t);

/* As complain_of_trace, in these words. */
int complain_of_fault(const char *path, const char *fault);

#endif
