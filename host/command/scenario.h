/* The scenario language: a trace as a text that people write. `frostsorrel make --help` describes it. */
#ifndef COMMAND_SCENARIO_H
#define COMMAND_SCENARIO_H

#include "lines.h"
#include "trace.h"

/* The outcomes there are, and how the language calls them, by their numbers. */
enum { OUTCOMES = FROSTSORREL_UNACKNOWLEDGED + 1 };
extern const char *const outcome_words[OUTCOMES];

/* Makes a trace of a scenario. The trace is for nothing where the lines have faults. */
void make_trace(struct lines *scenario, struct text *trace);

/* The scenario that makes this trace, which has no fault. */
void write_scenario(struct text *scenario, const struct trace *t);

/* The line of one event, without its line feed. */
void write_event(struct text *scenario, const uint8_t *event);

/* A comment behind that, which begins with a space; where it can, in the column of the others. */
void write_comment(struct text *line, const char *comment);

/* The frames of a log of can-utils, as the third section of a scenario. For nothing where the lines have faults. */
void read_candump(struct lines *log, struct text *scenario);

#endif
