/* A text that is read line by line, and what is wrong with its lines. */
#ifndef LINES_H
#define LINES_H

#include "command.h"

struct lines {
    const char *name;       /* the file's, for messages */
    const char *next, *end; /* what has not been read yet */
    const char *line;       /* the line that was read last: `length` characters, no line feed */
    size_t length;
    int number;          /* that line's, from 1 */
    struct text faults;  /* a message for each faulty line, the first ones of them */
    int faulty, told_at; /* how many lines are faulty, and the last of them */
};

/*
 * Reads a text, standard input for "-", turns its lines into something else, and writes that, to standard output where
 * the path is 0 or "-". One of more than 4 MiB, or with bytes of 0, is refused. Where a line is faulty the faults are
 * told and nothing is written. Answers an exit status.
 */
int turn_text(const char *from, const char *to, void (*turn)(struct lines *text, struct text *out));

/* Starts before the first line. A mark of the byte order in front is no part of it. */
void start_lines(struct lines *l, const char *name, const struct bytes *text);

/* Goes to the next line; answers 0 where there is none. */
int next_line(struct lines *l);

/* Notes what is wrong with this line. Only its first fault counts: what follows may come of that. */
PRINTF_LIKE(2, 3) void fault(struct lines *l, const char *format, ...);

/* Spaces within a line, the sign of a line end of other systems among them. */
int is_space(char c);

/* What a hexadecimal digit is worth, -1 for any other character. */
int digit(char c);

/* Adds words of a file to a message, cut short, and bytes that do not print as \xHH. */
void add_quoted(struct text *t, const char *at, size_t length);

#endif
