#include "lines.h"

#include <stdarg.h>
#include <stdio.h>
#include <stdlib.h>
#include <string.h>

enum { LONGEST_TEXT = 4 << 20, LONGEST_QUOTED = 60, MOST_TOLD = 20 };

/* ---- lines and their faults */

void start_lines(struct lines *l, const char *name, const struct bytes *text)
{
    static const char mark[] = "\xEF\xBB\xBF";

    memset(l, 0, sizeof *l);
    l->name = name;
    l->next = (const char *)text->at;
    l->end = l->next + text->length;
    if (text->length >= 3 && memcmp(l->next, mark, 3) == 0)
        l->next += 3;
}

int next_line(struct lines *l)
{
    const char *feed;

    if (l->next == l->end)
        return 0;
    feed = memchr(l->next, '\n', (size_t)(l->end - l->next));
    l->line = l->next;
    l->length = (size_t)((feed ? feed : l->end) - l->line);
    l->next = feed ? feed + 1 : l->end;
    l->number++;
    return 1;
}

void fault(struct lines *l, const char *format, ...)
{
    char message[1024];
    va_list words;

    if (l->told_at == l->number && l->faulty)
        return;
    l->told_at = l->number;
    if (++l->faulty > MOST_TOLD)
        return;
    va_start(words, format);
    vsnprintf(message, sizeof message, format, words);
    va_end(words);
    text_add(&l->faults, "%s:%d: %s\n", l->name, l->number ? l->number : 1, message);
}

int is_space(char c)
{
    return c == ' ' || c == '\t' || c == '\r';
}

int digit(char c)
{
    static const char digits[] = "0123456789ABCDEF0123456789abcdef";
    const char *at = memchr(digits, c, sizeof digits - 1);

    return at ? (int)(at - digits) % 16 : -1;
}

void add_quoted(struct text *t, const char *at, size_t length)
{
    for (size_t i = 0; i < length && i < LONGEST_QUOTED; i++)
        text_add(t, at[i] >= ' ' && at[i] <= '~' ? "%c" : "\\x%02X", (unsigned char)at[i]);
    if (length > LONGEST_QUOTED)
        text_add(t, "...");
}

/* ---- a whole text */

/* Answers COMMAND_DONE, or COMMAND_FAILED after a message, and then there is nothing to free. */
static int read_text(const char *path, struct bytes *into)
{
    if (read_whole(path, LONGEST_TEXT, into) != COMMAND_DONE)
        return COMMAND_FAILED;
    if (into->length == 0 || (into->length <= LONGEST_TEXT && is_text(into)))
        return COMMAND_DONE;
    complain(into->length > LONGEST_TEXT
                 ? "%s: longer than 4 MiB, so it is none of the texts that this reads"
                 : "%s: this is no text; a trace is for frostsorrel report, explain, diff, list or text",
             name_of_input(path));
    free(into->at);
    return COMMAND_FAILED;
}

static int tell_faults(const struct lines *l)
{
    if (!l->faulty)
        return COMMAND_DONE;
    fputs(l->faults.at, stderr);
    complain("%s: %d %s%s, nothing was written", l->name, l->faulty, l->faulty == 1 ? "fault" : "faults",
             l->faulty > MOST_TOLD ? ", the first of them above" : "");
    return COMMAND_FAILED;
}

int turn_text(const char *from, const char *to, void (*turn)(struct lines *text, struct text *out))
{
    struct bytes text;
    struct lines lines;
    struct text out = {0};
    int status;

    if (read_text(from, &text) != COMMAND_DONE)
        return COMMAND_FAILED;
    start_lines(&lines, name_of_input(from), &text);
    turn(&lines, &out);
    status = tell_faults(&lines);
    if (status == COMMAND_DONE)
        status = text_show(&out, to);
    text_free(&out);
    text_free(&lines.faults);
    free(text.at);
    return status;
}
