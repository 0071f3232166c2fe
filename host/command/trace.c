#include "trace.h"

#include <stdlib.h>
#include <string.h>

static const char *const holds[SECTIONS] = {"mailbox writes", "register writes and options", "events"};

const char *held_in(int section)
{
    return holds[section];
}

int belongs(int section, uint8_t operation)
{
    switch (section) {
    case 0:
        return operation == FROSTSORREL_WRITE_MAILBOX;
    case 1:
        return operation == FROSTSORREL_WRITE_REGISTER || operation == FROSTSORREL_OPTIONS;
    default:
        return 1; /* unknown operations too: the run refuses them */
    }
}

/* ---- faults in words */

void say_no_count(struct text *t, int section, size_t length)
{
    text_add(t, "too short: the file ends at byte %lu, before the count of section %d (%s)", (unsigned long)length,
             section + 1, holds[section]);
}

void say_over_counted(struct text *t, int section, int count, size_t at)
{
    text_add(t, "over-counted: section %d (%s) counts %d events at byte %lu; %d are allowed", section + 1, holds[section],
             count, (unsigned long)at, FROSTSORREL_SECTION_EVENTS);
}

void say_too_long(struct text *t, size_t at)
{
    text_add(t, "too long: the third section ends at byte %lu, and more bytes follow", (unsigned long)at);
}

void say_it_is_text(struct text *t)
{
    text_add(t, "; this is text, and frostsorrel make makes a trace of a scenario");
}

/* ---- taking apart */

/* Goes by the operation byte alone. */
static void find_misplaced(struct trace *t, int section)
{
    const struct section *s = &t->section[section];

    for (int i = 0; i < s->count; i++) {
        const uint8_t *event = s->events + FROSTSORREL_EVENT_BYTES * i;

        if (belongs(section, event[0]))
            continue;
        text_add(&t->fault, "event %d of section %d, at byte %ld, is operation %d; this section holds %s", i + 1,
                 section + 1, (long)(event - t->file.at), event[0], holds[section]);
        return;
    }
}

/* Takes one section off at this byte. Answers where the next one begins; a fault ends it. */
static size_t take_section(struct trace *t, int section, size_t at)
{
    struct section *s = &t->section[section];
    size_t left = t->file.length - at, needed;

    if (left < 2) {
        say_no_count(&t->fault, section, t->file.length);
        return at;
    }
    s->events = t->file.at + at + 2;
    s->count = t->file.at[at] | t->file.at[at + 1] << 8;
    needed = (size_t)s->count * FROSTSORREL_EVENT_BYTES;
    if (s->count > FROSTSORREL_SECTION_EVENTS)
        say_over_counted(&t->fault, section, s->count, at);
    else if (left - 2 < needed)
        text_add(&t->fault, "too short: section %d (%s) counts %d %s %lu bytes; the file has %lu more", section + 1,
                 holds[section], s->count, s->count == 1 ? "event, which takes" : "events, which take",
                 (unsigned long)needed, (unsigned long)(left - 2));
    else
        find_misplaced(t, section);
    t->events += s->count;
    return at + 2 + needed;
}

void split_trace(struct trace *t)
{
    size_t at = 0;

    for (int section = 0; section < SECTIONS && !t->fault.length; section++)
        at = take_section(t, section, at);
    if (!t->fault.length && at < t->file.length)
        say_too_long(&t->fault, at);
    if (!t->fault.length)
        return;
    if (is_text(&t->file))
        say_it_is_text(&t->fault);
    memset(t->section, 0, sizeof t->section);
    t->events = 0;
}

int read_trace(const char *path, struct trace *into)
{
    memset(into, 0, sizeof *into);
    if (read_whole(path, FROSTSORREL_TRACE_BYTES, &into->file) != COMMAND_DONE)
        return COMMAND_FAILED;
    split_trace(into);
    return COMMAND_DONE;
}

void free_trace(struct trace *t)
{
    free(t->file.at);
    text_free(&t->fault);
}

int complain_of_fault(const char *path, const char *fault)
{
    complain("%s: no trace: %s", name_of_input(path), fault);
    return COMMAND_DIFFERS;
}

int complain_of_trace(const char *path, const struct trace *t)
{
    return complain_of_fault(path, t->fault.at);
}
