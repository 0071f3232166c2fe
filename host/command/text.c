/* frostsorrel text TRACE: the scenario that makes a trace. */
#include <string.h>

#include "scenario.h"
#include "words.h"

static const char help[] =
    "frostsorrel text TRACE\n"
    "\n"
    "Prints the scenario of a trace: `frostsorrel make` makes the same bytes of it. - is standard input. Events that\n"
    "the language has no line for stand there as `raw` and their 16 bytes. Equal events in a row are one line, as in\n"
    "`tick x 3`. A file that is no trace is told on standard error, and the exit status is 1.\n"
    "`frostsorrel make --help` describes the language.\n";

/* ---- events that have a line */

/* The event that has a line and comes closest to this one: only bytes that its operation uses, in their bounds. */
static void closest(uint8_t *into, const uint8_t *event)
{
    uint32_t value = frostsorrel_event_value(event), identifier = frostsorrel_identifier(value);
    uint8_t operation = event[0], target = event[1];
    uint8_t dlc = target <= FROSTSORREL_HIGHEST_DLC ? target : FROSTSORREL_HIGHEST_DLC;

    identifier = value & FROSTSORREL_IDE ? frostsorrel_extended(identifier) : frostsorrel_standard(identifier);
    if (operation == FROSTSORREL_WRITE_REGISTER)
        frostsorrel_write_register(into, is_register(target) ? target : FROSTSORREL_MC, value);
    else if (operation == FROSTSORREL_WRITE_MAILBOX)
        frostsorrel_write_mailbox(into, target % FROSTSORREL_MAILBOXES, event[2] % 4, value);
    else if (operation == FROSTSORREL_FRAME && value & FROSTSORREL_FRAME_RTR)
        frostsorrel_remote_frame(into, identifier, dlc);
    else if (operation == FROSTSORREL_FRAME)
        frostsorrel_data_frame(into, identifier, dlc, event + 8);
    else if (operation == FROSTSORREL_OUTCOME)
        frostsorrel_outcome(into, target % OUTCOMES);
    else if (operation == FROSTSORREL_RECEIVE_ERROR)
        frostsorrel_event(into, operation, 0, 0, value == 1 ? 1 : 8);
    else if (operation == FROSTSORREL_MODE || operation == FROSTSORREL_OPTIONS)
        frostsorrel_event(into, operation, 0, 0, value % 4);
    else
        frostsorrel_event(into, operation <= FROSTSORREL_RESET ? operation : FROSTSORREL_RESET, 0, 0, 0);
}

static void write_mailboxes(struct text *t, const char *form, uint32_t bits)
{
    text_add(t, "%s", form);
    for (int n = 0; n < FROSTSORREL_MAILBOXES; n++)
        if (bits >> n & 1)
            text_add(t, " %d", n);
}

static void write_register(struct text *t, uint8_t number, uint32_t value)
{
    if (number == FROSTSORREL_TRS && value)
        write_mailboxes(t, "send", value);
    else if (number == FROSTSORREL_TRR && value)
        write_mailboxes(t, "abort", value);
    else if (number == FROSTSORREL_RMP && value)
        write_mailboxes(t, "release", value);
    else
        text_add(t, "write %s = 0x%lX", frostsorrel_register_name(number), wide(value));
}

/* The number of data bytes says the DLC of a data frame, but not one above eight. */
static void write_frame(struct text *t, const uint8_t *event)
{
    uint32_t value = frostsorrel_event_value(event);
    int is_remote = (value & FROSTSORREL_FRAME_RTR) != 0, count = frame_bytes(event);

    text_add(t, is_remote ? "remote " : "frame ");
    say_identifier(t, value);
    if (is_remote || event[1] > count)
        text_add(t, " dlc %d", event[1]);
    if (count)
        text_add(t, " :");
    say_bytes(t, event + 8, count);
}

static void write_known(struct text *t, const uint8_t *event)
{
    uint32_t value = frostsorrel_event_value(event);

    switch (event[0]) {
    case FROSTSORREL_WRITE_REGISTER: write_register(t, event[1], value); break;
    case FROSTSORREL_WRITE_MAILBOX: text_add(t, "mailbox %d word %d = 0x%08lX", event[1], event[2], wide(value)); break;
    case FROSTSORREL_FRAME: write_frame(t, event); break;
    case FROSTSORREL_START: text_add(t, "start"); break;
    case FROSTSORREL_OUTCOME: text_add(t, "outcome %s", outcome_words[event[1]]); break;
    case FROSTSORREL_RECEIVE_ERROR: text_add(t, "receive error %lu", wide(value)); break;
    case FROSTSORREL_ELEVEN_RECESSIVE: text_add(t, "recessive"); break;
    case FROSTSORREL_TICK: text_add(t, "tick"); break;
    case FROSTSORREL_MODE: text_add(t, "mode %s", frostsorrel_mode_name(value)); break;
    case FROSTSORREL_OPTIONS: text_add(t, "options %lu", wide(value)); break;
    case FROSTSORREL_RESET: text_add(t, "reset"); break;
    }
}

void write_event(struct text *scenario, const uint8_t *event)
{
    uint8_t known[FROSTSORREL_EVENT_BYTES];

    closest(known, event);
    if (memcmp(known, event, sizeof known) == 0) {
        write_known(scenario, event);
    } else {
        text_add(scenario, "raw");
        say_bytes(scenario, event, FROSTSORREL_EVENT_BYTES);
    }
}

void write_comment(struct text *line, const char *comment)
{
    int room = 40 - (int)line->length;

    text_add(line, "%*s #%s", room > 0 ? room : 0, "", comment);
}

/* ---- the whole */

/* How many events from this one on are equal to it. */
static int run_length(const uint8_t *event, int left)
{
    int count = 1;

    while (count < left && memcmp(event, event + FROSTSORREL_EVENT_BYTES * count, FROSTSORREL_EVENT_BYTES) == 0)
        count++;
    return count;
}

/* What the value of a write means: what its words have behind the colon. */
static void write_meaning(struct text *line, const uint8_t *event)
{
    struct text words = {0};
    const char *colon;

    say_event(&words, event);
    colon = strchr(words.at, ':');
    if (strchr(line->at, '=') && colon)
        write_comment(line, colon + 1);
    text_free(&words);
}

static void write_section(struct text *scenario, const struct section *s)
{
    for (int i = 0, count; i < s->count; i += count) {
        const uint8_t *event = s->events + FROSTSORREL_EVENT_BYTES * i;
        struct text line = {0};

        count = run_length(event, s->count - i);
        write_event(&line, event);
        if (count > 1)
            text_add(&line, " x %d", count);
        write_meaning(&line, event);
        text_add(scenario, "%s\n", line.at);
        text_free(&line);
    }
}

void write_scenario(struct text *scenario, const struct trace *t)
{
    text_add(scenario, "mailboxes:\n");
    write_section(scenario, &t->section[0]);
    text_add(scenario, "\nregisters:\n");
    write_section(scenario, &t->section[1]);
    text_add(scenario, "\nevents:\n");
    write_section(scenario, &t->section[2]);
}

int command_text(int argc, char **argv)
{
    struct trace t;
    struct text scenario = {0};
    const char *path;
    int status;

    if (asks_help(argc, argv))
        return show_help(help);
    path = only_file(argc, argv);
    if (!path || read_trace(path, &t) != COMMAND_DONE)
        return COMMAND_FAILED;
    if (t.fault.length) {
        status = complain_of_trace(path, &t);
    } else {
        write_scenario(&scenario, &t);
        status = text_show(&scenario, 0);
    }
    text_free(&scenario);
    free_trace(&t);
    return status;
}
