/* frostsorrel candump LOG: the frames of a can-utils log, for a scenario. */
#include <string.h>

#include "scenario.h"
#include "words.h"

static const char help[] =
    "frostsorrel candump LOG\n"
    "\n"
    "Prints the frames of a log as the third section of a scenario, each with its time in a comment. `frostsorrel\n"
    "make` takes it as it is, or behind the lines that you have: frostsorrel candump LOG >> SCENARIO. Lines are as\n"
    "candump -l or -L writes them; what stands before the frame, and R or T behind it, may be missing:\n"
    "\n"
    "  (1700000000.123456) can0 718#037F1122      a data frame, identifier 0x718\n"
    "  (1700000000.223456) can0 11234567#01       an identifier of eight digits is an extended one\n"
    "  (1700000000.323456) can0 718#R4            a remote frame, DLC 4; R alone is DLC 0\n"
    "  can0 718#1122334455667788_F                DLC 15: _9 to _F may follow eight data bytes, or R8\n"
    "\n"
    "or as candump shows them, with the DLC in braces if it is called with -8:\n"
    "\n"
    "  can0  718   [4]  03 7F 11 22\n"
    "  can0  718   {F}  11 22 33 44 55 66 77 88   DLC 15; without -8 it shows [8], the number of data bytes\n"
    "\n"
    "A DLC above 8 is there only if the interface keeps it: ip link set can0 type can cc-len8-dlc on\n"
    "\n"
    "Frames that the firmware itself has sent are in such a log as well; take those out that it sends in the scenario.\n"
    "A model has one bus, so frames of a second interface are refused; so is all that is no classic CAN frame (CAN FD,\n"
    "error frames), and more than 1,000 frames. Each such line is named with the reason, and then nothing is printed.\n";

/* What is left of a line. */
struct rest {
    const char *at, *end;
};

/* A run of characters that a space ends. */
struct part {
    const char *at;
    size_t length;
};

static struct part next_part(struct rest *r)
{
    struct part p;

    while (r->at < r->end && is_space(*r->at))
        r->at++;
    p.at = r->at;
    while (r->at < r->end && !is_space(*r->at))
        r->at++;
    p.length = (size_t)(r->at - p.at);
    return p;
}

static int is(struct part p, const char *word)
{
    return p.length == strlen(word) && memcmp(p.at, word, p.length) == 0;
}

/* ---- a frame of a log: ID#DATA */

static int all_digits(const char *at, size_t length)
{
    for (size_t i = 0; i < length; i++)
        if (digit(at[i]) < 0)
            return 0;
    return 1;
}

/* The identifier in its place; answers why there is none, or 0. */
static const char *take_identifier(uint32_t *identifier, const char *at, size_t length)
{
    uint32_t number = 0;

    if ((length != 3 && length != 8) || !all_digits(at, length))
        return "an identifier has three hexadecimal digits, or eight if it is extended";
    for (size_t i = 0; i < length; i++)
        number = 16 * number + (uint32_t)digit(at[i]);
    if (length == 8 && number & 0x20000000)
        return "this is an error frame, which no mailbox sees";
    if (number > (length == 3 ? 0x7FFu : 0x1FFFFFFFu))
        return "an identifier is at most 7FF, or 1FFFFFFF if it is extended";
    *identifier = length == 3 ? frostsorrel_standard(number) : frostsorrel_extended(number);
    return 0;
}

static const char misplaced_raw[] = "_9 to _F, a DLC above 8, may follow eight data bytes, or R8, and nothing else";

/*
 * Behind _ a log has what can-utils calls the raw DLC, one above 8, which the data before it do not say. Takes it off
 * their end, and answers it; 0 where there is no _, and -1 where something else stands behind that.
 */
static int take_raw(const char *data, size_t *length)
{
    const char *sign = memchr(data, '_', *length);
    size_t whole = *length;

    if (!sign)
        return 0;
    *length = (size_t)(sign - data);
    return whole - *length == 2 && digit(sign[1]) > FROSTSORREL_MOST_DATA_BYTES ? digit(sign[1]) : -1;
}

/* R, or R and the DLC; the raw one behind R8. */
static const char *take_remote(uint8_t *event, uint32_t identifier, const char *at, size_t length, int raw)
{
    int dlc = length == 2 ? digit(at[1]) : 0;

    if (length > 2 || dlc < 0 || dlc > FROSTSORREL_MOST_DATA_BYTES)
        return "behind R stands a DLC of 0 to 8, or nothing";
    if (raw && dlc != FROSTSORREL_MOST_DATA_BYTES)
        return misplaced_raw;
    frostsorrel_remote_frame(event, identifier, (uint8_t)(raw ? raw : dlc));
    return 0;
}

/* The DLC is the number of bytes, but for a raw one behind eight. */
static const char *take_data(uint8_t *event, uint32_t identifier, const char *at, size_t length, int raw)
{
    uint8_t data[FROSTSORREL_MOST_DATA_BYTES];
    size_t count = length / 2;

    if (!all_digits(at, length))
        return "data are hexadecimal digits alone";
    if (length % 2)
        return "the data have an odd number of digits";
    if (count > FROSTSORREL_MOST_DATA_BYTES)
        return "a frame has at most eight data bytes";
    if (raw && count != FROSTSORREL_MOST_DATA_BYTES)
        return misplaced_raw;
    for (size_t i = 0; i < count; i++)
        data[i] = (uint8_t)(16 * digit(at[2 * i]) + digit(at[2 * i + 1]));
    frostsorrel_data_frame(event, identifier, (uint8_t)(raw ? (size_t)raw : count), data);
    return 0;
}

static const char fd[] = "this is a CAN FD frame; the model has classic CAN alone";

/* Answers what is wrong with it, or 0. */
static const char *take_logged(uint8_t *event, struct part frame)
{
    const char *sign = memchr(frame.at, '#', frame.length), *data = sign + 1, *wrong;
    size_t left = frame.length - (size_t)(data - frame.at);
    uint32_t identifier = 0;
    int raw;

    if (left && *data == '#')
        return fd;
    wrong = take_identifier(&identifier, frame.at, (size_t)(sign - frame.at));
    if (wrong)
        return wrong;
    raw = take_raw(data, &left);
    if (raw < 0)
        return misplaced_raw;
    if (left && (*data == 'R' || *data == 'r'))
        return take_remote(event, identifier, data, left, raw);
    return take_data(event, identifier, data, left, raw);
}

/* ---- a frame of the screen: ID [NUMBER OF BYTES] or ID {DLC}, and its bytes, or `remote request` */

/* [0] to [8], or {0} to {F} of candump -8; -1 for anything else. */
static int shown_dlc(struct part p)
{
    int dlc = p.length == 3 ? digit(p.at[1]) : -1;

    if (dlc < 0 || (p.at[0] == '{' && p.at[2] == '}'))
        return dlc;
    return p.at[0] == '[' && p.at[2] == ']' && dlc <= FROSTSORREL_MOST_DATA_BYTES ? dlc : -1;
}

/* The bytes that go with this DLC, each apart; the first of them is taken from the line already. */
static const char *take_shown_data(uint8_t *event, uint32_t identifier, int dlc, struct part p, struct rest *rest)
{
    char digits[2 * FROSTSORREL_MOST_DATA_BYTES];
    int count = data_bytes_of((uint32_t)dlc);
    size_t length = 0;

    for (; p.length == 2 && length < sizeof digits; p = next_part(rest), length += 2)
        memcpy(digits + length, p.at, 2);
    if (p.length || (int)length != 2 * count)
        return dlc > count ? "behind a DLC above 8 stand eight data bytes, or `remote request`"
                           : "these are not as many data bytes as the number before them says, or not data bytes alone";
    return take_data(event, identifier, digits, length, dlc > count ? dlc : 0);
}

static const char *take_shown(uint8_t *event, struct part frame, struct rest *rest)
{
    struct part shown = next_part(rest), p = next_part(rest);
    int dlc = shown_dlc(shown);
    uint32_t identifier = 0;
    const char *wrong = take_identifier(&identifier, frame.at, frame.length);

    if (wrong)
        return wrong;
    if (shown.length == 4 && *shown.at == '[')
        return fd;
    if (dlc < 0)
        return "between the identifier and the data stands [0] to [8], or {0} to {F}";
    if (!is(p, "remote") || !is(next_part(rest), "request"))
        return take_shown_data(event, identifier, dlc, p, rest);
    frostsorrel_remote_frame(event, identifier, (uint8_t)dlc);
    return 0;
}

/* ---- lines: (TIME) INTERFACE FRAME R|T */

struct log {
    struct lines *lines;
    struct part time, interface, frame; /* of this line; of no characters where they are missing */
    struct part bus;                    /* the interface of the first frame */
    int frames;
};

static int has_sign(struct part p)
{
    return p.length && memchr(p.at, '#', p.length) != 0;
}

static int shows_dlc(struct rest rest)
{
    struct part next = next_part(&rest);

    return next.length && (*next.at == '[' || *next.at == '{');
}

static void take_front(struct log *log, struct rest *rest)
{
    static const struct part missing;
    struct part p = next_part(rest);

    log->time = log->interface = missing;
    if (p.length && *p.at == '(') {
        log->time = p;
        p = next_part(rest);
    }
    if (!has_sign(p)) {
        log->interface = p;
        p = next_part(rest);
    }
    log->frame = p;
}

/* Nothing but a direction stands behind the frame, and all frames are of one bus. Answers what is wrong, or 0. */
static const char *take_end(struct log *log, struct rest *rest)
{
    struct part p = next_part(rest);

    if (is(p, "R") || is(p, "T"))
        p = next_part(rest);
    if (p.length)
        return "behind the frame stands R, T or nothing";
    if (++log->frames > FROSTSORREL_SECTION_EVENTS)
        return "a section takes 1,000 events: cut the log here, and make a trace of each part";
    if (log->frames == 1)
        log->bus = log->interface;
    if (log->interface.length != log->bus.length ||
        (log->bus.length && memcmp(log->interface.at, log->bus.at, log->bus.length) != 0))
        return "this is another interface than above; a model has one bus";
    return 0;
}

static const char *take_line(struct log *log, uint8_t *event, struct rest rest)
{
    const char *wrong = "a frame is an identifier, # and its data";

    take_front(log, &rest);
    if (has_sign(log->frame))
        wrong = take_logged(event, log->frame);
    else if (shows_dlc(rest))
        wrong = take_shown(event, log->frame, &rest);
    return wrong ? wrong : take_end(log, &rest);
}

static void add_part(struct text *t, struct part p)
{
    text_add(t, p.length ? " " : "");
    add_quoted(t, p.at, p.length);
}

static void write_line(struct text *scenario, const struct log *log, const uint8_t *event)
{
    struct text line = {0}, comment = {0};

    write_event(&line, event);
    add_part(&comment, log->time);
    add_part(&comment, log->interface);
    if (comment.length)
        write_comment(&line, comment.at);
    text_add(scenario, "%s\n", line.at);
    text_free(&line);
    text_free(&comment);
}

static void read_line(struct log *log, struct text *scenario)
{
    struct rest rest = {log->lines->line, log->lines->line + log->lines->length}, blank = rest;
    uint8_t event[FROSTSORREL_EVENT_BYTES];
    struct text line = {0};
    const char *wrong;

    if (next_part(&blank).length == 0)
        return;
    wrong = take_line(log, event, rest);
    if (wrong) {
        add_quoted(&line, rest.at, log->lines->length);
        fault(log->lines, "found \"%s\"; %s", line.at, wrong);
        text_free(&line);
    } else {
        write_line(scenario, log, event);
    }
}

void read_candump(struct lines *lines, struct text *scenario)
{
    struct log log = {.lines = lines};

    text_add(scenario, "events:\n");
    while (log.frames <= FROSTSORREL_SECTION_EVENTS && next_line(lines)) /* that there are more is said once */
        read_line(&log, scenario);
}

int command_candump(int argc, char **argv)
{
    const char *path;

    if (asks_help(argc, argv))
        return show_help(help);
    path = only_file(argc, argv);
    return path ? turn_text(path, 0, read_candump) : COMMAND_FAILED;
}
