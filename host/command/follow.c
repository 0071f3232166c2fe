/* frostsorrel follow [TRACE]: the listing of a trace that arrives in parts, each line as soon as its event is whole. */
#define _XOPEN_SOURCE 700 /* read beside C99 */

#include <ctype.h>
#include <stdlib.h>
#include <string.h>
#include <unistd.h>

#include "trace.h"

static const char help[] =
    "frostsorrel follow [TRACE]\n"
    "\n"
    "Prints the listing of a trace while it arrives, from a pipe, a serial line or a file; from standard input where none\n"
    "is named, or -. The lines are those of frostsorrel list. The first comes as soon as the input is open, that of an\n"
    "event with the event's last byte, and `end` when the input ends. A file is read as far as it goes; what is still\n"
    "being written to one comes through a pipe: tail -c +1 -f FILE | frostsorrel follow.\n"
    "\n"
    "Where a byte comes that no trace could have there, it prints `trace refused 8`, says on standard error what is wrong\n"
    "and where, and ends, whatever may still come. Bytes are counted from 0, and a count is named by its first. The lines\n"
    "of the events before it stand there then; list prints none of a trace that is refused. An input that ends too early\n"
    "is refused at its end.\n"
    "\n"
    "A serial line has to let every byte through as it is: stty -F /dev/ttyUSB0 raw -echo 115200, before anything comes.\n"
    "Its input ends when the other side hangs up. Where that never happens, end follow by a key (Ctrl-C): all lines are\n"
    "there then but `end`.\n"
    "\n"
    "The exit status is 0 after `end`, 1 where the trace was refused, and 2 where it could not be read to its end, or the\n"
    "lines could not be written; those before that stand.\n";

enum { PART_BYTES = 4096 }; /* at most; a part is what has come */

/* All that is kept of a trace while it arrives. */
struct follow {
    const char *path;
    size_t came; /* so many bytes, up to the part */
    uint8_t image[FROSTSORREL_IMAGE_BYTES], state[FROSTSORREL_STREAM_BYTES];
    uint8_t part[PART_BYTES], lines[PART_BYTES + FROSTSORREL_STREAM_FEED_BYTES]; /* room for what any call writes */
};

/* ---- what is wrong, from the state of the stream before it */

enum { FIRST_GATHERED = 16 }; /* behind the words of a state */

/* From 0 on, as trace.h counts them. */
static int section_of(const uint8_t *state)
{
    return (int)frostsorrel_stream_word(state, FROSTSORREL_STREAM_SECTION) - 1;
}

static uint32_t events_left(const uint8_t *state)
{
    return frostsorrel_stream_word(state, FROSTSORREL_STREAM_LEFT);
}

/* The number of the event that comes next, or of which a part has come. */
static unsigned long next_event(const uint8_t *state)
{
    return wide(frostsorrel_stream_word(state, FROSTSORREL_STREAM_STEPS) + 1);
}

static int is_typed(uint8_t byte)
{
    return isprint(byte) || isspace(byte);
}

static void say_count(struct text *t, const uint8_t *state, size_t at, uint8_t high)
{
    uint8_t low = state[FIRST_GATHERED];
    int section = section_of(state);

    say_over_counted(t, section, low | high << 8, at - 1);
    if (section == 0 && is_typed(low) && is_typed(high)) /* a text gets no further than this */
        say_it_is_text(t);
}

/* The state is that before the byte at fault, which is byte `at` of the trace. */
static void say_fault(struct text *t, const uint8_t *state, size_t at, uint8_t byte)
{
    int section = section_of(state);

    if (section >= SECTIONS)
        say_too_long(t, at);
    else if (events_left(state) == 0)
        say_count(t, state, at, byte);
    else
        text_add(t, "event %lu, at byte %lu, is operation %d; section %d holds %s", next_event(state),
                 (unsigned long)at, byte, section + 1, held_in(section));
}

static void say_too_short(struct text *t, const uint8_t *state, size_t length)
{
    uint32_t gathered = frostsorrel_stream_word(state, FROSTSORREL_STREAM_GATHERED);
    uint32_t missing = FROSTSORREL_EVENT_BYTES * events_left(state) - gathered;
    int section = section_of(state);

    if (events_left(state) == 0)
        say_no_count(t, section, length);
    else
        text_add(t, "too short: the file ends at byte %lu, %s event %lu; section %d (%s) takes %lu %s more",
                 (unsigned long)length, gathered ? "in the middle of" : "before", next_event(state), section + 1,
                 held_in(section), wide(missing), missing == 1 ? "byte" : "bytes");
}

/*
 * Finds the byte at fault in a part that was refused: the library is asked byte by byte. The state, which was that before
 * the part, becomes the one before this byte. It does not hang on the image, so that any will do.
 */
static size_t find_fault(uint8_t *state, const uint8_t *part, size_t length)
{
    uint8_t image[FROSTSORREL_IMAGE_BYTES] = {0}, lines[1 + FROSTSORREL_STREAM_FEED_BYTES];
    uint8_t next[FROSTSORREL_STREAM_BYTES];
    size_t at;

    memcpy(next, state, sizeof next);
    for (at = 0; at + 1 < length; at++) { /* if it is none of these, it is the last */
        if (frostsorrel_answer_refusal(frostsorrel_stream_feed(image, sizeof image, next, sizeof next, part + at, 1, lines,
                                                               sizeof lines)))
            break;
        memcpy(state, next, sizeof next);
    }
    return at;
}

static void complain_of_part(const struct follow *f, uint8_t *before, size_t length)
{
    size_t at = find_fault(before, f->part, length);
    struct text fault = {0};

    say_fault(&fault, before, f->came + at, f->part[at]);
    complain_of_fault(f->path, fault.at);
    text_free(&fault);
}

static void complain_of_end(const struct follow *f, const uint8_t *before)
{
    struct text fault = {0};

    say_too_short(&fault, before, f->came);
    complain_of_fault(f->path, fault.at);
    text_free(&fault);
}

/* ---- the calls */

/*
 * Shows what a call has written. Answers COMMAND_DIFFERS where the call refused the trace. With as much room as there is,
 * and a state that no one else has touched, no call has another reason to refuse.
 */
static int show_lines(const struct follow *f, uint64_t answer)
{
    uint32_t refusal = frostsorrel_answer_refusal(answer);

    if (put_at_once(f->lines, (size_t)frostsorrel_answer_count(answer)) != COMMAND_DONE)
        return COMMAND_FAILED;
    if (refusal != FROSTSORREL_ACCEPTED && refusal != FROSTSORREL_BAD_TRACE) {
        complain("a fault: the library does not go on with the trace: refusal %lu, %s", wide(refusal),
                 frostsorrel_refusal_reason(refusal));
        exit(COMMAND_DIFFERS);
    }
    return refusal == FROSTSORREL_ACCEPTED ? COMMAND_DONE : COMMAND_DIFFERS;
}

static int begin(struct follow *f)
{
    return show_lines(f, frostsorrel_stream_open(f->image, sizeof f->image, f->state, sizeof f->state, f->lines,
                                                 sizeof f->lines));
}

static int take_part(struct follow *f, size_t length)
{
    uint8_t before[FROSTSORREL_STREAM_BYTES];
    int status;

    memcpy(before, f->state, sizeof before);
    status = show_lines(f, frostsorrel_stream_feed(f->image, sizeof f->image, f->state, sizeof f->state, f->part, length,
                                                   f->lines, sizeof f->lines));
    if (status == COMMAND_DIFFERS)
        complain_of_part(f, before, length);
    f->came += length;
    return status;
}

static int end(struct follow *f)
{
    uint8_t before[FROSTSORREL_STREAM_BYTES];
    int status;

    memcpy(before, f->state, sizeof before);
    status = show_lines(f, frostsorrel_stream_close(f->image, sizeof f->image, f->state, sizeof f->state, f->lines,
                                                    sizeof f->lines));
    if (status == COMMAND_DIFFERS)
        complain_of_end(f, before);
    return status;
}

/* Takes what has come, and waits only where nothing has. */
static int take_parts(struct follow *f, int file)
{
    int status = begin(f);
    ssize_t got = 0;

    while (status == COMMAND_DONE && (got = read(file, f->part, sizeof f->part)) > 0)
        status = take_part(f, (size_t)got);
    if (status != COMMAND_DONE)
        return status;
    return got < 0 ? failed_at(name_of_input(f->path)) : end(f);
}

int command_follow(int argc, char **argv)
{
    static struct follow f;
    struct text nothing = {0};
    int file, status;

    if (asks_help(argc, argv))
        return show_help(help);
    f.path = argc < 2 ? "-" : only_file(argc, argv);
    if (!f.path || (file = open_input(f.path)) < 0)
        return COMMAND_FAILED;
    status = take_parts(&f, file);
    if (status != COMMAND_FAILED && text_show(&nothing, 0) != COMMAND_DONE) /* a full disk may show only now */
        status = COMMAND_FAILED;
    return status;
}
