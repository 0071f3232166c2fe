/*
 * The scenario language on drawn texts: test_scenario [ROUNDS [SEED]].
 *
 * A drawn trace, bad events among its own, goes through `text` and `make` and comes back byte for byte. Damaged
 * scenarios and logs are either refused with a fault or make a trace that is well formed and comes back as well.
 * host/test_sanitized runs it under the compiler's sanitizers.
 */
#include <stdlib.h>

#include "check.h"
#include "command/scenario.h"
#include "events.h"
#include "generate.h"
#include "image.h"
#include "reference.h"

#define COUNT(table) (sizeof(table) / sizeof((table)[0]))

/* ---- traces */

static int one_in(uint32_t n)
{
    return draw(n) == 0;
}

/* Any bytes behind an operation; a likely event; one of any kind; either with a byte changed. */
static void draw_event(uint8_t *event, const uint8_t *image, int section)
{
    uint8_t drawn[LONGEST_EVENT];

    do {
        if (one_in(8))
            draw_bytes(drawn, EVENT_BYTES);
        else
            (one_in(2) ? likely_event : varied_event)(drawn, image);
        if (one_in(8))
            drawn[draw(EVENT_BYTES)] = (uint8_t)draw(256);
        if (section == 0 && one_in(2))
            drawn[0] = FROSTSORREL_WRITE_MAILBOX;
    } while (!belongs(section, drawn[0]));
    memcpy(event, drawn, EVENT_BYTES);
}

static void draw_section(struct text *trace, uint8_t *image, int section)
{
    uint32_t count = one_in(100) ? FROSTSORREL_SECTION_EVENTS - draw(2) : draw(one_in(10) ? 100 : 12);
    uint8_t event[EVENT_BYTES], low_first[2] = {(uint8_t)count, (uint8_t)(count >> 8)};

    text_bytes(trace, low_first, sizeof low_first);
    for (uint32_t i = 0; i < count; i++) {
        if (i == 0 || !one_in(6)) /* else the one before once more */
            draw_event(event, image, section);
        reference_step(image, BYTES, event, EVENT_BYTES);
        text_bytes(trace, event, EVENT_BYTES);
    }
}

static void draw_trace(struct text *trace)
{
    uint8_t image[BYTES];

    put_fresh(image);
    for (int section = 0; section < SECTIONS; section++)
        draw_section(trace, image, section);
}

/* ---- there and back */

/* Memory of just this length, so that a sanitizer sees a step behind it. To be freed by the caller. */
static struct bytes copy_of(const struct text *from)
{
    struct bytes b = {malloc(from->length ? from->length : 1), from->length};

    if (!b.at)
        exit(2);
    memcpy(b.at, from->at, from->length);
    return b;
}

/* The sections of a trace; answers whether it is one. */
static int take_apart(struct trace *t, const struct text *from)
{
    memset(t, 0, sizeof *t);
    t->file = copy_of(from);
    split_trace(t);
    return t->fault.length == 0;
}

/* Makes the trace of a scenario. Answers whether it has no faults. */
static int makes(const struct text *scenario, struct text *trace)
{
    struct bytes text = copy_of(scenario);
    struct lines lines;
    int well;

    start_lines(&lines, "drawn", &text);
    make_trace(&lines, trace);
    well = !lines.faulty;
    check(well == !lines.faults.length, "a fault without a message, or the other way round");
    text_free(&lines.faults);
    free(text.at);
    return well;
}

static struct text written; /* what text wrote of the first traces */

static void comes_back(const char *what, const struct text *trace)
{
    struct text scenario = {0}, again = {0};
    struct trace t;

    check(take_apart(&t, trace), "%s: no trace", what);
    write_scenario(&scenario, &t);
    check(makes(&scenario, &again), "%s: what text writes is not understood:\n%s", what, scenario.at);
    check(again.length == trace->length && memcmp(again.at, trace->at, again.length) == 0,
          "%s: another trace comes back:\n%s", what, scenario.at);
    text_add(&written, "%s", written.length < 1000000 ? scenario.at : "");
    text_free(&scenario);
    text_free(&again);
    free_trace(&t);
}

/* Each form that text writes has been met, or coming back would say little. */
static void met(void)
{
    static const char *const forms[] = {
        "mailbox", "write", "send", "abort", "release", "options", "frame 0x", "frame ext", "remote 0x",
        "remote ext", "start", "outcome sent", "outcome lost", "outcome error", "outcome unacknowledged",
        "receive error 1", "receive error 8", "recessive", "tick", "mode normal", "mode suspend", "reset", "raw"};

    for (size_t i = 0; i < COUNT(forms); i++) {
        struct text line = {0};

        text_add(&line, "\n%s", forms[i]);
        check(strstr(written.at, line.at) != 0, "no drawn trace has a line %s", forms[i]);
        text_free(&line);
    }
    for (int dlc = 9; dlc <= 15; dlc++) { /* of a data frame: in what text writes, no other line has both */
        struct text words = {0};

        text_add(&words, " dlc %d :", dlc);
        check(strstr(written.at, words.at) != 0, "no drawn trace has a data frame of DLC %d", dlc);
        text_free(&words);
    }
    check(strstr(written.at, " x ") != 0, "no drawn trace has equal events in a row");
}

static void drawn_traces(unsigned long rounds)
{
    for (unsigned long i = 0; i < rounds; i++) {
        struct text trace = {0};

        draw_trace(&trace);
        comes_back("a drawn trace", &trace);
        text_free(&trace);
    }
    met();
}

/* ---- damage */

static const char scenario[] =
    "mailboxes:\nmailbox 2 sends 0x710 dlc 3 : 02 11 11\nmailbox 5 receives 0x718 # answers\n"
    "mailbox 7 replies ext 0x1FFFFFFF : 0102030405060708\nmailbox 9 word 0 = 1 << 31 | 0x20 x 2\n"
    "mailbox 8 sends 0x711 dlc 15 : 0102030405060708\n"
    "registers:\nwrite bcr2 = 0x25\nenable 2 5\noptions 3\nwrite 32 = 4294967295\n"
    "events:\nmode normal\nsend 2 7\nstart\noutcome sent\nstart\noutcome unacknowledged\n"
    "frame 0x718 : 03 7F 11 22\nframe ext 0x1 x 3\nframe 0x718 dlc 15 : 11 22 33 44 55 66 77 88\n"
    "remote 0x100 dlc 2\nremote 0x100 dlc 15\nrelease 5\nabort 2\ntick x 700\nrecessive x 128\nreceive error 8\nreset\n"
    "raw 0b 00 00 00 00 00 00 00 00 00 00 00 00 00 00 00\n";

static const char log_lines[] =
    "(1700000000.123456) can0 718#037F1122\n(1700000000.2) can0 11234567#01 R\n(1.3) can0 718#R4\n"
    "(1.3) can0 718#R\n\n(1.4) can0 7FF#1122334455667788 T\n  can0  718   [4]  03 7F 11 22\n"
    " (012.3)  can0  11234567   [3]  remote request\n(1.5) can0 718#1122334455667788_F\n(1.6) can0 718#R8_9\n"
    "  can0  718   {F}  11 22 33 44 55 66 77 88\n  can0  718   {9}  remote request\n";

/* A character that means something, or any. */
static char draw_character(void)
{
    static const char likely[] = " \n\t\r#:=|<<xX0123456789abcdefABCDEF()[]{}_RT";

    return one_in(6) ? (char)draw(256) : likely[draw(sizeof likely - 1)];
}

/* So many places changed: a character, one less, one more, or a piece of it once more somewhere else. */
static void draw_damaged(struct text *t, const char *text, size_t length)
{
    char bytes[4096];

    memcpy(bytes, text, length);
    for (uint32_t turns = 1 + draw(6); turns > 0 && length > 1; turns--) {
        size_t at = draw((uint32_t)length), from = draw((uint32_t)length), size = draw(40);

        switch (draw(4)) {
        case 0: bytes[at] = draw_character(); break;
        case 1: memmove(bytes + at, bytes + at + 1, --length - at); break;
        case 2:
            memmove(bytes + at + 1, bytes + at, length++ - at);
            bytes[at] = draw_character();
            break;
        default:
            size = size < length - from ? size : length - from;
            size = size < length - at ? size : length - at;
            memmove(bytes + at, bytes + from, size);
        }
    }
    text_bytes(t, bytes, one_in(10) ? draw((uint32_t)length) : length);
}

static void damaged_scenarios(unsigned long rounds)
{
    unsigned long understood = 0;

    for (unsigned long i = 0; i < rounds; i++) {
        struct text damaged = {0}, trace = {0};

        draw_damaged(&damaged, scenario, sizeof scenario - 1);
        if (makes(&damaged, &trace)) {
            understood++;
            comes_back("a damaged scenario", &trace);
        }
        text_free(&damaged);
        text_free(&trace);
    }
    check(understood > rounds / 100 && understood < rounds / 2, "of %lu damaged scenarios %lu are understood", rounds,
          understood);
}

static int filled_lines(const struct text *t)
{
    int count = 0;
    size_t since = 0;

    for (size_t i = 0; i <= t->length; i++) {
        if (i < t->length && t->at[i] != '\n') {
            since += !is_space(t->at[i]);
            continue;
        }
        count += since > 0;
        since = 0;
    }
    return count;
}

/* A log that is taken gives a frame for each line that is not blank, and no other event. */
static void frames_of(const struct text *log, const struct text *frames)
{
    struct text trace = {0};
    struct trace t;

    check(makes(frames, &trace), "what candump writes is not understood:\n%s", frames->at);
    check(take_apart(&t, &trace), "what candump writes makes no trace");
    check(t.section[2].count == filled_lines(log) && (long)trace.length == 6 + EVENT_BYTES * (long)t.section[2].count,
          "%d lines, %d frames", filled_lines(log), t.section[2].count);
    for (int i = 0; i < t.section[2].count; i++)
        check(t.section[2].events[EVENT_BYTES * i] == FROSTSORREL_FRAME, "candump writes an event that is no frame");
    text_free(&trace);
    free_trace(&t);
}

static void damaged_logs(unsigned long rounds)
{
    unsigned long understood = 0;

    for (unsigned long i = 0; i < rounds; i++) {
        struct text damaged = {0}, frames = {0};
        struct bytes text;
        struct lines lines;

        draw_damaged(&damaged, log_lines, sizeof log_lines - 1);
        text = copy_of(&damaged);
        start_lines(&lines, "drawn", &text);
        read_candump(&lines, &frames);
        if (!lines.faulty) {
            understood++;
            frames_of(&damaged, &frames);
        }
        text_free(&lines.faults);
        free(text.at);
        text_free(&damaged);
        text_free(&frames);
    }
    check(understood > rounds / 100 && understood < rounds / 2, "of %lu damaged logs %lu are understood", rounds,
          understood);
}

int main(int argc, char **argv)
{
    unsigned long rounds = argc > 1 ? strtoul(argv[1], 0, 10) : 2000;
    struct text whole = {0}, trace = {0};

    seed_generator(argc > 2 ? strtoul(argv[2], 0, 10) : 1);
    text_add(&whole, "%s", scenario);
    check(makes(&whole, &trace), "the scenario is not understood");
    comes_back("the scenario", &trace);
    drawn_traces(rounds);
    damaged_scenarios(2 * rounds);
    damaged_logs(2 * rounds);
    text_free(&whole);
    text_free(&trace);
    text_free(&written);
    return report("host scenario");
}
