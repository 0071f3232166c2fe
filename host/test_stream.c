/*
 * Calls frostsorrel_stream_open, _feed and _close as a C host does, and holds them to request e) of document 02:
 * test_stream [NAME], which the last line calls it by.
 */
#include "check.h"
#include "events.h"
#include "frostsorrel.h"
#include "image.h"
#include "stack.h"
#include "states.h"

#define STATE FROSTSORREL_STREAM_BYTES
#define GUARD 17 /* odd, so that nothing stands at an even address */
#define LONGEST_PART FROSTSORREL_TRACE_BYTES
#define LONGEST_TEXT (FROSTSORREL_TRACE_BYTES + 100)
#define LONGEST_IMAGE (2 * BYTES) /* lengths are tried from 0 to this */
#define LONGEST_STATE (2 * STATE)

/* Mailbox 32, a refusal, and how many bytes were written. */
#define ANSWER(refusal, bytes) (8192 + (uint64_t)(refusal) + 65536 * (uint64_t)(bytes))

#define HEADER "step code mailbox count\n"
#define REFUSAL "trace refused 8\n"

/* ---- calls that are checked */

enum calling { OPENING, FEEDING, CLOSING };

struct call {
    enum calling calling;
    const uint8_t *part;
    size_t part_len, text_len, image_len, state_len;
};

/* What the caller has of a stream. */
struct stream {
    uint8_t image[BYTES], state[STATE];
};

static uint32_t section_of(const struct stream *s)
{
    return frostsorrel_stream_word(s->state, FROSTSORREL_STREAM_SECTION);
}

static uint32_t steps_of(const struct stream *s)
{
    return frostsorrel_stream_word(s->state, FROSTSORREL_STREAM_STEPS);
}

static void put_section(struct stream *s, uint32_t section)
{
    put(s->state, FROSTSORREL_STREAM_SECTION, section);
}

static struct call opening(size_t text_len)
{
    struct call c = {OPENING, NULL, 0, text_len, BYTES, STATE};

    return c;
}

static struct call feeding(const uint8_t *part, size_t part_len, size_t text_len)
{
    struct call c = {FEEDING, part, part_len, text_len, BYTES, STATE};

    return c;
}

static struct call closing(size_t text_len)
{
    struct call c = {CLOSING, NULL, 0, text_len, BYTES, STATE};

    return c;
}

/* What is lent, and the bytes around it. */
static struct lent {
    uint8_t image[LONGEST_IMAGE + 2 * GUARD], state[LONGEST_STATE + 2 * GUARD], part[LONGEST_PART + 2 * GUARD],
        text[LONGEST_TEXT + 2 * GUARD];
} lent, before;

static uint8_t pattern[LONGEST_TEXT + 2 * GUARD];

static void put_pattern(void)
{
    for (size_t i = 0; i < sizeof pattern; i++)
        pattern[i] = (uint8_t)(37 * i + 11);
}

static void lend(const struct stream *s, const struct call *c)
{
    memcpy(lent.image, pattern, sizeof lent.image);
    memcpy(lent.state, pattern, sizeof lent.state);
    memcpy(lent.part, pattern, c->part_len + 2 * GUARD);
    memcpy(lent.text, pattern, c->text_len + 2 * GUARD);
    memcpy(lent.image + GUARD, s->image, BYTES);
    memcpy(lent.state + GUARD, s->state, STATE);
    if (c->part_len > 0)
        memcpy(lent.part + GUARD, c->part, c->part_len);
    memcpy(before.image, lent.image, sizeof lent.image);
    memcpy(before.state, lent.state, sizeof lent.state);
    memcpy(before.part, lent.part, c->part_len + 2 * GUARD);
    memcpy(before.text, lent.text, c->text_len + 2 * GUARD);
}

static uint64_t call(const struct call *c)
{
    uint8_t *image = lent.image + GUARD, *state = lent.state + GUARD, *text = lent.text + GUARD;

    switch (c->calling) {
    case OPENING: return frostsorrel_stream_open(image, c->image_len, state, c->state_len, text, c->text_len);
    case CLOSING: return frostsorrel_stream_close(image, c->image_len, state, c->state_len, text, c->text_len);
    default:
        return frostsorrel_stream_feed(image, c->image_len, state, c->state_len, lent.part + GUARD, c->part_len,
                                       text, c->text_len);
    }
}

/* All of it is as before, but for so many bytes that were lent. */
static void check_around(const char *what, const char *of, const uint8_t *now, const uint8_t *then, size_t size,
                         size_t len)
{
    check(memcmp(now, then, GUARD) == 0, "%s: a byte before the %s was written", what, of);
    check(memcmp(now + GUARD + len, then + GUARD + len, size - GUARD - len) == 0,
          "%s: a byte behind the %s was written", what, of);
}

static void check_text(const char *what, const char *text, size_t text_len)
{
    size_t len = strlen(text);
    int fits = len <= text_len;

    check(fits && memcmp(lent.text + GUARD, text, len) == 0, "%s: the text is %.*s, not %s", what,
          (int)(len < 60 ? len : 60), (const char *)lent.text + GUARD, text);
    check_around(what, "text", lent.text, before.text, text_len + 2 * GUARD, fits ? len : 0);
}

/* The answer, the whole text, and every byte around. Image and state are what the call has left. */
static void expect_call(const char *what, struct stream *s, struct call c, uint32_t refusal, const char *text)
{
    uint64_t answer, wanted = ANSWER(refusal, strlen(text));

    lend(s, &c);
    answer = call(&c);
    check(answer == wanted, "%s: the answer is 0x%llX, not 0x%llX", what, (unsigned long long)answer,
          (unsigned long long)wanted);
    check_text(what, text, c.text_len);
    check_around(what, "image", lent.image, before.image, sizeof lent.image, BYTES);
    check_around(what, "state", lent.state, before.state, sizeof lent.state, STATE);
    check(memcmp(lent.part, before.part, c.part_len + 2 * GUARD) == 0, "%s: the part was written", what);
    memcpy(s->image, lent.image + GUARD, BYTES);
    memcpy(s->state, lent.state + GUARD, STATE);
}

/* Nothing is written at all. */
static void expect_refusal(const char *what, const struct stream *s, struct call c, uint32_t refusal)
{
    struct stream same = *s;

    expect_call(what, &same, c, refusal, "");
    check(memcmp(same.image, s->image, BYTES) == 0, "%s: the image was changed", what);
    check(memcmp(same.state, s->state, STATE) == 0, "%s: the state was changed", what);
}

/* Of a long text, of the rooms that are too small, only none and a byte short are tried. */
static size_t next_room(size_t room, size_t len)
{
    return room == 0 && len > 30 ? len - 1 : room + 1;
}

/* What a call does that has a text, in each kind of room. With too little it can be made again. */
static void expect_rooms(const char *what, struct stream *s, struct call c, uint32_t refusal, const char *text)
{
    struct stream roomy = *s;
    size_t enough = c.text_len, len = strlen(text);

    expect_call(what, &roomy, c, refusal, text);
    for (c.text_len = 0; c.text_len < len; c.text_len = next_room(c.text_len, len))
        expect_refusal(what, s, c, 9);
    c.text_len = len;
    expect_call(what, s, c, refusal, text);
    check(memcmp(&roomy, s, sizeof roomy) == 0, "%s: another room, another image or state", what);
    check(len <= enough, "%s: %lu bytes in a room of %lu", what, (unsigned long)len, (unsigned long)enough);
}

static void open_stream(struct stream *s)
{
    memset(s, 0xFF, sizeof *s);
    expect_call("opening", s, opening(24), 0, HEADER);
}

static void feed(const char *what, struct stream *s, const uint8_t *part, size_t len, uint32_t refusal,
                 const char *text)
{
    expect_rooms(what, s, feeding(part, len, len + 31), refusal, text);
}

static void close_stream(const char *what, struct stream *s, uint32_t refusal, const char *text)
{
    expect_rooms(what, s, closing(16), refusal, text);
}

/* Feeding and closing change nothing any more, in any room. */
static void expect_over(const char *what, const struct stream *s)
{
    static const uint8_t over[STATE] = {5}, part[] = {1, 0, 0, 0};
    static const size_t rooms[] = {0, 1, 16, 100};

    check(memcmp(s->state, over, STATE) == 0, "%s: the state does not say over and nothing else", what);
    for (size_t i = 0; i < COUNT(rooms); i++) {
        expect_refusal(what, s, feeding(part, sizeof part, rooms[i]), 8);
        expect_refusal(what, s, feeding(part, 0, rooms[i]), 8);
        expect_refusal(what, s, closing(rooms[i]), 8);
    }
}

static void expect_state(const char *what, size_t prefix, const struct stream *s, const uint8_t *state)
{
    for (size_t i = 0; i < STATE; i++)
        check(s->state[i] == state[i], "%s: after %lu bytes, byte %lu of the state is 0x%02X, not 0x%02X", what,
              (unsigned long)prefix, (unsigned long)i, s->state[i], state[i]);
}

static void expect_image(const char *what, const struct stream *s, const uint8_t *image)
{
    int word = first_difference(s->image, image);

    check(word == WORDS, "%s: the image differs in %s", what, word_name(word % WORDS));
}

/* ---- the example of document 01 */

#define NO_DATA 0, 0, 0, 0, 0, 0, 0, 0

static const uint8_t example[] = {
    1, 0,
    1, 3,  0, 0, 0x00, 0x00, 0x8C, 0x04, NO_DATA, /* word 0 of mailbox 3 */
    3, 0,
    0, 18, 0, 0, 0x25, 0x00, 0x00, 0x00, NO_DATA, /* BCR2 */
    0, 1,  0, 0, 0x08, 0x00, 0x00, 0x80, NO_DATA, /* MD */
    0, 0,  0, 0, 0x08, 0x00, 0x00, 0x00, NO_DATA, /* MC */
    5, 0,
    8, 0,  0, 0, 0x00, 0x00, 0x00, 0x00, NO_DATA, /* mode 0 */
    2, 2,  0, 0, 0x00, 0x00, 0x8C, 0x04, 0x11, 0x22, 0, 0, 0, 0, 0, 0,
    2, 2,  0, 0, 0x00, 0x00, 0x8C, 0x04, 0x33, 0x44, 0, 0, 0, 0, 0, 0,
    0, 6,  0, 0, 0x08, 0x00, 0x00, 0x00, NO_DATA, /* RMP */
    2, 2,  0, 0, 0x00, 0x00, 0x90, 0x04, 0x11, 0x22, 0, 0, 0, 0, 0, 0,
};
#define LENGTH sizeof example
#define EVENTS 9

/* Behind which byte each line comes. */
static const struct {
    size_t at;
    const char *line;
} lines[EVENTS] = {
    {18, "1 0 32 0\n"},  {36, "2 0 32 0\n"}, {52, "3 0 32 0\n"},   {68, "4 0 32 0\n"},   {86, "5 0 32 0\n"},
    {102, "6 0 3 1\n"}, {118, "7 0 3 1\n"}, {134, "8 0 32 0\n"}, {150, "9 0 32 1\n"},
};

static const char all_lines[] = "1 0 32 0\n2 0 32 0\n3 0 32 0\n4 0 32 0\n5 0 32 0\n"
                                "6 0 3 1\n7 0 3 1\n8 0 32 0\n9 0 32 1\n";

/* The lines between two places of the example. */
static const char *lines_between(size_t from, size_t to)
{
    static char text[sizeof all_lines];

    text[0] = 0;
    for (int i = 0; i < EVENTS; i++)
        if (lines[i].at > from && lines[i].at <= to)
            strcat(text, lines[i].line);
    return text;
}

/* What the events complete in so many bytes of it leave of a fresh model. */
static void put_example(uint8_t *image, size_t prefix)
{
    put_fresh(image);
    for (int i = 0; i < EVENTS && lines[i].at <= prefix; i++)
        frostsorrel_step(image, BYTES, example + lines[i].at - EVENT_BYTES, EVENT_BYTES);
}

static const struct {
    size_t prefix;
    uint8_t state[STATE];
} example_states[] = {
    {0, {1, 0, 0, 0, 0, 0, 0, 0, 0, 0, 0, 0, 0, 0, 0, 0}},
    {1, {1, 0, 0, 0, 0, 0, 0, 0, 0, 0, 0, 0, 1, 0, 0, 0, 1}},
    {2, {1, 0, 0, 0, 1, 0, 0, 0, 0, 0, 0, 0, 0, 0, 0, 0}},
    {3, {1, 0, 0, 0, 1, 0, 0, 0, 0, 0, 0, 0, 1, 0, 0, 0, 1}},
    {4, {1, 0, 0, 0, 1, 0, 0, 0, 0, 0, 0, 0, 2, 0, 0, 0, 1, 3}},
    {17, {1, 0, 0, 0, 1, 0, 0, 0, 0, 0, 0, 0, 15, 0, 0, 0, 1, 3, 0, 0, 0x00, 0x00, 0x8C, 0x04, NO_DATA}},
    {18, {2, 0, 0, 0, 0, 0, 0, 0, 1, 0, 0, 0, 0, 0, 0, 0}},
    {19, {2, 0, 0, 0, 0, 0, 0, 0, 1, 0, 0, 0, 1, 0, 0, 0, 3}},
    {20, {2, 0, 0, 0, 3, 0, 0, 0, 1, 0, 0, 0, 0, 0, 0, 0}},
    {21, {2, 0, 0, 0, 3, 0, 0, 0, 1, 0, 0, 0, 1, 0, 0, 0, 0}},
    {36, {2, 0, 0, 0, 2, 0, 0, 0, 2, 0, 0, 0, 0, 0, 0, 0}},
    {44, {2, 0, 0, 0, 2, 0, 0, 0, 2, 0, 0, 0, 8, 0, 0, 0, 0, 1, 0, 0, 0x08, 0x00, 0x00, 0x80}},
    {52, {2, 0, 0, 0, 1, 0, 0, 0, 3, 0, 0, 0, 0, 0, 0, 0}},
    {68, {3, 0, 0, 0, 0, 0, 0, 0, 4, 0, 0, 0, 0, 0, 0, 0}},
    {69, {3, 0, 0, 0, 0, 0, 0, 0, 4, 0, 0, 0, 1, 0, 0, 0, 5}},
    {70, {3, 0, 0, 0, 5, 0, 0, 0, 4, 0, 0, 0, 0, 0, 0, 0}},
    {97, {3, 0, 0, 0, 4, 0, 0, 0, 5, 0, 0, 0, 11, 0, 0, 0, 2, 2, 0, 0, 0x00, 0x00, 0x8C, 0x04, 0x11, 0x22, 0}},
    {134, {3, 0, 0, 0, 1, 0, 0, 0, 8, 0, 0, 0, 0, 0, 0, 0}},
    {149, {3, 0, 0, 0, 1, 0, 0, 0, 8, 0, 0, 0, 15, 0, 0, 0, 2, 2, 0, 0, 0x00, 0x00, 0x90, 0x04, 0x11, 0x22}},
    {150, {4, 0, 0, 0, 0, 0, 0, 0, 9, 0, 0, 0, 0, 0, 0, 0}},
};

static void feed_example(struct stream *s, size_t from, size_t to)
{
    feed("the example", s, example + from, to - from, 0, lines_between(from, to));
}

static void test_whole(void)
{
    struct stream s;
    uint8_t image[BYTES];

    open_stream(&s);
    put_fresh(image);
    expect_image("an opened stream", &s, image);
    feed("the whole example", &s, example, LENGTH, 0, all_lines);
    put_example(image, LENGTH);
    check(word_of(image, MC) == 8 && word_of(image, MAILBOX(3, 2)) == 0x4433, "the example's image");
    expect_image("the whole example", &s, image);
    close_stream("the whole example", &s, 0, "end 9\n");
    expect_image("the whole example, closed", &s, image);
    expect_over("the whole example, closed", &s);
}

/* The state after each of the chosen fronts, fed whole and byte by byte; a line at the 16th byte, and not before. */
static void test_states(void)
{
    struct stream s, whole;
    uint8_t image[BYTES];
    size_t at = 0;

    open_stream(&s);
    for (size_t i = 0; i < COUNT(example_states); i++) {
        size_t prefix = example_states[i].prefix;

        for (; at < prefix; at++)
            feed_example(&s, at, at + 1);
        expect_state("byte by byte", prefix, &s, example_states[i].state);
        put_example(image, prefix);
        expect_image("byte by byte", &s, image);
        open_stream(&whole);
        feed_example(&whole, 0, prefix);
        expect_state("at once", prefix, &whole, example_states[i].state);
        expect_image("at once", &whole, image);
    }
    close_stream("byte by byte", &s, 0, "end 9\n");
}

/* In three parts, of which one may be empty. */
static void test_cuts(void)
{
    struct stream s;
    uint8_t image[BYTES];

    put_example(image, LENGTH);
    for (size_t first = 0; first <= LENGTH; first++)
        for (size_t second = first; second <= LENGTH; second += 1 + (second * 7 + first) % 12) {
            open_stream(&s);
            feed_example(&s, 0, first);
            feed_example(&s, first, second);
            feed_example(&s, second, LENGTH);
            close_stream("three parts", &s, 0, "end 9\n");
            expect_image("three parts", &s, image);
        }
}

/* Each front of the example is too short: there is no end line, and the image stays. */
static void test_too_short(void)
{
    struct stream s;
    uint8_t image[BYTES];

    for (size_t prefix = 0; prefix < LENGTH; prefix++) {
        open_stream(&s);
        feed_example(&s, 0, prefix);
        close_stream("too short", &s, 8, REFUSAL);
        put_example(image, prefix);
        expect_image("too short", &s, image);
        expect_over("too short", &s);
    }
}

/* Wherever the stream stands, a part of length 0 does nothing. */
static void test_empty_parts(void)
{
    static const size_t rooms[] = {0, 1, 31, 100};
    struct stream s;

    for (size_t prefix = 0; prefix <= LENGTH; prefix++) {
        open_stream(&s);
        feed_example(&s, 0, prefix);
        for (size_t i = 0; i < COUNT(rooms); i++)
            expect_refusal("an empty part", &s, feeding(example, 0, rooms[i]), 0);
    }
}

/* From any place, from the end, and on any bytes. */
static void test_start_over(void)
{
    struct stream s, first;

    open_stream(&first);
    expect_state("an opening", 0, &first, example_states[0].state);
    for (size_t prefix = 0; prefix <= LENGTH; prefix += 10) {
        s = first;
        feed_example(&s, 0, prefix);
        expect_rooms("an opening within", &s, opening(24), 0, HEADER);
        check(memcmp(&s, &first, sizeof s) == 0, "an opening after %lu bytes does not start over",
              (unsigned long)prefix);
        feed_example(&s, 0, prefix);
        close_stream("before an opening", &s, prefix == LENGTH ? 0 : 8, prefix == LENGTH ? "end 9\n" : REFUSAL);
        expect_rooms("an opening after a closing", &s, opening(24), 0, HEADER);
        check(memcmp(&s, &first, sizeof s) == 0, "an opening after a closing does not start over");
    }
    for (int byte = 0; byte < 256; byte += 51) {
        memset(&s, byte, sizeof s);
        expect_call("an opening on any bytes", &s, opening(LONGEST_TEXT), 0, HEADER);
        check(memcmp(&s, &first, sizeof s) == 0, "an opening on bytes 0x%02X", (unsigned)byte);
    }
}

/* Traces without events, and sections without. */
static void test_empty_sections(void)
{
    static const uint8_t zeros[6] = {0};
    static const uint8_t states[][STATE] = {{1}, {1, [12] = 1}, {2}, {2, [12] = 1}, {3}, {3, [12] = 1}, {4}};
    struct stream s;

    open_stream(&s);
    for (size_t i = 0; i < 6; i++) {
        expect_state("no events", i, &s, states[i]);
        feed("no events", &s, zeros + i, 1, 0, "");
    }
    expect_state("no events", 6, &s, states[6]);
    close_stream("no events", &s, 0, "end 0\n");
    expect_over("no events", &s);
    open_stream(&s);
    feed("no events at once", &s, zeros, 6, 0, "");
    expect_state("no events at once", 6, &s, states[6]);
}

/* ---- faults */

#define EVENT(operation) operation, 0, 0, 0, 0, 0, 0, 0, NO_DATA

static const struct fault {
    const char *what;
    uint8_t bytes[80];
    size_t fault, len; /* the byte that no trace can have there, and how many are given */
    const char *text;  /* the lines before it */
} faults[] = {
    {"1,001 in section 1", {0xE9, 3, 0}, 1, 3, ""},
    {"1,024 in section 1", {0, 4, 0}, 1, 3, ""},
    {"65,535 in section 1", {0xFF, 0xFF, 1}, 1, 3, ""},
    {"1,001 in section 2", {0, 0, 0xE9, 3, 0}, 3, 5, ""},
    {"32,768 in section 2", {0, 0, 0, 0x80}, 3, 4, ""},
    {"1,001 in section 3", {0, 0, 0, 0, 0xE9, 3, 0}, 5, 7, ""},
    {"1,279 in section 3", {0, 0, 0, 0, 0xFF, 4, 2}, 5, 7, ""},
    {"1,001 behind events", {1, 0, EVENT(1), 0xE9, 3, EVENT(0)}, 19, 36, "1 0 32 0\n"},
    {"a register write in section 1", {1, 0, EVENT(0)}, 2, 18, ""},
    {"a frame in section 1", {1, 0, EVENT(2)}, 2, 18, ""},
    {"options in section 1", {1, 0, EVENT(9)}, 2, 18, ""},
    {"operation 255 in section 1", {1, 0, EVENT(255)}, 2, 18, ""},
    {"a second event in section 1", {2, 0, EVENT(1), EVENT(0)}, 18, 34, "1 0 32 0\n"},
    {"a third event in section 1", {3, 0, EVENT(1), EVENT(1), EVENT(8)}, 34, 50, "1 0 32 0\n2 0 32 0\n"},
    {"a mailbox write in section 2", {0, 0, 1, 0, EVENT(1)}, 4, 20, ""},
    {"a mode in section 2", {0, 0, 1, 0, EVENT(8)}, 4, 20, ""},
    {"a reset in section 2", {0, 0, 1, 0, EVENT(10)}, 4, 20, ""},
    {"a second event in section 2", {0, 0, 2, 0, EVENT(0), EVENT(1)}, 20, 36, "1 0 32 0\n"},
    {"a third event in section 2", {0, 0, 3, 0, EVENT(9), EVENT(0), EVENT(2)}, 36, 52, "1 0 32 0\n2 0 32 0\n"},
    {"an event of section 2, behind one of section 1", {1, 0, EVENT(1), 1, 0, EVENT(1)}, 20, 36, "1 0 32 0\n"},
    {"a byte behind nothing", {0, 0, 0, 0, 0, 0, 0}, 6, 7, ""},
    {"bytes behind nothing", {0, 0, 0, 0, 0, 0, 1, 0, 0, 0}, 6, 10, ""},
    {"a byte behind an event", {0, 0, 0, 0, 1, 0, EVENT(3), 7}, 22, 23, "1 0 32 0\n"},
    {"an event behind an event", {0, 0, 0, 0, 1, 0, EVENT(7), EVENT(7)}, 22, 38, "1 0 32 0\n"},
    {"a byte behind events of each section", {1, 0, EVENT(1), 1, 0, EVENT(0), 1, 0, EVENT(6), 0}, 54, 55,
     "1 0 32 0\n2 0 32 0\n3 0 32 0\n"},
    {"lines of refused events", {0, 0, 1, 0, 0, 7, 0, 0, 1, 0, 0, 0, NO_DATA, 1, 0, EVENT(4), 0}, 38, 39,
     "1 2 32 0\n2 7 32 0\n"},
};

/* What the events complete before the fault leave of a fresh model. */
static void put_before(uint8_t *image, const struct fault *f)
{
    size_t at = 0;

    put_fresh(image);
    for (int section = 0; section < 3; section++) {
        size_t count = f->bytes[at] + 256u * f->bytes[at + 1];

        for (at += 2; count > 0 && at + EVENT_BYTES <= f->fault; count--, at += EVENT_BYTES)
            frostsorrel_step(image, BYTES, f->bytes + at, EVENT_BYTES);
        if (count > 0 || at >= f->fault)
            return;
    }
}

/* The lines come at the 16th bytes, the refusal at the fault, and nothing behind it. */
static void expect_byte_by_byte(const struct fault *f)
{
    struct stream s;
    char text[200] = "";
    uint8_t image[BYTES];

    open_stream(&s);
    for (size_t i = 0; i < f->fault; i++) {
        uint8_t line[32];
        uint64_t answer;

        answer = frostsorrel_stream_feed(s.image, BYTES, s.state, STATE, f->bytes + i, 1, line, sizeof line);
        check(frostsorrel_answer_refusal(answer) == 0, "%s: refusal %lu at byte %lu", f->what,
              (unsigned long)frostsorrel_answer_refusal(answer), (unsigned long)i);
        strncat(text, (const char *)line, (size_t)frostsorrel_answer_count(answer));
    }
    check(strcmp(text, f->text) == 0, "%s: the lines before the fault are %s", f->what, text);
    put_before(image, f);
    expect_image(f->what, &s, image);
    feed(f->what, &s, f->bytes + f->fault, 1, 8, REFUSAL);
    expect_image(f->what, &s, image);
    expect_over(f->what, &s);
}

/* In two parts, cut anywhere: the call that has the fault tells the lines before it too. */
static void expect_two_parts(const struct fault *f)
{
    uint8_t image[BYTES];
    struct stream s, first;
    char text[200];

    put_before(image, f);
    for (size_t cut = 0; cut <= f->fault; cut++) {
        uint64_t answer;
        size_t told;

        open_stream(&s);
        first = s;
        answer = frostsorrel_stream_feed(first.image, BYTES, first.state, STATE, f->bytes, cut, (uint8_t *)text,
                                         cut + 31);
        told = (size_t)frostsorrel_answer_count(answer) % sizeof text;
        check(strncmp(text, f->text, told) == 0, "%s: other lines in the first part", f->what);
        text[told] = 0;
        feed(f->what, &s, f->bytes, cut, 0, text);
        snprintf(text, sizeof text, "%s%s", f->text + (told <= strlen(f->text) ? told : 0), REFUSAL);
        feed(f->what, &s, f->bytes + cut, f->len - cut, 8, text);
        expect_image(f->what, &s, image);
        expect_over(f->what, &s);
    }
}

/* The bytes before the fault, however many, are the front of a trace. */
static void expect_no_fault_before(const struct fault *f)
{
    struct stream s;

    for (size_t len = 0; len <= f->fault; len++) {
        uint8_t text[200];
        uint64_t answer;

        open_stream(&s);
        answer = frostsorrel_stream_feed(s.image, BYTES, s.state, STATE, f->bytes, len, text, sizeof text);
        check(frostsorrel_answer_refusal(answer) == 0, "%s: refusal %lu for %lu bytes", f->what,
              (unsigned long)frostsorrel_answer_refusal(answer), (unsigned long)len);
    }
}

static void test_faults(void)
{
    for (size_t i = 0; i < COUNT(faults); i++) {
        expect_byte_by_byte(&faults[i]);
        expect_two_parts(&faults[i]);
        expect_no_fault_before(&faults[i]);
    }
}

/* Each first byte of an event, in each section. */
static void test_places(void)
{
    static const uint8_t counts[3][6] = {{1, 0}, {0, 0, 1, 0}, {0, 0, 0, 0, 1, 0}};
    struct stream s;

    for (int section = 0; section < 3; section++)
        for (int operation = 0; operation < 256; operation++) {
            uint8_t first = (uint8_t)operation;
            int fits = section == 0 ? operation == 1 : section == 1 ? operation == 0 || operation == 9 : 1;

            open_stream(&s);
            feed("a count", &s, counts[section], 2 + 2 * (size_t)section, 0, "");
            feed("an operation", &s, &first, 1, fits ? 0 : 8, fits ? "" : REFUSAL);
        }
}

/* Every count that there is; the low byte is never the fault. */
static void test_counts(void)
{
    struct stream s, second;
    uint8_t text[64];

    for (unsigned low = 0; low < 256; low++) {
        uint8_t byte = (uint8_t)low;

        open_stream(&s);
        feed("a low byte", &s, &byte, 1, 0, "");
        for (unsigned high = 0; high < 256; high++) {
            unsigned count = low + 256 * high;
            uint64_t answer;

            second = s;
            byte = (uint8_t)high;
            answer = frostsorrel_stream_feed(second.image, BYTES, second.state, STATE, &byte, 1, text, sizeof text);
            check(answer == (count > 1000 ? ANSWER(8, 16) : ANSWER(0, 0)), "a count of %u", count);
            check(section_of(&second) == (count > 1000 ? FROSTSORREL_STREAM_OVER : count == 0 ? 2 : 1),
                  "a count of %u: the section", count);
            check(frostsorrel_stream_word(second.state, FROSTSORREL_STREAM_LEFT) == (count > 1000 ? 0 : count),
                  "a count of %u: the events left", count);
        }
    }
}

/* ---- refusals, and their order */

static void expect_bad(const char *what, const struct stream *s, size_t image_len, size_t state_len)
{
    static const size_t rooms[] = {0, 100};

    for (size_t i = 0; i < COUNT(rooms); i++) {
        struct call calls[] = {opening(rooms[i]), feeding(example, LENGTH, rooms[i]), feeding(example, 0, rooms[i]),
                               closing(rooms[i])};

        for (size_t k = 0; k < COUNT(calls); k++) {
            calls[k].image_len = image_len;
            calls[k].state_len = state_len;
            expect_refusal(what, s, calls[k], 1);
        }
    }
}

/* Of a stream that goes on and of one that is over; of one with a bad state as well. */
static void test_lengths(void)
{
    struct stream s, over, bad;

    open_stream(&s);
    over = bad = s;
    put_section(&over, FROSTSORREL_STREAM_OVER);
    put_section(&bad, 6);
    for (size_t len = 0; len <= LONGEST_IMAGE; len += len < 3 || (len > 630 && len < 650) ? 1 : 11) {
        if (len == BYTES)
            continue;
        expect_bad("the image's length", &s, len, STATE);
        expect_bad("the image's length, over", &over, len, STATE);
        expect_bad("both lengths", &s, len, STATE + 1);
    }
    for (size_t len = 0; len <= LONGEST_STATE; len++) {
        if (len == STATE)
            continue;
        expect_bad("the state's length", &s, BYTES, len);
        expect_bad("the state's length, over", &over, BYTES, len);
        expect_bad("the state's length, and a bad state", &bad, BYTES, len);
    }
    expect_bad("lengths of which none is right", &s, STATE, LONGEST_STATE);
}

/* Lengths, over, state, room, fault. */
static void test_order(void)
{
    static const uint8_t too_high[] = {0xE9, 3};
    static const uint8_t last_state[STATE] = {3, 0, 0, 0, 1, 0, 0, 0, 0, 0, 0, 0, 15, 0, 0, 0, 7};
    static const uint8_t last_and_more[] = {0, 0};
    struct stream s;

    open_stream(&s);
    expect_refusal("the fault, without room", &s, feeding(too_high, 2, 15), 9);
    expect_refusal("the fault, without any room", &s, feeding(too_high, 2, 0), 9);
    expect_refusal("too short, without room", &s, closing(15), 9);
    expect_refusal("an opening, without room", &s, opening(23), 9);
    put_section(&s, 6);
    expect_refusal("a bad state, the fault", &s, feeding(too_high, 2, 100), 1);
    expect_refusal("a bad state, no room", &s, feeding(too_high, 2, 0), 1);
    expect_refusal("a bad state, an empty part", &s, feeding(too_high, 0, 0), 1);
    expect_refusal("a bad state, closed", &s, closing(100), 1);
    expect_refusal("a bad state, closed without room", &s, closing(0), 1);
    memset(s.state, 0xEE, STATE);
    put_section(&s, FROSTSORREL_STREAM_OVER);
    expect_refusal("over with rubbish", &s, feeding(too_high, 2, 100), 8);
    expect_refusal("over with rubbish, no room", &s, feeding(too_high, 2, 0), 8);
    expect_refusal("over with rubbish, closed", &s, closing(100), 8);
    memcpy(s.state, last_state, STATE);
    expect_refusal("a line and the fault, without room", &s, feeding(last_and_more, 2, 24), 9);
    expect_call("a line and the fault", &s, feeding(last_and_more, 2, 25), 8, "1 0 32 0\n" REFUSAL);
    expect_over("a line and the fault", &s);
}

/* ---- images that are not good: the call is not refused, its lines are */

static void test_bad_image(void)
{
    uint8_t image[BYTES];
    struct stream s;

    open_stream(&s);
    put(s.image, SPARE, 1);
    memcpy(image, s.image, BYTES);
    feed("a bad image", &s, example, 68, 0, "1 1 32 0\n2 1 32 0\n3 1 32 0\n4 1 32 0\n");
    expect_image("a bad image", &s, image);
    put(s.image, SPARE, 0);
    put(s.image, MODE, NORMAL_MODE); /* good, but another than the stream had left */
    memcpy(image, s.image, BYTES);
    feed("another image", &s, example + 68, 34, 0, "5 0 32 0\n6 0 32 0\n");
    memset(s.image, 0xFF, BYTES);
    feed("bytes 0xFF", &s, example + 102, 48, 0, "7 1 32 0\n8 1 32 0\n9 1 32 0\n");
    memset(image, 0xFF, BYTES);
    expect_image("bytes 0xFF", &s, image);
    close_stream("bytes 0xFF", &s, 0, "end 9\n");
    expect_image("bytes 0xFF, closed", &s, image);
}

/* ---- profiles: an opening makes a CAN-B; an image of the caller's stays what it is */

static void test_profiles(void)
{
    uint8_t image[BYTES];
    struct stream s;

    open_stream(&s);
    put_fresh_of(s.image, ECAN);
    put(s.image, MASK(3), 0x80000000);
    put(s.image, PROTECTION, 8);
    expect_call("an opening on an eCAN", &s, opening(24), 0, HEADER);
    put_fresh(image);
    expect_image("an opening on an eCAN", &s, image);

    put_fresh_of(s.image, ECAN);
    put(s.image, PROTECTION, 8);
    feed("an eCAN, its mailbox 3 protected", &s, example, LENGTH, 0,
         "1 0 32 0\n2 0 32 0\n3 0 32 0\n4 0 32 0\n5 0 32 0\n6 0 3 1\n7 0 32 1\n8 0 32 0\n9 0 32 1\n");
    check(word_of(s.image, PROFILE) == ECAN && word_of(s.image, PROTECTION) == 8 && word_of(s.image, RML) == 0 &&
              word_of(s.image, MAILBOX(3, 2)) == 0x2211,
          "an eCAN, its mailbox 3 protected: the first frame is not kept");
    close_stream("an eCAN, its mailbox 3 protected", &s, 0, "end 9\n");
}

/* ---- states that no call leaves, each beside one that a call leaves */

#define ANY 0xFF

static const struct given {
    const char *what;
    uint32_t words[4];
    uint8_t bytes[16];
    int taken;
} given_states[] = {
    {"section 0", {0, 0, 0, 0}, {0}, 0},
    {"section 1", {1, 0, 0, 0}, {0}, 1},
    {"section 2", {2, 0, 0, 0}, {0}, 1},
    {"section 3", {3, 0, 0, 0}, {0}, 1},
    {"behind the third", {4, 0, 0, 0}, {0}, 1},
    {"section 6", {6, 0, 0, 0}, {0}, 0},
    {"section 257", {257, 0, 0, 0}, {0}, 0},
    {"section 65,537", {65537, 0, 0, 0}, {0}, 0},
    {"section 2^24 + 2", {0x01000002, 0, 0, 0}, {0}, 0},
    {"section 2^24 + 5", {0x01000005, 0, 0, 0}, {0}, 0},
    {"section 2^32 - 1", {0xFFFFFFFF, 0, 0, 0}, {0}, 0},
    /* events complete before a count */
    {"none before count 1", {1, 0, 0, 0}, {0}, 1},
    {"one before count 1", {1, 0, 1, 0}, {0}, 0},
    {"1,000 before count 2", {2, 0, 1000, 0}, {0}, 1},
    {"1,001 before count 2", {2, 0, 1001, 0}, {0}, 0},
    {"2,000 before count 3", {3, 0, 2000, 0}, {0}, 1},
    {"2,001 before count 3", {3, 0, 2001, 0}, {0}, 0},
    {"3,000 in the end", {4, 0, 3000, 0}, {0}, 1},
    {"3,001 in the end", {4, 0, 3001, 0}, {0}, 0},
    {"2^32 - 1 in the end", {4, 0, 0xFFFFFFFF, 0}, {0}, 0},
    {"65,536 before count 2", {2, 0, 65536, 0}, {0}, 0},
    /* events complete and to come */
    {"1,000 to come in 1", {1, 1000, 0, 0}, {0}, 1},
    {"1,001 to come in 1", {1, 1001, 0, 0}, {0}, 0},
    {"1 to come in 1, 999 complete", {1, 1, 999, 0}, {0}, 1},
    {"1 to come in 1, 1,000 complete", {1, 1, 1000, 0}, {0}, 0},
    {"1,000 to come in 1, 1 complete", {1, 1000, 1, 0}, {0}, 0},
    {"1,000 to come in 2, 1,000 complete", {2, 1000, 1000, 0}, {0}, 1},
    {"1,000 to come in 2, 1,001 complete", {2, 1000, 1001, 0}, {0}, 0},
    {"1 to come in 2, 1,999 complete", {2, 1, 1999, 0}, {0}, 1},
    {"1 to come in 2, 2,000 complete", {2, 1, 2000, 0}, {0}, 0},
    {"1,001 to come in 2", {2, 1001, 0, 0}, {0}, 0},
    {"1,001 to come in 2, 999 complete", {2, 1001, 999, 0}, {0}, 0},
    {"1,000 to come in 3, 2,000 complete", {3, 1000, 2000, 0}, {0}, 1},
    {"1,000 to come in 3, 2,001 complete", {3, 1000, 2001, 0}, {0}, 0},
    {"1 to come in 3, 2,999 complete", {3, 1, 2999, 0}, {0}, 1},
    {"1 to come in 3, 3,000 complete", {3, 1, 3000, 0}, {0}, 0},
    {"1,001 to come in 3", {3, 1001, 0, 0}, {0}, 0},
    {"3,000 to come in 3", {3, 3000, 0, 0}, {0}, 0},
    {"65,537 to come in 3", {3, 65537, 0, 0}, {0}, 0},
    {"a sum of 2^32", {3, 1, 0xFFFFFFFF, 0}, {0}, 0},
    {"a sum of 2^32 + 1", {3, 1000, 0xFFFFFC19, 0}, {0}, 0},
    {"a sum of 2^32, the other way", {3, 0xFFFFFFFF, 1, 0}, {0}, 0},
    {"a sum of 2^32 of halves", {3, 0x80000000, 0x80000000, 0}, {0}, 0},
    /* bytes of a count */
    {"a byte of count 1", {1, 0, 0, 1}, {ANY}, 1},
    {"a byte of count 2, 0", {2, 0, 5, 1}, {0}, 1},
    {"a byte of count 3", {3, 0, 5, 1}, {0xE9}, 1},
    {"two bytes of count 1", {1, 0, 0, 2}, {1, 0}, 0},
    {"two bytes of count 2, 0", {2, 0, 0, 2}, {0, 0}, 0},
    {"three bytes of count 3", {3, 0, 0, 3}, {0}, 0},
    {"15 bytes of a count", {2, 0, 0, 15}, {0}, 0},
    {"2^32 - 1 bytes of a count", {2, 0, 0, 0xFFFFFFFF}, {0}, 0},
    {"257 bytes of a count", {2, 0, 0, 257}, {0}, 0},
    {"65,536 bytes of a count", {2, 0, 0, 65536}, {0}, 0},
    /* bytes of an event */
    {"a byte in 1", {1, 1, 0, 1}, {1}, 1},
    {"15 bytes in 1", {1, 1, 0, 15}, {1, 2, 3, 4, 5, 6, 7, 8, 9, 10, 11, 12, 13, 14, 15}, 1},
    {"16 bytes in 1", {1, 1, 0, 16}, {1}, 0},
    {"17 bytes in 1", {1, 1, 0, 17}, {1}, 0},
    {"16 bytes in 2", {2, 1, 0, 16}, {0}, 0},
    {"16 bytes in 3", {3, 1, 0, 16}, {0}, 0},
    {"2^32 - 1 bytes in 3", {3, 1, 0, 0xFFFFFFFF}, {0}, 0},
    {"256 bytes in 3", {3, 1, 0, 256}, {0}, 0},
    {"a register write in 1", {1, 1, 0, 1}, {0}, 0},
    {"a frame in 1", {1, 1, 0, 7}, {2}, 0},
    {"operation 257 in 1", {1, 1, 0, 2}, {0, 1}, 0},
    {"a register write in 2", {2, 1, 0, 1}, {0}, 1},
    {"options in 2", {2, 1, 0, 15}, {9}, 1},
    {"a mailbox write in 2", {2, 1, 0, 1}, {1}, 0},
    {"a mode in 2", {2, 1, 0, 1}, {8}, 0},
    {"operation 255 in 3", {3, 1, 0, 1}, {255}, 1},
    {"nothing of an event in 1", {1, 1, 0, 0}, {0}, 1},
    /* behind the third section */
    {"an event to come in the end", {4, 1, 0, 0}, {0}, 0},
    {"1,000 events to come in the end", {4, 1000, 2000, 0}, {0}, 0},
    {"a byte in the end", {4, 0, 0, 1}, {0}, 0},
    {"a byte that is not 0 in the end", {4, 0, 0, 1}, {1}, 0},
    {"15 bytes in the end", {4, 0, 0, 15}, {0}, 0},
    {"a byte behind in the end", {4, 0, 0, 0}, {1}, 0},
    {"the last byte behind in the end", {4, 0, 0, 0}, {[15] = 1}, 0},
};

static void put_given(struct stream *s, const struct given *g)
{
    put_fresh(s->image);
    for (int i = 0; i < 4; i++)
        put(s->state, i, g->words[i]);
    memcpy(s->state + 16, g->bytes, 16);
}

/* An empty part asks for nothing but the state; a closing that fits tells the same. */
static void expect_judged(const char *what, const struct stream *s, int taken)
{
    static const size_t rooms[] = {0, 100};
    struct stream closed = *s;
    char end[20];
    int whole = section_of(s) == FROSTSORREL_STREAM_BEHIND;

    for (size_t i = 0; i < COUNT(rooms); i++) {
        expect_refusal(what, s, feeding(example, 0, rooms[i]), taken ? 0 : 1);
        if (!taken) {
            expect_refusal(what, s, closing(rooms[i]), 1);
            expect_refusal(what, s, feeding(example, LENGTH, rooms[i]), 1);
            expect_refusal(what, s, feeding(example, 1, rooms[i]), 1);
        }
    }
    snprintf(end, sizeof end, "end %lu\n", (unsigned long)steps_of(s));
    if (taken)
        close_stream(what, &closed, whole ? 0 : 8, whole ? end : REFUSAL);
}

static void test_given_states(void)
{
    struct stream s;

    for (size_t i = 0; i < COUNT(given_states); i++) {
        put_given(&s, &given_states[i]);
        expect_judged(given_states[i].what, &s, given_states[i].taken);
    }
}

/* Each byte behind those that are there, with each number of them. */
static void test_bytes_behind(void)
{
    struct stream s;

    for (uint32_t there = 0; there < EVENT_BYTES; there++)
        for (uint32_t at = 0; at < EVENT_BYTES; at++) {
            const struct given event = {"", {3, 7, 100, there}, {0}, 1}, count = {"", {3, 0, 100, there}, {0}, 1};

            put_given(&s, &event);
            s.state[16 + at] = 0x80;
            expect_judged("a byte of an event, or behind it", &s, at < there);
            if (there > 1)
                continue;
            put_given(&s, &count);
            s.state[16 + at] = 1;
            expect_judged("a byte of a count, or behind it", &s, at < there);
        }
}

/* Each first byte that a state may have, in each section. */
static void test_first_bytes(void)
{
    struct stream s;

    for (uint32_t section = 1; section <= 3; section++)
        for (int operation = 0; operation < 256; operation++) {
            const struct given g = {"", {section, 2, 1, 3 - operation % 3u}, {(uint8_t)operation}, 1};
            int fits = section == 1 ? operation == 1 : section == 2 ? operation == 0 || operation == 9 : 1;

            put_given(&s, &g);
            expect_refusal("a first byte", &s, feeding(example, 0, 0), fits ? 0 : 1);
        }
}

/* A stream goes on from a state as it stands, whoever made it. */
static void test_within(void)
{
    static const uint8_t part[] = {0, 0, 0, 0, 0, 0, 0, 0, 0, 0, 0, 0, 0, 0, 1, 0};
    static const uint8_t after[STATE] = {3, 0, 0, 0, 1, 0, 0, 0, 0xD0, 7, 0, 0, 0, 0, 0, 0};
    const struct given g = {"", {2, 1, 1999, 2}, {9, 0}, 1};
    struct stream s;

    put_given(&s, &g);
    feed("the last event of section 2, and a count", &s, part, sizeof part, 0, "2000 0 32 0\n");
    expect_state("within", sizeof part, &s, after);
    feed("the event of section 3", &s, example + 70, 16, 0, "2001 6 32 0\n");
    close_stream("within", &s, 0, "end 2001\n");
}

/* ---- room */

/* All mailboxes receive, and mailbox 31 alone matches identifier 0. */
static void put_longest_line(uint8_t *image)
{
    make_with(image, NORMAL, MC, 0xFFFFFFFF);
    put(image, MD, 0xFFFFFFFF);
    for (int n = 0; n < 31; n++)
        put(image, MAILBOX(n, 0), STANDARD(1));
}

/* The longest text that two bytes can bring: the last byte of the last event, and one behind it. */
static void test_longest_pair(void)
{
    static const uint8_t last_two[] = {0, 0};
    const struct given g = {"", {3, 1, 2999, 15}, {FROSTSORREL_FRAME}, 1};
    struct stream s, first;

    put_given(&s, &g);
    put_longest_line(s.image);
    first = s;
    for (size_t room = 0; room < 29; room++)
        expect_refusal("the longest line and the fault", &s, feeding(last_two, 2, room), 9);
    for (size_t room = 29; room <= 40; room++) {
        s = first;
        expect_call("the longest line and the fault", &s, feeding(last_two, 2, room), 8, "3000 0 31 32\n" REFUSAL);
        expect_over("the longest line and the fault", &s);
    }
    s = first;
    feed("the longest line", &s, last_two, 1, 0, "3000 0 31 32\n");
    check(section_of(&s) == FROSTSORREL_STREAM_BEHIND && steps_of(&s) == 3000, "the state behind 3,000 events");
    close_stream("3,000 events", &s, 0, "end 3000\n");
}

static uint8_t longest[FROSTSORREL_TRACE_BYTES];
static char longest_text[FROSTSORREL_LISTING_BYTES];

/* 1,000 writes of mailbox 31, 1,000 writes of registers, and 999 frames behind a mode: all are taken. */
static void put_longest(void)
{
    uint8_t *at = longest;
    char *line = longest_text;

    for (unsigned number = 1; number <= 3000; number++) {
        unsigned step = (number - 1) % 1000;
        struct event e = write_mailbox(31, 0, 0);

        if (step == 0) {
            *at++ = 0xE8;
            *at++ = 3;
        }
        if (number > 1000)
            e = step == 0 ? write_register(MD, 0xFFFFFFFF) : step == 1 ? write_register(MC, 0x80000000)
                : write_register(BCR2, 0x25);
        if (number > 2000)
            e = step == 0 ? mode(NORMAL_MODE) : data_frame(0, 0, 0);
        memcpy(at, e.bytes, EVENT_BYTES);
        at += EVENT_BYTES;
        line += sprintf(line, "%u 0 %s\n", number, number > 2001 ? "31 1" : "32 0");
    }
}

/* The longest trace at once, in the longest room that a feeding can need, and in just enough; and byte by byte. */
static void test_longest(void)
{
    struct stream s;
    uint64_t answer;
    size_t at = 0;

    put_longest();
    open_stream(&s);
    feed("the longest trace", &s, longest, sizeof longest, 0, longest_text);
    close_stream("the longest trace", &s, 0, "end 3000\n");
    open_stream(&s);
    expect_call("the longest trace in 39,016 bytes", &s, feeding(longest, sizeof longest, 39016), 0, longest_text);
    expect_call("a byte behind it", &s, feeding(longest, 1, 16), 8, REFUSAL);
    open_stream(&s);
    for (size_t i = 0; i < sizeof longest; i++) {
        uint8_t line[32];

        answer = frostsorrel_stream_feed(s.image, BYTES, s.state, STATE, longest + i, 1, line, sizeof line);
        check(frostsorrel_answer_refusal(answer) == 0 && strncmp(longest_text + at, (const char *)line,
                                                                 (size_t)frostsorrel_answer_count(answer)) == 0,
              "the longest trace, byte %lu", (unsigned long)i);
        at += (size_t)frostsorrel_answer_count(answer);
    }
    check(at == strlen(longest_text), "the longest trace byte by byte has %lu bytes of text", (unsigned long)at);
    close_stream("the longest trace byte by byte", &s, 0, "end 3000\n");
}

/* What the listing of a whole file has, the lines of a stream have. */
static void test_listing(void)
{
    static uint8_t text[FROSTSORREL_LISTING_BYTES];
    static const char end[] = "end 3000\n";
    size_t lines_len = strlen(longest_text), header_len = strlen(HEADER);
    uint64_t length = frostsorrel_listing(longest, sizeof longest, text, sizeof text);

    check(length == header_len + lines_len + strlen(end), "the listing has %lu bytes", (unsigned long)length);
    check(memcmp(text, HEADER, header_len) == 0 && memcmp(text + header_len, longest_text, lines_len) == 0 &&
              memcmp(text + header_len + lines_len, end, strlen(end)) == 0,
          "the listing is not what the stream tells");
}

/* ---- the stack that a call takes, as the header has it: a tool may have little of it */

/* A sanitizer puts bytes of its own around everything on the stack. */
#ifdef __SANITIZE_ADDRESS__
#define SANITIZED 1
#else
#define SANITIZED 0
#endif

static struct stream on_stack;
static uint8_t on_stack_text[LENGTH + 31];
static size_t on_stack_room;

__attribute__((noinline)) static void feed_for_stack(void)
{
    frostsorrel_stream_feed(on_stack.image, BYTES, on_stack.state, STATE, example, LENGTH, on_stack_text,
                            on_stack_room);
}

__attribute__((noinline)) static void open_for_stack(void)
{
    frostsorrel_stream_open(on_stack.image, BYTES, on_stack.state, STATE, on_stack_text, sizeof on_stack_text);
}

__attribute__((noinline)) static void close_for_stack(void)
{
    frostsorrel_stream_close(on_stack.image, BYTES, on_stack.state, STATE, on_stack_text, sizeof on_stack_text);
}

static void expect_stack(const char *what, void (*function)(void), size_t too_much)
{
    size_t taken = stack_of(function);

    check(taken < too_much, "%s takes %lu bytes of the stack", what, (unsigned long)taken);
}

static void test_stack(void)
{
    if (SANITIZED)
        return;
    expect_stack("opening", open_for_stack, 200);
    on_stack_room = 20; /* too little: it is tried on copies */
    expect_stack("feeding in a small room", feed_for_stack, 1500);
    on_stack_room = sizeof on_stack_text;
    expect_stack("feeding", feed_for_stack, 1500);
    expect_stack("closing", close_for_stack, 200);
}

int main(int argc, char **argv)
{
    put_pattern();
    test_whole();
    test_states();
    test_cuts();
    test_too_short();
    test_empty_parts();
    test_start_over();
    test_empty_sections();
    test_faults();
    test_places();
    test_counts();
    test_lengths();
    test_order();
    test_bad_image();
    test_profiles();
    test_given_states();
    test_bytes_behind();
    test_first_bytes();
    test_within();
    test_longest_pair();
    test_longest();
    test_listing();
    test_stack();
    return report(argc > 1 ? argv[1] : "host streams");
}
