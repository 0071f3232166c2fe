/*
 * Streams of the library against those of the reference, for `compare`.
 *
 * A trace is drawn, well-formed or with a fault of some kind; it is cut anywhere, and goes through both, call by
 * call, in rooms that fit exactly, are a byte short, none, or that never get a 9. Every byte that is lent is
 * compared after every call, those around it too. What is told in the end is held against the whole file. Between
 * those calls others are made on copies: with wrong lengths, states that no call leaves, and images that are not
 * good. Streams also begin anywhere within a trace, where the numbers are high.
 */
#include "check.h"
#include "compare.h"
#include "events.h"
#include "generate.h"
#include "image.h"
#include "reference.h"
#include "traces.h"

#define STATE_BYTES FROSTSORREL_STREAM_BYTES
#define LONGEST_IMAGE (BYTES + 8)
#define LONGEST_STATE (STATE_BYTES + 8)
#define FEW 6 /* events of a section, most of the time */
#define MANY 30
#define LONGEST_FILE (SECTIONS * (2 + MANY * EVENT_BYTES) + 32)
#define LONGEST_TEXT (LONGEST_FILE + 64)

/* The words of a state, what stands in the first where it is no section, and the first byte behind them. */
enum {
    SECTION = FROSTSORREL_STREAM_SECTION,
    LEFT = FROSTSORREL_STREAM_LEFT,
    STEPS = FROSTSORREL_STREAM_STEPS,
    GATHERED = FROSTSORREL_STREAM_GATHERED
};
enum { BEHIND = FROSTSORREL_STREAM_BEHIND, OVER = FROSTSORREL_STREAM_OVER };
enum { FIRST_GATHERED = 16 };

/* ---- what was met: all of it, in a long run */

enum met {
    WHOLE_TRACE, NO_EVENT, COUNT_1, COUNT_2, COUNT_3, PLACE_1, PLACE_2, SURPLUS,
    SHORT_NOTHING, SHORT_COUNT, SHORT_HALF_COUNT, SHORT_EVENT, SHORT_HALF_EVENT,
    PART_NONE, PART_BYTE, PART_FILE, PART_IN_COUNT, PART_IN_EVENT, PART_EVENTS, PART_SECTIONS,
    LINES_AND_FAULT, FAULT_ALONE, FAULT_NOT_LAST, HIGH_NUMBER, BAD_LINES,
    FITS, BYTE_SHORT, NO_BYTE, USUAL, OPEN_SHORT, CLOSE_SHORT, FAULT_SHORT, AGAIN,
    FED_AFTER_FAULT, CLOSED_AFTER_FAULT, FED_AFTER_CLOSE, CLOSED_AFTER_CLOSE, OPENED_AFTER, OVER_AND_RUBBISH,
    IMAGE_LENGTH, STATE_LENGTH, LENGTH_BEFORE_OVER, STATE_BEFORE_ROOM,
    NO_SECTION, FAR_SECTION, LEFT_MANY, EVENT_TOO_MANY, SUM_WRAPS, FIRST_BYTE, PIECE_WHOLE, GATHERED_FAR,
    LEFT_BEHIND, GATHERED_BEHIND, BYTE_BEHIND, ANY_WORDS,
    MOST_AT_COUNT, MOST_AT_EVENT, MOST_AT_END
};

static struct tally tallies[] = {
    [WHOLE_TRACE] = {"traces", "well-formed", 0},
    [NO_EVENT] = {"traces", "of them without an event", 0},
    [COUNT_1] = {"traces", "with a high count in section 1", 0},
    [COUNT_2] = {"traces", "in section 2", 0},
    [COUNT_3] = {"traces", "in section 3", 0},
    [PLACE_1] = {"traces", "with a misplaced event in section 1", 0},
    [PLACE_2] = {"traces", "in section 2", 0},
    [SURPLUS] = {"traces", "with bytes behind", 0},
    [SHORT_NOTHING] = {"too short", "of no byte", 0},
    [SHORT_COUNT] = {"too short", "before a count", 0},
    [SHORT_HALF_COUNT] = {"too short", "within a count", 0},
    [SHORT_EVENT] = {"too short", "before an event", 0},
    [SHORT_HALF_EVENT] = {"too short", "within an event", 0},
    [PART_NONE] = {"parts", "of no byte", 0},
    [PART_BYTE] = {"parts", "of one", 0},
    [PART_FILE] = {"parts", "of the whole file", 0},
    [PART_IN_COUNT] = {"parts", "that end in a count", 0},
    [PART_IN_EVENT] = {"parts", "that end in an event", 0},
    [PART_EVENTS] = {"parts", "with several lines", 0},
    [PART_SECTIONS] = {"parts", "that reach another section", 0},
    [LINES_AND_FAULT] = {"feedings", "with lines and the fault", 0},
    [FAULT_ALONE] = {"feedings", "with the fault alone", 0},
    [FAULT_NOT_LAST] = {"feedings", "with bytes behind the fault", 0},
    [HIGH_NUMBER] = {"feedings", "with lines of four digits", 0},
    [BAD_LINES] = {"feedings", "with lines of an image that is not good", 0},
    [FITS] = {"room", "just enough", 0},
    [BYTE_SHORT] = {"room", "a byte short", 0},
    [NO_BYTE] = {"room", "none", 0},
    [USUAL] = {"room", "that never gets a 9", 0},
    [OPEN_SHORT] = {"room", "too little to open", 0},
    [CLOSE_SHORT] = {"room", "too little to close", 0},
    [FAULT_SHORT] = {"room", "too little for a part with the fault", 0},
    [AGAIN] = {"room", "enough after too little", 0},
    [FED_AFTER_FAULT] = {"over", "fed after a fault", 0},
    [CLOSED_AFTER_FAULT] = {"over", "closed after a fault", 0},
    [FED_AFTER_CLOSE] = {"over", "fed after a closing", 0},
    [CLOSED_AFTER_CLOSE] = {"over", "closed after a closing", 0},
    [OPENED_AFTER] = {"over", "opened again", 0},
    [OVER_AND_RUBBISH] = {"over", "with rubbish behind the 5", 0},
    [IMAGE_LENGTH] = {"refused", "for the image's length", 0},
    [STATE_LENGTH] = {"refused", "for the state's length", 0},
    [LENGTH_BEFORE_OVER] = {"refused", "of these over", 0},
    [STATE_BEFORE_ROOM] = {"refused", "for the state, with no room", 0},
    [NO_SECTION] = {"states", "of section 0", 0},
    [FAR_SECTION] = {"states", "of a section above 5", 0},
    [LEFT_MANY] = {"states", "with too many events to come", 0},
    [EVENT_TOO_MANY] = {"states", "with an event too many", 0},
    [SUM_WRAPS] = {"states", "with a sum past 32 bits", 0},
    [FIRST_BYTE] = {"states", "with a misplaced event", 0},
    [PIECE_WHOLE] = {"states", "with a whole count or event", 0},
    [GATHERED_FAR] = {"states", "with more bytes than that", 0},
    [LEFT_BEHIND] = {"states", "with events to come in 4", 0},
    [GATHERED_BEHIND] = {"states", "with bytes in 4", 0},
    [BYTE_BEHIND] = {"states", "with a byte behind those there", 0},
    [ANY_WORDS] = {"states", "of any words", 0},
    [MOST_AT_COUNT] = {"states taken", "with the most events before a count", 0},
    [MOST_AT_EVENT] = {"states taken", "within a section", 0},
    [MOST_AT_END] = {"states taken", "behind the third", 0},
};

static void met(enum met what, int holds)
{
    tallies[what].times += holds != 0;
}

void check_streams(unsigned long steps)
{
    check_tallies("stream", tallies, sizeof tallies / sizeof tallies[0], steps);
}

/* ---- a call, as both make it */

enum calling { OPENING, FEEDING, CLOSING };

struct call {
    enum calling calling;
    uint8_t image[LONGEST_IMAGE], state[LONGEST_STATE], part[LONGEST_FILE];
    size_t image_len, state_len, part_len, text_len;
};

/* What one of the two made of it. */
struct effect {
    uint8_t image[LONGEST_IMAGE + 2 * GUARD], state[LONGEST_STATE + 2 * GUARD], part[LONGEST_FILE + 2 * GUARD];
    uint8_t text[LONGEST_TEXT + 2 * GUARD];
    uint64_t answer;
};

static const struct stream_calls ours = {frostsorrel_stream_open, frostsorrel_stream_feed,
                                         frostsorrel_stream_close};
static const struct stream_calls theirs = {reference_stream_open, reference_stream_feed, reference_stream_close};

static uint8_t lying[LONGEST_TEXT + 2 * GUARD]; /* what stands in the text before a call */

static void lend(uint8_t *arena, const uint8_t *bytes, size_t len)
{
    memset(arena, 0xA5, GUARD);
    memcpy(arena + GUARD, bytes, len);
    memset(arena + GUARD + len, 0xA5, GUARD);
}

static uint64_t answer_of(const struct call *c, const struct stream_calls *side, struct effect *e)
{
    uint8_t *image = e->image + GUARD, *state = e->state + GUARD, *text = e->text + GUARD;

    if (c->calling == FEEDING)
        return side->feed(image, c->image_len, state, c->state_len, e->part + GUARD, c->part_len, text,
                          c->text_len);
    return (c->calling == OPENING ? side->open : side->close)(image, c->image_len, state, c->state_len, text,
                                                               c->text_len);
}

static void put_effect(struct effect *e, const struct call *c, const struct stream_calls *side)
{
    lend(e->image, c->image, c->image_len);
    lend(e->state, c->state, c->state_len);
    lend(e->part, c->part, c->part_len);
    memcpy(e->text, lying, c->text_len + 2 * GUARD);
    e->answer = answer_of(c, side, e);
}

static int equal(const struct call *c, const struct effect *a, const struct effect *b)
{
    return a->answer == b->answer && memcmp(a->image, b->image, c->image_len + 2 * GUARD) == 0 &&
           memcmp(a->state, b->state, c->state_len + 2 * GUARD) == 0 &&
           memcmp(a->part, b->part, c->part_len + 2 * GUARD) == 0 &&
           memcmp(a->text, b->text, c->text_len + 2 * GUARD) == 0;
}

/* ---- a disagreement */

static int differ(const struct call *c)
{
    static struct effect one, other;

    put_effect(&one, c, &ours);
    put_effect(&other, c, &theirs);
    return !equal(c, &one, &other);
}

/* Without the end of the part that it does not need. */
static void shrink(struct call *c)
{
    while (c->part_len > 0) {
        c->part_len--;
        if (differ(c))
            continue;
        c->part_len++;
        return;
    }
}

static void print_bytes(const char *what, const uint8_t *bytes, size_t len)
{
    printf("    %s of %lu bytes:", what, (unsigned long)len);
    for (size_t i = 0; i < len && i < 64; i++)
        printf(" %02X", bytes[i]);
    printf("\n");
}

static void show(struct call c)
{
    static const char *const names[] = {"opening", "feeding", "closing"};
    static struct effect one, other;

    shrink(&c);
    put_effect(&one, &c, &ours);
    put_effect(&other, &c, &theirs);
    printf("    %s, an image of %lu bytes, a text of %lu\n", names[c.calling], (unsigned long)c.image_len,
           (unsigned long)c.text_len);
    print_bytes("state", c.state, c.state_len);
    if (c.calling == FEEDING)
        print_bytes("part", c.part, c.part_len);
    print_answer("library", one.answer);
    print_answer("reference", other.answer);
    print_first_byte("text", one.text, other.text, c.text_len + 2 * GUARD);
    print_first_byte("state", one.state, other.state, c.state_len + 2 * GUARD);
    print_first_byte("image", one.image, other.image, c.image_len + 2 * GUARD);
    print_first_byte("part", one.part, other.part, c.part_len + 2 * GUARD);
}

/* Both make the call; what the reference made of it stands in `e` afterwards. */
static void make_both(unsigned long number, const struct call *c, struct effect *e)
{
    static struct effect one;
    static int shown;
    int same;

    put_effect(&one, c, &ours);
    put_effect(e, c, &theirs);
    same = equal(c, &one, e);
    check(same, "step %lu: library and reference do not make the same call of a stream alike", number);
    if (!same && shown++ < MOST_SHOWN)
        show(*c);
}

/* ---- rooms */

/* The bytes that the call writes, whatever its room. */
static size_t bytes_of(const struct call *c)
{
    static struct call roomy;
    static struct effect e;

    roomy = *c;
    roomy.text_len = LONGEST_TEXT;
    put_effect(&e, &roomy, &theirs);
    return (size_t)frostsorrel_answer_count(e.answer);
}

/* What the header promises to be enough. */
static size_t usual_room(const struct call *c)
{
    switch (c->calling) {
    case OPENING: return FROSTSORREL_STREAM_OPEN_BYTES;
    case FEEDING: return c->part_len + FROSTSORREL_STREAM_FEED_BYTES;
    default: return FROSTSORREL_STREAM_CLOSE_BYTES;
    }
}

static size_t draw_room(const struct call *c, size_t whole)
{
    switch (draw(10)) {
    case 0: return 0;
    case 1: case 2: return whole - (whole > 0);
    case 3: case 4: return whole;
    case 5: return draw((uint32_t)whole + 1);
    case 6: return usual_room(c) - 1;
    case 7: return whole + 1 + draw(8);
    default: return usual_room(c);
    }
}

static uint32_t refusal_of(const struct effect *e)
{
    return frostsorrel_answer_refusal(e->answer);
}

static void count_room(const struct call *c, const struct effect *e, size_t whole)
{
    int too_little = refusal_of(e) == FROSTSORREL_NO_ROOM;

    met(FITS, whole > 0 && c->text_len == whole && frostsorrel_answer_count(e->answer) == whole);
    met(USUAL, whole > 0 && c->text_len == usual_room(c) && frostsorrel_answer_count(e->answer) == whole);
    met(BYTE_SHORT, too_little && c->text_len + 1 == whole);
    met(NO_BYTE, too_little && c->text_len == 0);
    met(OPEN_SHORT, too_little && c->calling == OPENING);
    met(CLOSE_SHORT, too_little && c->calling == CLOSING);
}

/* ---- the calls of a stream: each goes on with what the one before it left */

static struct call next;             /* image and state as they stand */
static uint8_t told[LONGEST_TEXT * 2 + MANY * EVENT_BYTES]; /* all its text, one call's behind the other's */
static size_t told_len;
static uint32_t last_refusal; /* of a call that was not made over */

static void go_on(const struct effect *e)
{
    size_t bytes = (size_t)frostsorrel_answer_count(e->answer);

    memcpy(next.image, e->image + GUARD, next.image_len);
    memcpy(next.state, e->state + GUARD, next.state_len);
    memcpy(told + told_len, e->text + GUARD, bytes);
    told_len += bytes;
}

/* Where the room is too small, the same call comes again with enough. */
static void call_on(unsigned long number, enum calling calling)
{
    static struct effect e;
    int over = calling != OPENING && word_of(next.state, SECTION) == OVER;
    size_t whole;

    next.calling = calling;
    if (calling != FEEDING)
        next.part_len = 0;
    whole = bytes_of(&next);
    next.text_len = draw_room(&next, whole);
    make_both(number, &next, &e);
    check(next.text_len < usual_room(&next) || refusal_of(&e) != FROSTSORREL_NO_ROOM,
          "step %lu: a call of a stream with the room that is said to be enough", number);
    count_room(&next, &e, whole);
    if (refusal_of(&e) == FROSTSORREL_NO_ROOM) {
        go_on(&e);
        next.text_len = draw(2) ? whole : usual_room(&next);
        make_both(number, &next, &e);
        met(AGAIN, refusal_of(&e) != FROSTSORREL_NO_ROOM);
        met(FAULT_SHORT, calling == FEEDING && refusal_of(&e) == FROSTSORREL_BAD_TRACE);
    }
    go_on(&e);
    last_refusal = over ? last_refusal : refusal_of(&e);
}

/* ---- calls on copies, which are not the stream's own */

/* How many events a state may have, complete or not. */
static uint32_t most_events(const uint8_t *state)
{
    uint32_t section = word_of(state, SECTION);

    return LIMIT * (word_of(state, LEFT) == 0 ? section - 1 : section);
}

/* Often at one of the ends. */
static uint32_t draw_up_to(uint32_t most)
{
    switch (draw(4)) {
    case 0: return most;
    case 1: return most - (most > 0);
    case 2: return most == 0 ? 0 : draw(most < 4 ? most : 4);
    default: return draw(most + 1);
    }
}

static uint8_t draw_operation(uint32_t section)
{
    static const uint8_t second[] = {FROSTSORREL_WRITE_REGISTER, FROSTSORREL_OPTIONS};

    switch (section) {
    case 1: return FROSTSORREL_WRITE_MAILBOX;
    case 2: return second[draw(2)];
    default: return (uint8_t)draw(draw(8) ? 11 : 256);
    }
}

/* Of a section whose events come, or whose count does; behind the third one there is nothing to come. */
static void draw_state(uint8_t *state, uint32_t section, int events)
{
    uint32_t gathered;

    memset(state, 0, STATE_BYTES);
    put(state, SECTION, section);
    put(state, LEFT, events ? 1 + draw_up_to(LIMIT - 1) : 0);
    put(state, STEPS, draw_up_to(most_events(state) - word_of(state, LEFT)));
    gathered = section == BEHIND ? 0 : draw(events ? EVENT_BYTES : 2);
    put(state, GATHERED, gathered);
    draw_bytes(state + FIRST_GATHERED, gathered);
    if (events && gathered > 0)
        state[FIRST_GATHERED] = draw_operation(section);
}

static void draw_any_state(uint8_t *state)
{
    uint32_t section = 1 + draw(4);

    draw_state(state, section, section != BEHIND && draw(3));
}

static void put_event_too_many(uint8_t *state)
{
    uint32_t more = draw(4) ? 1 : 1 + draw(1u << 16);

    draw_any_state(state);
    put(state, STEPS, most_events(state) - word_of(state, LEFT) + more);
}

/* Together with the events that are left it is small again. */
static void put_wrapping_sum(uint8_t *state)
{
    draw_state(state, 1 + draw(3), 1);
    put(state, STEPS, 0xFFFFFFFF - draw(word_of(state, LEFT)));
}

/* Not too many of all sections, but for one. */
static void put_left_many(uint8_t *state)
{
    uint32_t section = 2 + draw(2), more = draw(2) ? 1 : 1 + draw(LIMIT * (section - 1));

    draw_state(state, section, 1);
    put(state, LEFT, LIMIT + more);
    put(state, STEPS, draw_up_to(LIMIT * (section - 1) - more));
}

static void put_misplaced_byte(uint8_t *state)
{
    uint32_t section = 1 + draw(2), gathered = 1 + draw(EVENT_BYTES - 1);

    draw_state(state, section, 1);
    memset(state + FIRST_GATHERED, 0, EVENT_BYTES);
    put(state, GATHERED, gathered);
    draw_bytes(state + FIRST_GATHERED, gathered);
    do
        state[FIRST_GATHERED] = (uint8_t)draw(draw(2) ? 11 : 256);
    while (has_place((int)section - 1, state[FIRST_GATHERED]));
}

static void put_whole_piece(uint8_t *state)
{
    uint32_t events = draw(2);

    draw_state(state, 1 + draw(3), (int)events);
    if (events && word_of(state, GATHERED) == 0)
        state[FIRST_GATHERED] = draw_operation(word_of(state, SECTION));
    put(state, GATHERED, events ? EVENT_BYTES : 2);
}

static void put_byte_behind(uint8_t *state)
{
    uint32_t gathered, at;

    draw_any_state(state);
    gathered = word_of(state, GATHERED);
    at = gathered + draw(EVENT_BYTES - gathered);
    state[FIRST_GATHERED + at] = (uint8_t)(1 + draw(255));
}

static void put_behind(uint8_t *state, int word)
{
    draw_state(state, BEHIND, 0);
    put(state, STEPS, draw(LIMIT));
    put(state, word, draw(2) ? 1 : 1 + draw(LIMIT));
}

/* A state that no call leaves, for this one reason where that can be. */
static void damage(uint8_t *state, enum met reason)
{
    draw_any_state(state);
    switch (reason) {
    case NO_SECTION: put(state, SECTION, 0); break;
    case FAR_SECTION: put(state, SECTION, draw(2) ? 6 : OVER + 1 + draw(0xFFFFFFF0)); break;
    case LEFT_MANY: put_left_many(state); break;
    case EVENT_TOO_MANY: put_event_too_many(state); break;
    case SUM_WRAPS: put_wrapping_sum(state); break;
    case FIRST_BYTE: put_misplaced_byte(state); break;
    case PIECE_WHOLE: put_whole_piece(state); break;
    case GATHERED_FAR: put(state, GATHERED, EVENT_BYTES + 1 + draw(0xFFFFFFEE)); break;
    case LEFT_BEHIND: put_behind(state, LEFT); break;
    case GATHERED_BEHIND: put_behind(state, GATHERED); break;
    case BYTE_BEHIND: put_byte_behind(state); break;
    case OVER_AND_RUBBISH:
        draw_bytes(state, STATE_BYTES);
        put(state, SECTION, OVER);
        break;
    default: draw_bytes(state, STATE_BYTES);
    }
}

static struct call other; /* the copy that is spoiled */

static void make_other(unsigned long number, struct effect *e)
{
    other.text_len = draw(3) ? usual_room(&other) : draw(8);
    make_both(number, &other, e);
}

static size_t wrong_length(size_t right, size_t longest)
{
    size_t any = draw((uint32_t)longest + 1), near = draw(2) ? right - 1 : right + 1;

    return draw(2) || any == right ? near : any;
}

static void try_lengths(unsigned long number)
{
    static struct effect e;
    uint32_t which = 1 + draw(3);

    if (draw(4) == 0)
        put(other.state, SECTION, OVER);
    if (which & 1)
        other.image_len = wrong_length(BYTES, LONGEST_IMAGE);
    if (which & 2)
        other.state_len = wrong_length(STATE_BYTES, LONGEST_STATE);
    make_other(number, &e);
    met(IMAGE_LENGTH, which == 1 && refusal_of(&e) == FROSTSORREL_BAD_IMAGE);
    met(STATE_LENGTH, which == 2 && refusal_of(&e) == FROSTSORREL_BAD_IMAGE);
    met(LENGTH_BEFORE_OVER, word_of(other.state, SECTION) == OVER && refusal_of(&e) == FROSTSORREL_BAD_IMAGE);
}

static void try_state(unsigned long number)
{
    static const enum met reasons[] = {
        NO_SECTION, FAR_SECTION, LEFT_MANY, EVENT_TOO_MANY, SUM_WRAPS, FIRST_BYTE, PIECE_WHOLE, GATHERED_FAR,
        LEFT_BEHIND, GATHERED_BEHIND, BYTE_BEHIND, ANY_WORDS, OVER_AND_RUBBISH};
    static struct effect e;
    enum met reason = reasons[draw(sizeof reasons / sizeof reasons[0])];
    uint32_t wanted = reason == OVER_AND_RUBBISH ? FROSTSORREL_BAD_TRACE : FROSTSORREL_BAD_IMAGE;

    if (other.calling == OPENING)
        other.calling = draw(2) ? FEEDING : CLOSING;
    damage(other.state, reason);
    make_other(number, &e);
    check(refusal_of(&e) == wanted, "step %lu: a stream, %s, %s: refusal %lu", number, tallies[reason].kind,
          tallies[reason].what, (unsigned long)refusal_of(&e));
    met(reason, refusal_of(&e) == wanted);
    met(STATE_BEFORE_ROOM, refusal_of(&e) == FROSTSORREL_BAD_IMAGE && other.text_len == 0);
}

/* Its lines say 1, and it stays. */
static void try_image(unsigned long number)
{
    static struct effect e;

    other.calling = FEEDING;
    if (draw(4))
        spoil(other.image);
    else
        draw_bytes(other.image, BYTES);
    make_other(number, &e);
    met(BAD_LINES, memcmp(other.image, e.image + GUARD, BYTES) == 0 && frostsorrel_answer_count(e.answer) > 16 &&
                       frostsorrel_read_refusal(reference_read(other.image, BYTES, FROSTSORREL_GSR)) != 0);
}

static void try_opening(unsigned long number)
{
    static struct effect e;

    other.calling = OPENING;
    make_other(number, &e);
    met(OPENED_AFTER, word_of(other.state, SECTION) == OVER && refusal_of(&e) == FROSTSORREL_ACCEPTED);
}

static void try_other_calls(unsigned long number)
{
    static const enum calling callings[] = {OPENING, FEEDING, FEEDING, CLOSING};

    other = next;
    other.calling = callings[draw(4)];
    switch (draw(8)) {
    case 0: try_lengths(number); break;
    case 1: case 2: case 3: try_state(number); break;
    case 4: case 5: try_image(number); break;
    case 6: try_opening(number); break;
    default: break;
    }
}

/* ---- what is told of a whole file, read from its front: the lines up to the fault, and the last image */

struct whole {
    uint8_t text[LONGEST_TEXT * 2], image[BYTES];
    size_t len;
    uint32_t refusal;
    unsigned events;
};

static void add_words(struct whole *w, const char *words)
{
    memcpy(w->text + w->len, words, strlen(words));
    w->len += strlen(words);
}

static void add_line(struct whole *w, const uint8_t *event)
{
    uint64_t answer = reference_step(w->image, BYTES, event, EVENT_BYTES);
    char line[64];

    snprintf(line, sizeof line, "%u %u %u %u\n", ++w->events, (unsigned)frostsorrel_answer_refusal(answer),
             (unsigned)frostsorrel_answer_mailbox(answer), (unsigned)frostsorrel_answer_count(answer));
    add_words(w, line);
}

static void refuse(struct whole *w, enum met fault)
{
    met(fault, 1);
    add_words(w, "trace refused 8\n");
    w->refusal = FROSTSORREL_BAD_TRACE;
}

/* Answers how many bytes the count and its events have, 0 where the fault is among them. */
static size_t tell_section(struct whole *w, int section, const uint8_t *file, size_t len)
{
    size_t at = 2, end;

    if (len < 2) {
        refuse(w, len == 1 ? SHORT_HALF_COUNT : section == 0 ? SHORT_NOTHING : SHORT_COUNT);
        return 0;
    }
    end = 2 + EVENT_BYTES * (file[0] + 256u * file[1]);
    if (end > 2 + EVENT_BYTES * LIMIT) {
        refuse(w, COUNT_1 + section);
        return 0;
    }
    for (; at < end; at += EVENT_BYTES) {
        if (at < len && !has_place(section, file[at])) {
            refuse(w, PLACE_1 + section);
            return 0;
        }
        if (len < at + EVENT_BYTES) {
            refuse(w, at < len ? SHORT_HALF_EVENT : SHORT_EVENT);
            return 0;
        }
        add_line(w, file + at);
    }
    return end;
}

static void tell_whole(struct whole *w, const uint8_t *file, size_t len)
{
    char last[20];

    put_fresh(w->image);
    w->len = w->events = 0;
    w->refusal = FROSTSORREL_ACCEPTED;
    add_words(w, "step code mailbox count\n");
    for (int section = 0; section < SECTIONS; section++) {
        size_t bytes = tell_section(w, section, file, len);

        if (bytes == 0)
            return;
        file += bytes;
        len -= bytes;
    }
    if (len > 0) {
        refuse(w, SURPLUS);
        return;
    }
    met(WHOLE_TRACE, 1);
    met(NO_EVENT, w->events == 0);
    snprintf(last, sizeof last, "end %u\n", w->events);
    add_words(w, last);
}

/* However the file was cut. */
static void check_told(unsigned long number, const uint8_t *file, size_t len)
{
    static struct whole w;
    static char listing[LISTING_ROOM];
    size_t listed = reference_list(listing, file, len);

    tell_whole(&w, file, len);
    check(told_len == w.len && memcmp(told, w.text, w.len) == 0, "step %lu: the stream does not tell the file",
          number);
    check(last_refusal == w.refusal, "step %lu: the stream ends with refusal %lu", number,
          (unsigned long)last_refusal);
    check(memcmp(next.image, w.image, BYTES) == 0, "step %lu: the stream leaves another image", number);
    if (w.refusal == FROSTSORREL_ACCEPTED)
        check(told_len == listed && memcmp(told, listing, listed) == 0,
              "step %lu: the stream tells another listing", number);
    else
        check(listed == 16, "step %lu: the whole file is a trace", number);
}

/* ---- files */

static void draw_well_formed(struct trace *t)
{
    size_t counts[SECTIONS];
    uint32_t most = draw(16) ? FEW : MANY + 1;

    for (int section = 0; section < SECTIONS; section++)
        counts[section] = draw(most);
    draw_trace(t, counts, draw(2) ? likely_event : varied_event);
}

/* Just too high, by its high byte alone, or any. */
static size_t draw_high_count(void)
{
    switch (draw(4)) {
    case 0: return LIMIT + 1;
    case 1: return 1024;
    case 2: return 65535;
    default: return LIMIT + 1 + draw(65535 - LIMIT);
    }
}

static void misplace_one(struct trace *t)
{
    int section = (int)draw(2);

    if (count_of(t, section) > 0)
        misplace(t, section);
}

static void draw_file(struct trace *t)
{
    int section = (int)draw(SECTIONS);

    draw_well_formed(t);
    switch (draw(12)) {
    case 0: case 1: put_count(t, section, draw_high_count()); break;
    case 2: put_count(t, section, LIMIT - draw(2)); break; /* it is not there */
    case 3: case 4: misplace_one(t); break;
    case 5:
        draw_bytes(t->bytes + t->len, 20);
        t->len += 1 + draw(20);
        break;
    case 6: case 7: t->len = draw((uint32_t)t->len); break;
    case 8:
        t->len = draw(2) ? 6 : draw(4);
        memset(t->bytes, 0, t->len);
        break;
    default: break;
    }
}

/* ---- cuts */

enum cut { WHOLE, BYTE_BY_BYTE, SMALL, BY_EVENTS, ANYWHERE, CUTS };

static size_t draw_part(enum cut cut, size_t left)
{
    size_t len = 0;

    switch (cut) {
    case WHOLE: len = left; break;
    case BYTE_BY_BYTE: len = draw(8) != 0; break;
    case SMALL: len = draw(5); break;
    case BY_EVENTS: len = EVENT_BYTES - 1 + draw(3); break;
    default: len = draw((uint32_t)left + 1);
    }
    return len < left ? len : left;
}

static int is_over(void)
{
    return word_of(next.state, SECTION) == OVER;
}

/* How many lines were told since then. */
static unsigned lines_since(size_t before)
{
    unsigned lines = 0;

    for (size_t i = before; i < told_len; i++)
        lines += told[i] == '\n';
    return lines;
}

/* Is the fault among these bytes without the last? */
static int has_fault_before_the_last(const struct call *c)
{
    static struct call less;
    static struct effect e;

    less = *c;
    less.part_len -= less.part_len > 0;
    less.text_len = LONGEST_TEXT;
    put_effect(&e, &less, &theirs);
    return refusal_of(&e) == FROSTSORREL_BAD_TRACE;
}

/* Of a feeding that was not made over. */
static void count_feeding(const struct call *before, unsigned lines)
{
    const uint8_t *state = next.state;
    int fault = is_over(), reads_count = word_of(state, LEFT) == 0, gathered = word_of(state, GATHERED) > 0;

    met(PART_NONE, before->part_len == 0);
    met(PART_BYTE, before->part_len == 1);
    met(PART_IN_COUNT, !fault && reads_count && gathered);
    met(PART_IN_EVENT, !fault && !reads_count && gathered);
    met(PART_EVENTS, !fault && lines > 1);
    met(PART_SECTIONS, !fault && word_of(state, SECTION) > word_of(before->state, SECTION));
    met(LINES_AND_FAULT, fault && lines > 1);
    met(FAULT_ALONE, fault && lines == 1);
    met(FAULT_NOT_LAST, fault && has_fault_before_the_last(before));
    met(HIGH_NUMBER, !fault && lines > 0 && word_of(state, STEPS) >= 1000);
}

static void feed(unsigned long number, const uint8_t *part, size_t len)
{
    static struct call before;
    size_t told_before = told_len;
    int over = is_over();

    memcpy(next.part, part, len);
    next.part_len = len;
    if (draw(4) == 0)
        try_other_calls(number);
    before = next;
    call_on(number, FEEDING);
    if (!over)
        count_feeding(&before, lines_since(told_before));
}

/* Up to the fault, and a few parts behind it. */
static void feed_file(unsigned long number, const uint8_t *file, size_t len)
{
    enum cut cut = (enum cut)draw(CUTS);
    int behind = 0;

    for (size_t at = 0, part; at < len && behind < 3; at += part) {
        int over = is_over();

        part = draw_part(cut, len - at);
        feed(number, file + at, part);
        behind += over;
        met(PART_FILE, part == len);
        met(FED_AFTER_FAULT, over);
    }
}

/* ---- streams */

static void begin(void)
{
    draw_bytes(lying, sizeof lying);
    draw_bytes(next.image, LONGEST_IMAGE);
    draw_bytes(next.state, LONGEST_STATE);
    next.image_len = BYTES;
    next.state_len = STATE_BYTES;
    next.part_len = 0;
    told_len = 0;
}

static void end(unsigned long number, const uint8_t *bytes)
{
    size_t len = draw(3);

    met(CLOSED_AFTER_FAULT, is_over());
    call_on(number, CLOSING);
    feed(number, bytes, len);
    met(FED_AFTER_CLOSE, 1);
    call_on(number, CLOSING);
    met(CLOSED_AFTER_CLOSE, 1);
    if (draw(2) == 0)
        try_other_calls(number);
}

static void stream_file(unsigned long number)
{
    static struct trace t;

    draw_file(&t);
    begin();
    if (draw(4) == 0)
        try_other_calls(number);
    call_on(number, OPENING);
    feed_file(number, t.bytes, t.len);
    end(number, t.bytes);
    check_told(number, t.bytes, t.len);
}

/* What completes the piece that is being read. Answers how many bytes. */
static size_t draw_rest(uint8_t *bytes, const uint8_t *state)
{
    uint32_t gathered = word_of(state, GATHERED), lacking;

    if (word_of(state, SECTION) == BEHIND)
        return 0;
    lacking = (word_of(state, LEFT) == 0 ? 2 : EVENT_BYTES) - gathered;
    for (uint32_t i = 0; i < lacking; i++)
        bytes[i] = (uint8_t)draw(draw(3) ? 3 : 256);
    if (gathered == 0 && word_of(state, LEFT) > 0)
        bytes[0] = draw_operation(word_of(state, SECTION));
    return lacking;
}

/* The rest of a piece, some events for this image, and some zeros, which may be counts or an event. */
static size_t draw_continuation(uint8_t *bytes, const struct call *c)
{
    uint8_t event[LONGEST_EVENT];
    uint32_t events = draw(4), zeros = draw(8);
    size_t len = draw_rest(bytes, c->state);

    for (uint32_t i = 0; i < events; i++, len += EVENT_BYTES) {
        varied_event(event, c->image);
        event[0] = draw(8) ? draw_operation(word_of(c->state, SECTION)) : event[0];
        memcpy(bytes + len, event, EVENT_BYTES);
    }
    memset(bytes + len, 0, zeros);
    return len + zeros;
}

static void count_most_events(const uint8_t *state)
{
    uint32_t events = word_of(state, STEPS) + word_of(state, LEFT), section = word_of(state, SECTION);
    int most = events == most_events(state) && last_refusal != FROSTSORREL_BAD_IMAGE;

    met(MOST_AT_COUNT, most && section > 1 && section < BEHIND && word_of(state, LEFT) == 0);
    met(MOST_AT_EVENT, most && word_of(state, LEFT) > 0);
    met(MOST_AT_END, most && section == BEHIND);
}

/* From a state that some trace leads to, on any good image. */
static void stream_within(unsigned long number)
{
    uint8_t bytes[8 * EVENT_BYTES] = {0}, first[STATE_BYTES];
    uint32_t parts = 1 + draw(4);

    begin();
    good_image(next.image);
    draw_any_state(next.state);
    memcpy(first, next.state, STATE_BYTES);
    for (uint32_t i = 0; i < parts && !is_over(); i++) {
        size_t len = draw_continuation(bytes, &next);

        feed(number, bytes, draw(3) ? len : draw((uint32_t)len + 1));
        if (i == 0)
            count_most_events(first);
    }
    end(number, bytes);
}

void compare_stream(unsigned long number)
{
    if (draw(3) == 0)
        stream_within(number);
    else
        stream_file(number);
}
