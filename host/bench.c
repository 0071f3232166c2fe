/*
 * The speed of the library beside that of the plain C: bench [ROUNDS [SEED]].
 *
 * A stream is many runs, each an image and the events that follow, or many pairs: of images to compare, or of
 * an image and a frame to explain; or traces that are fed in parts, where the time is that of an event. All of
 * it is drawn before the clock starts, and both sides get the same. A round lets each side go through the whole
 * stream; the best round counts. Answers, images, lists and texts must come out equal, so that no wrong work is
 * measured. Runs are of a CAN-B, but for the streams that name the eCAN or its guards, which are protected mailboxes.
 *
 * In the end it says how many bytes of the stack each call of a stream takes.
 */
#include <stdlib.h>
#include <time.h>

#include "check.h"
#include "events.h"
#include "generate.h"
#include "image.h"
#include "reference.h"
#include "stack.h"
#include "traces.h"

#define RUNS 64
#define LENGTH 512 /* events in a run */
#define STEPS (RUNS * LENGTH)
#define PAIRS 512 /* a round takes each of them STEPS / PAIRS times */
#define MOST_ROUNDS 1000

#define TRACES 32
#define SETUP_EVENTS 12                                      /* of each of the first two sections of a trace */
#define THIRD_EVENTS (STEPS / TRACES - 2 * SETUP_EVENTS)     /* all traces have STEPS events together */
#define MOST_PARTS (STEPS / TRACES * EVENT_BYTES + 6)        /* a byte each */
#define TEXT_BYTES (FROSTSORREL_LISTING_BYTES + 64 + FROSTSORREL_STREAM_FEED_BYTES)

struct stream {
    uint8_t images[RUNS][BYTES];
    uint8_t events[STEPS][LONGEST_EVENT];
    size_t lengths[STEPS];
};

/* What a side makes of a stream. */
struct side {
    uint8_t images[RUNS][BYTES];
    uint64_t answers[STEPS];
    double best; /* nanoseconds a step */
};

/* Two images, or an image and a frame: all the second ones of a stream have one length. */
struct pairs {
    uint8_t first[PAIRS][BYTES], second[PAIRS][BYTES];
    size_t second_len;
};

/* What a side makes of the pairs. */
struct lists {
    uint8_t lists[PAIRS][FROSTSORREL_DIFFERENCE_BYTES];
    uint64_t answers[PAIRS];
    double best; /* nanoseconds a call */
};

/* Traces, how they are cut, and the room that each part gets. */
struct feeds {
    struct trace traces[TRACES];
    uint16_t parts[TRACES][MOST_PARTS], rooms[TRACES][MOST_PARTS];
    size_t counts[TRACES];
};

/* What a side makes of them: the texts of a trace stand one behind the other. */
struct told {
    uint8_t images[TRACES][BYTES], states[TRACES][FROSTSORREL_STREAM_BYTES], texts[TRACES][TEXT_BYTES];
    size_t lengths[TRACES];
    uint64_t last[TRACES];
    double best; /* nanoseconds an event */
};

static const struct stream_calls our_calls = {frostsorrel_stream_open, frostsorrel_stream_feed,
                                              frostsorrel_stream_close};
static const struct stream_calls their_calls = {reference_stream_open, reference_stream_feed,
                                                reference_stream_close};

typedef uint64_t step_function(uint8_t *, size_t, const uint8_t *, size_t);
typedef void image_function(uint8_t *image);
typedef size_t event_function(uint8_t *event, const uint8_t *image);
typedef void pairs_function(struct pairs *p);
typedef size_t part_function(void);

/* ---- the streams */

static void can_b_image(uint8_t *image)
{
    good_image_of(image, CAN_B);
}

static void ecan_image(uint8_t *image)
{
    good_image_of(image, ECAN);
}

/* A good image on the bus, with nothing in the slot, and these mailboxes receiving. */
static void on_bus(uint8_t *image, uint32_t profile, uint32_t receiving)
{
    do
        good_image_of(image, profile);
    while (word_of(image, MODE) != NORMAL_MODE || word_of(image, SLOT) != EMPTY_SLOT ||
           word_of(image, TEC) == BUS_OFF_TEC);
    put(image, TEC, 0);
    put(image, MC, 0xFFFFFFFF);
    put(image, MD, receiving);
    put(image, TRS, word_of(image, TRS) & ~receiving);
    put(image, CDR, 0);
}

static size_t given(uint8_t *event, struct event e)
{
    memcpy(event, e.bytes, EVENT_BYTES);
    return EVENT_BYTES;
}

/* Identifiers come from small pools: with every mailbox in them, most searches would end at once. */
static void seldom_matching(uint8_t *image)
{
    for (int n = 0; n < 31; n++)
        if (draw(8))
            put(image, MAILBOX(n, 0), STANDARD(0x400 + n) | (word_of(image, MAILBOX(n, 0)) & RFH));
}

static void receiving_image(uint8_t *image)
{
    on_bus(image, CAN_B, 0xFFFFFF00);
    seldom_matching(image);
}

static void receiving_ecan(uint8_t *image)
{
    on_bus(image, ECAN, 0xFFFFFF00);
    seldom_matching(image);
}

/* All that the frames of these pools come to first is held and protected; from 11 down nothing is. */
static void guarded_image(uint8_t *image)
{
    on_bus(image, ECAN, 0xFFFFFF00);
    put(image, RMP, 0xFFFFF000);
    put(image, RML, 0);
    put(image, RFP, 0);
    put(image, PROTECTION, 0xFFFFF000);
}

static size_t frame(uint8_t *event, const uint8_t *image)
{
    size_t len;

    do
        len = varied_event(event, image);
    while (len != EVENT_BYTES || event[0] != FROSTSORREL_FRAME);
    return len;
}

/* Of twenty events, eighteen are frames; the firmware takes what came, and the clock ticks. */
static size_t receiving_event(uint8_t *event, const uint8_t *image)
{
    switch (draw(20)) {
    case 0: return given(event, write_register(RMP, word_of(image, RMP)));
    case 1: return given(event, tick());
    default: return frame(event, image);
    }
}

/* The same, but the firmware takes what one mailbox holds, so that the others go on passing frames over. */
static size_t guarded_event(uint8_t *event, const uint8_t *image)
{
    switch (draw(20)) {
    case 0: return given(event, write_register(RMP, 1u << (8 + draw(24))));
    case 1: return given(event, tick());
    default: return frame(event, image);
    }
}

/* All but mailbox 31 send; half of the images send by arbitration key. */
static void sending_image(uint8_t *image)
{
    on_bus(image, CAN_B, 0x80000000);
}

static void sending_ecan(uint8_t *image)
{
    on_bus(image, ECAN, 0x80000000);
}

static struct event sending_outcome(void)
{
    static const int failures[] = {ARBITRATION_LOST, ERROR, UNACKNOWLEDGED};
    uint32_t n = draw(16);

    return outcome(n < 3 ? failures[n] : SENT);
}

/* Requests, starts and outcomes in turn; a cancel now and then, and the way back from bus off. */
static size_t sending_event(uint8_t *event, const uint8_t *image)
{
    uint32_t one = 1u << draw(31), other = 1u << draw(31);

    if (word_of(image, TEC) == BUS_OFF_TEC)
        return given(event, recessive());
    if (draw(16) == 0)
        return given(event, write_register(TRR, one));
    if (word_of(image, SLOT) != EMPTY_SLOT)
        return given(event, sending_outcome());
    if (word_of(image, TRS) == 0 || draw(3) == 0)
        return given(event, write_register(TRS, one | other));
    return given(event, start());
}

/* Nothing waits, and the lowest number would go first: a start looks for one, and finds none. */
static void idle_image(uint8_t *image)
{
    sending_image(image);
    put(image, TRS, 0);
    put(image, OPTIONS, word_of(image, OPTIONS) & ~(uint32_t)FROSTSORREL_MTOS);
}

static size_t idle_event(uint8_t *event, const uint8_t *image)
{
    (void)image;
    return given(event, start());
}

static void draw_stream(struct stream *s, image_function *first, event_function *next)
{
    uint8_t image[BYTES];

    for (size_t i = 0; i < STEPS; i++) {
        if (i % LENGTH == 0) {
            first(image);
            memcpy(s->images[i / LENGTH], image, BYTES);
        }
        s->lengths[i] = next(s->events[i], image);
        reference_step(image, BYTES, s->events[i], s->lengths[i]);
    }
}

/* An image and the next one of its run, from eight runs: few words differ, or none. */
static void draw_neighbours(struct pairs *p)
{
    uint8_t image[BYTES], event[LONGEST_EVENT];

    p->second_len = BYTES;
    for (size_t i = 0; i < PAIRS; i++) {
        size_t len;

        if (i % (PAIRS / 8) == 0)
            good_image(image);
        memcpy(p->first[i], image, BYTES);
        len = likely_event(event, image);
        reference_step(image, BYTES, event, len);
        memcpy(p->second[i], image, BYTES);
    }
}

/* Good images that have nothing to do with each other: nearly all words differ. */
static void draw_strangers(struct pairs *p)
{
    p->second_len = BYTES;
    for (size_t i = 0; i < PAIRS; i++) {
        good_image(p->first[i]);
        good_image(p->second[i]);
    }
}

/* Images of one kind, and a frame for each. */
static void draw_frames_for(struct pairs *p, image_function *first)
{
    p->second_len = EVENT_BYTES;
    for (size_t i = 0; i < PAIRS; i++) {
        first(p->first[i]);
        frame(p->second[i], p->first[i]);
    }
}

/* Those of the frame-heavy stream: most explanations are long. */
static void draw_questions(struct pairs *p)
{
    draw_frames_for(p, receiving_image);
}

static void draw_guarded_questions(struct pairs *p)
{
    draw_frames_for(p, guarded_image);
}

/* As a cable may bring them: one event at the least, four at the most. */
static size_t some_events(void)
{
    return EVENT_BYTES + draw(3 * EVENT_BYTES + 1);
}

static size_t one_byte(void)
{
    return 1;
}

/* Room for any text of its part. */
static void cut_trace(struct feeds *f, size_t trace, part_function *part)
{
    size_t at = 0, count = 0;

    while (at < f->traces[trace].len) {
        size_t left = f->traces[trace].len - at, len = part();

        len = len < left ? len : left;
        f->parts[trace][count] = (uint16_t)len;
        f->rooms[trace][count++] = (uint16_t)(len + FROSTSORREL_STREAM_FEED_BYTES);
        at += len;
    }
    f->counts[trace] = count;
}

/* Each starts with a set-up of its own and goes on as the mixed stream does. */
static void draw_feeds(struct feeds *f, part_function *part)
{
    static const size_t counts[SECTIONS] = {SETUP_EVENTS, SETUP_EVENTS, THIRD_EVENTS};

    for (size_t i = 0; i < TRACES; i++) {
        draw_trace(&f->traces[i], counts, likely_event);
        cut_trace(f, i, part);
    }
}

/* Just the room that the reference needs for each part. */
static void make_tight(struct feeds *f)
{
    uint8_t image[BYTES], state[FROSTSORREL_STREAM_BYTES], text[128];

    for (size_t i = 0; i < TRACES; i++) {
        const uint8_t *at = f->traces[i].bytes;

        reference_stream_open(image, BYTES, state, sizeof state, text, sizeof text);
        for (size_t k = 0; k < f->counts[i]; k++) {
            uint64_t answer =
                reference_stream_feed(image, BYTES, state, sizeof state, at, f->parts[i][k], text, sizeof text);

            f->rooms[i][k] = (uint16_t)frostsorrel_answer_count(answer);
            at += f->parts[i][k];
        }
    }
}

/* ---- the clock */

/* Processor time, which other programs on the machine disturb less than the time of day. */
static double seconds(void)
{
    return (double)clock() / CLOCKS_PER_SEC;
}

/* The best round is 0 before the first. */
static void keep_best(double *best, double began)
{
    double taken = (seconds() - began) * 1e9 / STEPS;

    if (*best == 0 || taken < *best)
        *best = taken;
}

static double print_ratio(const char *name, double ours, double theirs)
{
    printf("%-12s %8.1f %8.1f %8.3f\n", name, ours, theirs, ours / theirs);
    return ours / theirs;
}

static void run_stream(const struct stream *s, struct side *side, step_function *step)
{
    for (size_t i = 0; i < STEPS; i++)
        side->answers[i] = step(side->images[i / LENGTH], BYTES, s->events[i], s->lengths[i]);
}

static void time_round(const struct stream *s, struct side *side, step_function *step)
{
    double began;

    memcpy(side->images, s->images, sizeof side->images);
    began = seconds();
    run_stream(s, side, step);
    keep_best(&side->best, began);
}

static void check_equal(const char *name, const struct side *ours, const struct side *theirs)
{
    check(memcmp(ours->answers, theirs->answers, sizeof ours->answers) == 0,
          "%s: library and plain C answer differently", name);
    check(memcmp(ours->images, theirs->images, sizeof ours->images) == 0,
          "%s: library and plain C leave different images", name);
}

/* Answers the ratio of this stream. */
static double measure(const char *name, image_function *first, event_function *next, unsigned long rounds)
{
    static struct stream s;
    static struct side ours, theirs;

    draw_stream(&s, first, next);
    ours.best = theirs.best = 0;
    for (unsigned long round = 0; round < rounds; round++) {
        time_round(&s, &ours, frostsorrel_step);
        time_round(&s, &theirs, reference_step);
        check_equal(name, &ours, &theirs);
    }
    return print_ratio(name, ours.best, theirs.best);
}

static void take_pairs(const struct pairs *p, struct lists *l, list_function *call)
{
    for (size_t i = 0; i < STEPS; i++) {
        size_t pair = i % PAIRS;

        l->answers[pair] = call(p->first[pair], BYTES, p->second[pair], p->second_len, l->lists[pair],
                                FROSTSORREL_DIFFERENCE_BYTES);
    }
}

static void time_pairs(const struct pairs *p, struct lists *l, list_function *call)
{
    double began;

    memset(l->lists, 0xA5, sizeof l->lists);
    began = seconds();
    take_pairs(p, l, call);
    keep_best(&l->best, began);
}

static void check_lists(const char *name, const struct lists *ours, const struct lists *theirs)
{
    check(memcmp(ours->answers, theirs->answers, sizeof ours->answers) == 0,
          "%s: library and plain C answer differently", name);
    check(memcmp(ours->lists, theirs->lists, sizeof ours->lists) == 0,
          "%s: library and plain C leave different lists", name);
}

/* The same for pairs. */
static double measure_pairs(const char *name, pairs_function *draw_pairs, list_function *our_call,
                            list_function *their_call, unsigned long rounds)
{
    static struct pairs p;
    static struct lists ours, theirs;

    draw_pairs(&p);
    ours.best = theirs.best = 0;
    for (unsigned long round = 0; round < rounds; round++) {
        time_pairs(&p, &ours, our_call);
        time_pairs(&p, &theirs, their_call);
        check_lists(name, &ours, &theirs);
    }
    return print_ratio(name, ours.best, theirs.best);
}

static void feed_trace(const struct feeds *f, struct told *t, size_t i, const struct stream_calls *by)
{
    uint8_t *image = t->images[i], *state = t->states[i], *text = t->texts[i];
    const uint8_t *at = f->traces[i].bytes;

    text += frostsorrel_answer_count(by->open(image, BYTES, state, FROSTSORREL_STREAM_BYTES, text,
                                              FROSTSORREL_STREAM_OPEN_BYTES));
    for (size_t k = 0; k < f->counts[i]; k++) {
        text += frostsorrel_answer_count(by->feed(image, BYTES, state, FROSTSORREL_STREAM_BYTES, at, f->parts[i][k],
                                                  text, f->rooms[i][k]));
        at += f->parts[i][k];
    }
    t->last[i] = by->close(image, BYTES, state, FROSTSORREL_STREAM_BYTES, text, FROSTSORREL_STREAM_CLOSE_BYTES);
    t->lengths[i] = (size_t)(text - t->texts[i]) + (size_t)frostsorrel_answer_count(t->last[i]);
}

static void time_feeds(const struct feeds *f, struct told *t, const struct stream_calls *by)
{
    double began;

    memset(t->texts, 0xA5, sizeof t->texts);
    began = seconds();
    for (size_t i = 0; i < TRACES; i++)
        feed_trace(f, t, i, by);
    keep_best(&t->best, began);
}

/* The whole texts, each of which is the listing of its trace, and all else. */
static void check_told(const char *name, const struct feeds *f, const struct told *ours, const struct told *theirs)
{
    static char listing[LISTING_ROOM];

    check(memcmp(ours->texts, theirs->texts, sizeof ours->texts) == 0 &&
              memcmp(ours->lengths, theirs->lengths, sizeof ours->lengths) == 0,
          "%s: library and plain C leave different texts", name);
    check(memcmp(ours->images, theirs->images, sizeof ours->images) == 0 &&
              memcmp(ours->states, theirs->states, sizeof ours->states) == 0,
          "%s: library and plain C leave different images or states", name);
    check(memcmp(ours->last, theirs->last, sizeof ours->last) == 0, "%s: library and plain C close differently",
          name);
    for (size_t i = 0; i < TRACES; i++) {
        size_t len = reference_list(listing, f->traces[i].bytes, f->traces[i].len);

        check(len == ours->lengths[i] && memcmp(listing, ours->texts[i], len) == 0, "%s: a text is no listing",
              name);
    }
}

/* The same for traces that are fed in parts. They are judged once before the rounds, and after each. */
static double measure_feeds(const char *name, part_function *part, int tight, unsigned long rounds)
{
    static struct feeds f;
    static struct told ours, theirs;

    draw_feeds(&f, part);
    if (tight)
        make_tight(&f);
    time_feeds(&f, &ours, &our_calls);
    time_feeds(&f, &theirs, &their_calls);
    check_told(name, &f, &ours, &theirs);
    ours.best = theirs.best = 0;
    for (unsigned long round = 0; round < rounds; round++) {
        time_feeds(&f, &ours, &our_calls);
        time_feeds(&f, &theirs, &their_calls);
        check_told(name, &f, &ours, &theirs);
    }
    return print_ratio(name, ours.best, theirs.best);
}

/* ---- the stack */

static struct {
    const struct stream_calls *by;
    uint8_t image[BYTES], state[FROSTSORREL_STREAM_BYTES], part[6 + 5 * EVENT_BYTES], text[256];
    size_t part_len, room;
} on_stack;

__attribute__((noinline)) static void open_on_stack(void)
{
    on_stack.by->open(on_stack.image, BYTES, on_stack.state, sizeof on_stack.state, on_stack.text,
                      sizeof on_stack.text);
}

__attribute__((noinline)) static void feed_on_stack(void)
{
    on_stack.by->feed(on_stack.image, BYTES, on_stack.state, sizeof on_stack.state, on_stack.part,
                      on_stack.part_len, on_stack.text, on_stack.room);
}

__attribute__((noinline)) static void close_on_stack(void)
{
    on_stack.by->close(on_stack.image, BYTES, on_stack.state, sizeof on_stack.state, on_stack.text,
                       sizeof on_stack.text);
}

/* The most that feeding so many events takes, from an opening on, in so much room. */
static size_t feeding_stack(size_t events, size_t room)
{
    open_on_stack();
    on_stack.part_len = 6 + events * EVENT_BYTES;
    on_stack.room = room;
    return stack_of(feed_on_stack);
}

/* Ticks of the third section: one in a room that never gets a 9; one, and five, which are more than 65 bytes, in just enough. */
static void print_stack(const char *who, const struct stream_calls *by)
{
    const size_t line = sizeof "1 0 32 0\n" - 1;
    size_t opening, roomy, tight, longer, closing;

    memset(on_stack.part, 0, sizeof on_stack.part);
    on_stack.part[4] = 5;
    for (size_t i = 6; i < sizeof on_stack.part; i += EVENT_BYTES)
        on_stack.part[i] = FROSTSORREL_TICK;
    on_stack.by = by;
    opening = stack_of(open_on_stack);
    roomy = feeding_stack(1, sizeof on_stack.text);
    tight = feeding_stack(1, line);
    longer = feeding_stack(5, 5 * line);
    closing = stack_of(close_on_stack);
    printf("bytes of the stack, %s: %lu opening, %lu feeding, %lu in a tight room, %lu of a longer part, %lu closing\n", who,
           (unsigned long)opening, (unsigned long)roomy, (unsigned long)tight, (unsigned long)longer,
           (unsigned long)closing);
}

static unsigned long argument(int argc, char **argv, int at, unsigned long usual)
{
    return at < argc ? strtoul(argv[at], NULL, 10) : usual;
}

/* The emulator's name for the machine comes from host/run. */
static void say_where(unsigned long rounds, unsigned long seed)
{
    const char *machine = getenv("EMULATED_ON");

    printf("%d steps, comparisons, explanations or events fed a round, best of %lu rounds, seed %lu\n", STEPS, rounds,
           seed);
    if (machine)
        printf("both run under the emulator for x86-64 on %s: these are not times of an x86-64 machine\n",
               machine);
    printf("nanoseconds for each of these: ours, plain C at -O2, and ours / plain C\n");
}

int main(int argc, char **argv)
{
    unsigned long rounds = argument(argc, argv, 1, 15), seed = argument(argc, argv, 2, 1);
    double ratios[15], worst = 0; /* one for each stream */

    if (rounds == 0 || rounds > MOST_ROUNDS)
        rounds = MOST_ROUNDS;
    seed_generator(seed);
    say_where(rounds, seed);
    ratios[0] = measure("frame-heavy", receiving_image, receiving_event, rounds);
    ratios[1] = measure("sending", sending_image, sending_event, rounds);
    ratios[2] = measure("mixed", can_b_image, likely_event, rounds);
    ratios[3] = measure_pairs("few differ", draw_neighbours, frostsorrel_compare, reference_compare, rounds);
    ratios[4] = measure_pairs("most differ", draw_strangers, frostsorrel_compare, reference_compare, rounds);
    ratios[5] = measure_pairs("explained", draw_questions, frostsorrel_explain, reference_explain, rounds);
    ratios[6] = measure_feeds("fed in parts", some_events, 0, rounds);
    ratios[7] = measure_feeds("tight rooms", some_events, 1, rounds);
    ratios[8] = measure_feeds("byte by byte", one_byte, 0, rounds);
    ratios[9] = measure("idle starts", idle_image, idle_event, rounds);
    ratios[10] = measure("frames eCAN", receiving_ecan, receiving_event, rounds);
    ratios[11] = measure("past guards", guarded_image, guarded_event, rounds);
    ratios[12] = measure("sending eCAN", sending_ecan, sending_event, rounds);
    ratios[13] = measure("mixed eCAN", ecan_image, likely_event, rounds);
    ratios[14] = measure_pairs("guards told", draw_guarded_questions, frostsorrel_explain, reference_explain, rounds);
    for (size_t i = 0; i < sizeof ratios / sizeof ratios[0]; i++)
        worst = ratios[i] > worst ? ratios[i] : worst;
    printf("worst ratio %26.3f\n", worst);
    print_stack("ours", &our_calls);
    print_stack("plain C", &their_calls);
    return report("host bench");
}
