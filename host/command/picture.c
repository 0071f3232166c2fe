/*
 * The picture of a run, as SVG. A long run is cut into bands of steps, one below the other, each an SVG of its own, so
 * that paper can break between them. In a band stand the steps, the mode, the refused events, the frames that came to
 * no mailbox, a lane for each mailbox with anything to show there, and the two error counters. Every mark has a shape
 * of its own beside its colour.
 */
#include <string.h>

#include "report.h"
#include "words.h"

/* Where things stand, in pixels. */
enum {
    LEFT = 124,        /* the names */
    NAMES = LEFT - 14, /* they end here */
    RIGHT = 1034,      /* the end of the lanes */
    WIDTH = 1050,
    WIDEST_STEP = 84,
    STEPS_HEIGHT = 26, /* the numbers of the steps */
    STRIP_HEIGHT = 24, /* the mode */
    LETTER = 7,        /* of the mode's name */
    LANE_HEIGHT = 34,
    COUNTER_HEIGHT = 84,
    GAP = 12,
    MOST_IN_BAND = 120
};

/* What a lane shows. All but the first three of these are entries of the books. */
enum mark {
    START, BACK, REFUSED,
    MARK_STORED, MARK_LOST, MARK_RELEASED, MARK_DROPPED, MARK_RAISED, MARK_SENT, MARK_ABORTED, MARK_ENDED,
    MARK_NOT_HEARD, MARK_NOT_TAKEN,
    MARKS
};

/* The shape is a path around 0, one unit to each side. */
static const struct {
    const char *class, *name, *shape;
} marks[MARKS] = {
    {"start", "start", "M-1-1V1L1 0z"},
    {"back", "not sent, waits on", "M1-1V1L-1 0z"},
    {"refused", "event refused", "M-1-1L1 1M-1 1L1-1"},
    {"store", "stored", "M-1 0A1 1 0 1 0 1 0A1 1 0 1 0-1 0z"},
    {"lost", "stored over a held frame: LOST", "M-1.5 0L0-1.5L1.5 0L0 1.5z"},
    {"release", "released", "M-1 0A1 1 0 1 0 1 0A1 1 0 1 0-1 0z"},
    {"drop", "held frame DROPPED", "M-1.2-1.2H1.2L0 1.2z"},
    {"request", "request raised", "M-1 1H1L0-1z"},
    {"sent", "sent", "M-1-1H1V1H-1z"},
    {"abort", "aborted", "M-1-1H1V1H-1zL1 1M-1 1L1-1"},
    {"end", "request dropped", "M-1-1H1L0 1z"},
    {"unheard", "frame NOT HEARD", "M-1 0A1 1 0 1 0 1 0A1 1 0 1 0-1 0zM-.7-.7L.7.7"},
    {"untaken", "frame NOT TAKEN", "M0-1V1M-1 0H1"},
};

static enum mark mark_of(enum entry entry)
{
    static const enum mark of[ENTRIES] = {
        MARK_STORED, MARK_RELEASED, MARK_LOST,    MARK_DROPPED, /* frames */
        MARK_RAISED, MARK_SENT,     MARK_ABORTED, MARK_ENDED,   MARK_ENDED, /* requests */
        MARK_NOT_HEARD, MARK_NOT_TAKEN, MARK_NOT_TAKEN, /* no trace has frames that were passed over */
    };

    return of[entry];
}

struct band {
    const struct run *run;
    struct text *out;
    int first, last;   /* its steps */
    uint32_t lanes;    /* its mailboxes */
    double step, size; /* the width of a step, and half that of a mark */
    double bottom;     /* how far down it is drawn already */
};

static double x_of(const struct band *b, int step)
{
    return LEFT + (step - b->first + 0.5) * b->step;
}

static double end_of(const struct band *b)
{
    return LEFT + (b->last - b->first + 1) * b->step;
}

/* ---- shapes */

/* The element is left open: a title may follow. */
static void draw_shape(struct text *out, enum mark mark, double x, double y, double size)
{
    text_add(out, "<path class=\"mark %s\" transform=\"translate(%.1f %.1f) scale(%.1f)\" d=\"%s\"", marks[mark].class,
             x, y, size, marks[mark].shape);
}

static void draw_words(struct text *out, const char *class, double x, double y, const char *words)
{
    text_add(out, "<text class=\"%s\" x=\"%.1f\" y=\"%.1f\">%s</text>\n", class, x, y, words);
}

/* A mark at a step, which says what it is when pointed at; a loss leads to the step in the page. */
static void draw_mark(struct band *b, enum mark mark, int step, double y)
{
    int lost = mark == MARK_LOST;

    text_add(b->out, lost ? "<a href=\"#s%d\">" : "", step);
    draw_shape(b->out, mark, x_of(b, step), y, lost && b->size < 4 ? 4 : b->size);
    text_add(b->out, "><title>step %d: %s</title></path>%s\n", step, marks[mark].name, lost ? "</a>" : "");
    if (lost && b->step >= 32)
        draw_words(b->out, "alarm", x_of(b, step), y - 10, "LOST");
}

/* The element is left open: a title may follow. */
static void open_box(struct text *out, const char *class, double x, double y, double width, double height)
{
    text_add(out, "<rect class=\"%s\" x=\"%.1f\" y=\"%.1f\" width=\"%.1f\" height=\"%.1f\"", class, x, y, width,
             height);
}

static void draw_box(struct text *out, const char *class, double x, double y, double width, double height)
{
    open_box(out, class, x, y, width, height);
    text_add(out, "/>\n");
}

static void draw_line(struct text *out, const char *class, double x1, double y1, double x2, double y2)
{
    text_add(out, "<path class=\"%s\" d=\"M%.1f %.1fL%.1f %.1f\"/>\n", class, x1, y1, x2, y2);
}

/* ---- the steps, the mode, the refused events, the frames that came to no mailbox */

/* How many steps from one number to the next, so that the numbers have room. */
static int numbers_apart(double step)
{
    static const int apart[] = {1, 2, 5, 10, 20, 50};
    int i = 0;

    while (i < 5 && apart[i] * step < 30)
        i++;
    return apart[i];
}

static void draw_steps(struct band *b, double height)
{
    int apart = numbers_apart(b->step);
    struct text number = {0};

    draw_words(b->out, "name", NAMES, 17, "step");
    for (int k = b->first; k <= b->last; k++) {
        if (k % apart != 0 && k != b->first)
            continue;
        if (k == b->first && k % apart != 0 && (apart - k % apart) * b->step < 30)
            continue; /* the next number would run into it */
        text_add(&number, "%d", k);
        draw_line(b->out, "grid", x_of(b, k), STEPS_HEIGHT, x_of(b, k), height);
        draw_words(b->out, "number", x_of(b, k), 17, number.at);
        text_free(&number);
    }
    b->bottom = STEPS_HEIGHT;
}

static void draw_modes(struct band *b)
{
    draw_words(b->out, "name", NAMES, b->bottom + 16, "mode");
    for (int k = b->first, last; k <= b->last; k = last + 1) {
        const char *mode = state_of(b->run->image[k]);
        double x = LEFT + (k - b->first) * b->step, width;

        for (last = k; last < b->last && strcmp(state_of(b->run->image[last + 1]), mode) == 0;)
            last++;
        width = (last - k + 1) * b->step;
        open_box(b->out, mode[0] == 'n' ? "mode normal" : mode[0] == 'b' ? "mode off" : "mode other", x, b->bottom + 3,
                 width, 18);
        text_add(b->out, "><title>steps %d to %d: %s</title></rect>\n", k, last, mode);
        if (width > 8 + LETTER * (double)strlen(mode))
            draw_words(b->out, "inside", x + 4, b->bottom + 16, mode);
    }
    b->bottom += STRIP_HEIGHT;
}

/* Entries in this band that stand under no mailbox. */
static int has_unstored(const struct band *b)
{
    for (int i = b->run->step[b->first].first_made; i < b->run->step[b->last + 1].first_made; i++)
        if (b->run->made[i].mailbox == FROSTSORREL_NO_MAILBOX)
            return 1;
    return 0;
}

static int has_refusals(const struct band *b)
{
    for (int k = b->first; k <= b->last; k++)
        if (refusal_of(b->run, k) != FROSTSORREL_ACCEPTED)
            return 1;
    return 0;
}

static void draw_refusals(struct band *b)
{
    draw_words(b->out, "name", NAMES, b->bottom + 16, "refused");
    for (int k = b->first; k <= b->last; k++)
        if (refusal_of(b->run, k) != FROSTSORREL_ACCEPTED)
            draw_mark(b, REFUSED, k, b->bottom + STRIP_HEIGHT / 2);
    b->bottom += STRIP_HEIGHT;
}

/* ---- the lanes */

/* Is the mailbox's flag up after this step? */
static int is_up(const struct band *b, uint32_t number, int step, int n)
{
    return (frostsorrel_register_word(b->run->image[step], number) >> n & 1) != 0;
}

/* A bar from the step in which the flag rises to that in which it falls. */
static void draw_bars(struct band *b, int n, uint32_t number, const char *class, double height)
{
    double y = b->bottom + (LANE_HEIGHT - height) / 2, from = LEFT;
    int up = is_up(b, number, b->first - 1, n);

    for (int k = b->first; k <= b->last + 1; k++) {
        int next = k <= b->last && is_up(b, number, k, n);

        if (next && !up)
            from = x_of(b, k);
        if (!next && up)
            draw_box(b->out, class, from, y, (k <= b->last ? x_of(b, k) : end_of(b)) - from, height);
        up = next;
    }
}

/* What goes into the slot and what comes back from it books nothing, and is drawn all the same. */
static void draw_slot_marks(struct band *b, int n, double y)
{
    for (int k = b->first; k <= b->last; k++) {
        const struct step *s = &b->run->step[k];

        if (frostsorrel_answer_mailbox(s->answer) != (uint32_t)n)
            continue; /* a refused step names none */
        if (s->event[0] == FROSTSORREL_START)
            draw_mark(b, START, k, y);
        if (s->event[0] == FROSTSORREL_OUTCOME && is_up(b, FROSTSORREL_TRS, k, n))
            draw_mark(b, BACK, k, y);
    }
}

/* A store that loses a frame has two entries: the loss is the one to show. */
static void draw_entries(struct band *b, int n, double y)
{
    int last = b->run->step[b->last + 1].first_made, step = b->first;

    for (int i = b->run->step[b->first].first_made; i < last; i++) {
        while (b->run->step[step + 1].first_made <= i)
            step++;
        if (b->run->made[i].mailbox != n)
            continue;
        draw_mark(b, mark_of(b->run->made[i].entry), step, y);
        if (b->run->made[i].entry == OVERWRITTEN)
            i++;
    }
}

static void draw_unstored(struct band *b)
{
    draw_words(b->out, "name", NAMES, b->bottom + 16, "not stored");
    draw_entries(b, FROSTSORREL_NO_MAILBOX, b->bottom + STRIP_HEIGHT / 2);
    b->bottom += STRIP_HEIGHT;
}

static void draw_lane(struct band *b, int n)
{
    double y = b->bottom + LANE_HEIGHT / 2;
    struct text name = {0};

    text_add(&name, "mailbox %d", n);
    draw_words(b->out, "name", NAMES, y, name.at);
    text_free(&name);
    say_only_identifier(&name, "", b->run, n);
    if (name.length)
        draw_words(b->out, "small", NAMES, y + 11, name.at);
    text_free(&name);
    draw_line(b->out, "lane", LEFT, y, end_of(b), y);
    draw_bars(b, n, FROSTSORREL_RMP, "held", 14);
    draw_bars(b, n, FROSTSORREL_TRS, "waiting", 6);
    draw_slot_marks(b, n, y);
    draw_entries(b, n, y);
    b->bottom += LANE_HEIGHT;
}

/* ---- the error counters */

static double y_of(const struct band *b, uint32_t value)
{
    return b->bottom + GAP + COUNTER_HEIGHT * (1 - value / 256.0);
}

static void draw_level(struct band *b, uint32_t value, const char *name, double down)
{
    draw_line(b->out, "level", LEFT, y_of(b, value), end_of(b), y_of(b, value));
    draw_words(b->out, "small", NAMES, y_of(b, value) + down, name);
}

/* From step to step the line is level, and rises or falls at the step. */
static void draw_counter(struct band *b, uint32_t number, const char *class)
{
    uint32_t value = frostsorrel_register_word(b->run->image[b->first - 1], number);

    text_add(b->out, "<path class=\"%s\" d=\"M%d %.1f", class, LEFT, y_of(b, value));
    for (int k = b->first; k <= b->last; k++) {
        uint32_t next = frostsorrel_register_word(b->run->image[k], number);

        if (next != value)
            text_add(b->out, "H%.1fV%.1f", x_of(b, k), y_of(b, next));
        value = next;
    }
    text_add(b->out, "H%.1f\"/>\n", end_of(b));
}

static void draw_counters(struct band *b)
{
    draw_level(b, FROSTSORREL_BUS_OFF_TEC, "bus off 256", 4);
    draw_level(b, FROSTSORREL_PASSIVE_ABOVE, "passive above 127", 1);
    draw_level(b, FROSTSORREL_WARNING_ABOVE, "warning above 96", 7);
    draw_line(b->out, "lane", LEFT, y_of(b, 0), end_of(b), y_of(b, 0));
    draw_words(b->out, "small", NAMES, y_of(b, 0) + 3, "TEC, REC 0");
    draw_counter(b, FROSTSORREL_TEC, "tec");
    draw_counter(b, FROSTSORREL_REC, "rec"); /* dashed, so that both show where they are equal */
    b->bottom += GAP + COUNTER_HEIGHT + GAP;
}

/* ---- the legend */

static const char style[] =
    "<style>"
    "text{font-family:'DejaVu Sans',Verdana,Helvetica,Arial,sans-serif;fill:#1c2733}"
    ".name{font-size:12px;text-anchor:end}.small{font-size:9.5px;text-anchor:end;fill:#566270}"
    ".number{font-size:11px;text-anchor:middle;fill:#566270}.inside{font-size:11px}.key{font-size:11.5px}"
    ".alarm{font-size:9px;font-weight:bold;text-anchor:middle;fill:#b02700}"
    ".mark{vector-effect:non-scaling-stroke}.ground{fill:#fff}.grid{stroke:#e3e8ed;stroke-width:1}.lane{stroke:#a9b4bf;stroke-width:1}"
    ".mode{stroke:#a9b4bf;stroke-width:1}.normal{fill:#fff}.other{fill:#e3e8ed}.off{fill:#f7cfb5}"
    ".held{fill:#bfdcf0;stroke:#0072b2;stroke-width:.8}.waiting{fill:#c5e8dc;stroke:#009e73;stroke-width:.8}"
    ".store{fill:#0072b2}.release{fill:#fff;stroke:#0072b2;stroke-width:1.8}"
    ".lost{fill:#d12f00;stroke:#fff;stroke-width:1}"
    ".request{fill:#fff;stroke:#00785a;stroke-width:1.6}.start,.sent{fill:#00785a}"
    ".back{fill:#fff;stroke:#00785a;stroke-width:1.6}.abort{fill:#fff;stroke:#8a4f00;stroke-width:1.6}"
    ".drop{fill:#d12f00}.end{fill:#fff;stroke:#566270;stroke-width:1.6}"
    ".unheard,.untaken{fill:none;stroke:#7d2a63;stroke-width:1.8}"
    ".refused{fill:none;stroke:#8a4f00;stroke-width:2.2}"
    ".level{stroke:#8a95a1;stroke-width:1;stroke-dasharray:2 4;fill:none}"
    ".tec{stroke:#1c2733;stroke-width:2;fill:none}.rec{stroke:#cc5a9b;stroke-width:2;fill:none;stroke-dasharray:7 4}"
    "</style>\n";

/* The sample of a legend's entry: a mark, a bar or a line. */
static void draw_sample(struct text *out, int i, double x, double y)
{
    if (i < MARKS) {
        draw_shape(out, (enum mark)i, x + 11, y, i == MARK_LOST ? 5 : 5.5);
        text_add(out, "/>\n");
    } else if (i < MARKS + 2) {
        draw_box(out, i == MARKS ? "held" : "waiting", x, i == MARKS ? y - 6 : y - 3, 22, i == MARKS ? 12 : 6);
    } else {
        draw_line(out, i == MARKS + 2 ? "tec" : "rec", x, y, x + 22, y);
    }
}

enum { KEYS = MARKS + 4, KEYS_IN_ROW = 5, KEY_HEIGHT = 22 };
enum { LEGEND_HEIGHT = (KEYS + KEYS_IN_ROW - 1) / KEYS_IN_ROW * KEY_HEIGHT };

static const char *name_of_key(int i)
{
    static const char *const others[] = {"a frame is held", "a request waits", "TEC", "REC"};

    return i < MARKS ? marks[i].name : others[i - MARKS];
}

static void draw_legend(struct band *b)
{
    static const int order[KEYS] = {MARK_STORED,  MARK_RELEASED, MARK_LOST,      MARKS,          MARK_DROPPED,
                                    MARK_RAISED,  START,         BACK,           MARKS + 1,      MARK_ENDED,
                                    MARK_ABORTED, MARK_SENT,     MARK_NOT_HEARD, MARK_NOT_TAKEN, REFUSED,
                                    MARKS + 2,    MARKS + 3};
    static const int columns[KEYS_IN_ROW] = {LEFT, LEFT + 160, LEFT + 300, LEFT + 540, LEFT + 700};

    for (int i = 0; i < KEYS; i++) {
        double x = columns[i % KEYS_IN_ROW], y = b->bottom + GAP + i / KEYS_IN_ROW * KEY_HEIGHT;

        draw_sample(b->out, order[i], x, y);
        draw_words(b->out, "key", x + 30, y + 4, name_of_key(order[i]));
    }
}

/* ---- bands */

/* The mailboxes that have an entry in this band, or hold something as it begins. */
static uint32_t lanes_of(const struct run *r, int first, int last)
{
    uint32_t lanes = frostsorrel_register_word(r->image[first - 1], FROSTSORREL_RMP) |
                     frostsorrel_register_word(r->image[first - 1], FROSTSORREL_TRS);

    return lanes | booked_in(r, first, last);
}

static int count_of(uint32_t bits)
{
    int count = 0;

    for (; bits; bits &= bits - 1)
        count++;
    return count;
}

/* Are both counters 0 from end to end? */
static int has_no_errors(const struct run *r, int first, int last)
{
    for (int k = first - 1; k <= last; k++)
        if (frostsorrel_register_word(r->image[k], FROSTSORREL_TEC) ||
            frostsorrel_register_word(r->image[k], FROSTSORREL_REC))
            return 0;
    return 1;
}

/* The first band has the legend, and always the counters; a later one has them if there is anything to see in it. */
static void draw_band(struct text *out, const struct run *r, int first, int last, int is_first)
{
    struct band b = {r, out, first, last, lanes_of(r, first, last), (double)(RIGHT - LEFT) / (last - first + 1), 0, 0};
    int refused = has_refusals(&b), unstored = has_unstored(&b);
    int counters = is_first || b.lanes || !has_no_errors(r, first, last);
    double lanes_end = STEPS_HEIGHT + STRIP_HEIGHT * (1 + refused + unstored) + LANE_HEIGHT * count_of(b.lanes);
    double height = lanes_end + (counters ? GAP + COUNTER_HEIGHT + GAP : 0) + (is_first ? GAP + LEGEND_HEIGHT : 0);

    if (b.step > WIDEST_STEP)
        b.step = WIDEST_STEP;
    b.size = b.step > 15 ? 6 : b.step / 2.5;
    text_add(out, "<svg xmlns=\"http://www.w3.org/2000/svg\" viewBox=\"0 0 %d %.0f\" width=\"%d\" height=\"%.0f\" "
                  "role=\"img\" aria-label=\"Steps %d to %d\">\n", WIDTH, height, WIDTH, height, first, last);
    if (is_first)
        text_add(out, "%s", style);
    draw_box(out, "ground", 0, 0, WIDTH, height);
    draw_steps(&b, lanes_end);
    draw_modes(&b);
    if (refused)
        draw_refusals(&b);
    if (unstored)
        draw_unstored(&b);
    for (int n = 0; n < FROSTSORREL_MAILBOXES; n++)
        if (b.lanes & BIT(n))
            draw_lane(&b, n);
    if (counters)
        draw_counters(&b);
    if (is_first)
        draw_legend(&b);
    text_add(out, "</svg>\n");
}

/* Setting up is left out: the picture begins with the third section, or before it with the first thing to show. */
static int first_to_show(const struct run *r)
{
    int start = r->trace.section[0].count + r->trace.section[1].count + 1, step = 1;

    while (step < start && refusal_of(r, step) == FROSTSORREL_ACCEPTED && r->step[step + 1].first_made == 0)
        step++;
    return step;
}

void draw_picture(struct text *out, const struct run *r)
{
    int first = first_to_show(r), steps = r->steps - first + 1;
    int bands = (steps + MOST_IN_BAND - 1) / MOST_IN_BAND;

    for (int i = 0; i < bands; i++)
        draw_band(out, r, first + steps * i / bands, first + steps * (i + 1) / bands - 1, i == 0);
}
