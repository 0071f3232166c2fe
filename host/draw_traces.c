/*
 * Draws trace files and says what the program has to print for each: draw_traces DIR COUNT SEED.
 *
 * DIR/1.trace, DIR/2.trace and so on are the files, DIR/1.listing and so on what the reference makes of
 * them. Good traces and damaged ones take turns, and so do the kinds of both. A file does not depend on
 * how many come after it.
 */
#include <stdlib.h>

#include "events.h"
#include "generate.h"
#include "image.h"
#include "reference.h"
#include "traces.h"

#define COUNT(table) (sizeof(table) / sizeof((table)[0]))

#define FEW 30

/* ---- traces that are good, whatever their events do */

/* At least one event in each section, and at most as many as are said. */
static void draw_up_to(struct trace *t, uint32_t most, draw_function *next)
{
    size_t counts[SECTIONS];

    for (int section = 0; section < SECTIONS; section++)
        counts[section] = 1 + draw(most);
    draw_trace(t, counts, next);
}

/* So many events in one of the sections, few in the others. */
static void draw_with(struct trace *t, size_t count)
{
    size_t counts[SECTIONS];

    for (int section = 0; section < SECTIONS; section++)
        counts[section] = draw(FEW);
    counts[draw(SECTIONS)] = count;
    draw_trace(t, counts, likely_event);
}

static void draw_short(struct trace *t)
{
    draw_up_to(t, FEW, likely_event);
}

static void draw_long(struct trace *t)
{
    draw_up_to(t, 300, likely_event);
}

static void draw_empty_section(struct trace *t)
{
    draw_with(t, 0);
}

static void draw_full_section(struct trace *t)
{
    draw_with(t, LIMIT - draw(2));
}

static void draw_longest(struct trace *t)
{
    static const size_t counts[SECTIONS] = {LIMIT, LIMIT, LIMIT};

    draw_trace(t, counts, likely_event);
}

/* Many of its events are refused. */
static void draw_unlikely(struct trace *t)
{
    draw_up_to(t, 100, varied_event);
}

/* ---- damaged traces; by chance one can be good, and the reference knows */

static void draw_miscounted(struct trace *t)
{
    int section = (int)draw(SECTIONS);

    draw_short(t);
    put_count(t, section, count_of(t, section) + (draw(2) ? 1 : (size_t)-1));
}

/* More than a section may have, and all of them are there. */
static void draw_overfull(struct trace *t)
{
    draw_with(t, LIMIT + 1);
}

/* More than a section may have, and they are not there. */
static void draw_overcounted(struct trace *t)
{
    int section = (int)draw(SECTIONS);

    draw_short(t);
    put_count(t, section, LIMIT + 1 + draw(65535 - LIMIT));
}

static void draw_without_last_byte(struct trace *t)
{
    draw_short(t);
    t->len--;
}

static void draw_with_byte_behind(struct trace *t)
{
    draw_short(t);
    t->bytes[t->len++] = (uint8_t)draw(256);
}

static void draw_with_byte_missing(struct trace *t)
{
    size_t at;

    draw_short(t);
    at = draw((uint32_t)t->len--);
    memmove(t->bytes + at, t->bytes + at + 1, t->len - at);
}

static void draw_with_byte_more(struct trace *t)
{
    size_t at;

    draw_short(t);
    at = draw((uint32_t)t->len);
    memmove(t->bytes + at + 1, t->bytes + at, t->len++ - at);
    t->bytes[at] = (uint8_t)draw(256);
}

static void draw_misplaced_in_first(struct trace *t)
{
    draw_short(t);
    misplace(t, 0);
}

static void draw_misplaced_in_second(struct trace *t)
{
    draw_short(t);
    misplace(t, 1);
}

static void draw_cut(struct trace *t)
{
    draw_short(t);
    t->len = draw((uint32_t)t->len);
}

static void draw_two_sections(struct trace *t)
{
    draw_short(t);
    t->len = t->section[2];
}

static void draw_four_sections(struct trace *t)
{
    draw_short(t);
    memset(t->bytes + t->len, 0, 2);
    t->len += 2;
}

static void draw_nothing(struct trace *t)
{
    t->len = 0;
}

/* Six of them are a good trace of no events. */
static void draw_zeros(struct trace *t)
{
    t->len = draw(2) ? 6 : draw(40);
    memset(t->bytes, 0, t->len);
}

static void draw_any_bytes(struct trace *t)
{
    t->len = draw(200);
    draw_bytes(t->bytes, t->len);
}

/* ---- files */

typedef void kind_function(struct trace *);

static kind_function *const good[] = {
    draw_short, draw_long, draw_empty_section, draw_full_section, draw_unlikely, draw_longest,
};
static kind_function *const damaged[] = {
    draw_miscounted, draw_overfull, draw_overcounted, draw_without_last_byte, draw_with_byte_behind,
    draw_with_byte_missing, draw_with_byte_more, draw_misplaced_in_first, draw_misplaced_in_second,
    draw_cut, draw_two_sections, draw_four_sections, draw_nothing, draw_zeros, draw_any_bytes,
};

static kind_function *kind_of(unsigned long number)
{
    unsigned long turn = (number - 1) / 2;

    return number % 2 ? good[turn % COUNT(good)] : damaged[turn % COUNT(damaged)];
}

static void write_file(const char *folder, unsigned long number, const char *ending, const void *bytes,
                       size_t len)
{
    char path[4096];
    FILE *file;

    snprintf(path, sizeof path, "%s/%lu.%s", folder, number, ending);
    file = fopen(path, "wb");
    if (file == NULL || fwrite(bytes, 1, len, file) != len || fclose(file) != 0) {
        perror(path);
        exit(2);
    }
}

int main(int argc, char **argv)
{
    static struct trace t;
    static char listing[LISTING_ROOM];
    unsigned long count;

    if (argc != 4) {
        fprintf(stderr, "draw_traces DIR COUNT SEED\n");
        return 2;
    }
    count = strtoul(argv[2], NULL, 10);
    seed_generator(strtoul(argv[3], NULL, 10));
    for (unsigned long number = 1; number <= count; number++) {
        kind_of(number)(&t);
        write_file(argv[1], number, "trace", t.bytes, t.len);
        write_file(argv[1], number, "listing", listing, reference_list(listing, t.bytes, t.len));
    }
    return 0;
}
