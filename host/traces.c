#include "traces.h"

#include "events.h"
#include "generate.h"
#include "image.h"
#include "reference.h"

#define COUNT(table) (sizeof(table) / sizeof((table)[0]))

int has_place(int section, uint8_t operation)
{
    switch (section) {
    case 0: return operation == FROSTSORREL_WRITE_MAILBOX;
    case 1: return operation == FROSTSORREL_WRITE_REGISTER || operation == FROSTSORREL_OPTIONS;
    default: return 1;
    }
}

/* The length that comes with a drawn event does not matter: in a file every event has 16 bytes. */
static void draw_event(uint8_t *event, int section, const uint8_t *image, draw_function *next)
{
    do
        next(event, image);
    while (!has_place(section, event[0]));
}

void put_count(struct trace *t, int section, size_t count)
{
    t->bytes[t->section[section]] = (uint8_t)count;
    t->bytes[t->section[section] + 1] = (uint8_t)(count >> 8);
}

size_t count_of(const struct trace *t, int section)
{
    const uint8_t *at = t->bytes + t->section[section];

    return at[0] + 256u * at[1];
}

/* The image goes along, so that an event can be drawn that it is likely to accept. */
static void add_section(struct trace *t, int section, size_t count, uint8_t *image, draw_function *next)
{
    uint8_t event[LONGEST_EVENT];

    t->section[section] = t->len;
    put_count(t, section, count);
    t->len += 2;
    for (size_t i = 0; i < count; i++, t->len += EVENT_BYTES) {
        draw_event(event, section, image, next);
        reference_step(image, BYTES, event, EVENT_BYTES);
        memcpy(t->bytes + t->len, event, EVENT_BYTES);
    }
}

void draw_trace(struct trace *t, const size_t *counts, draw_function *next)
{
    uint8_t image[BYTES];

    put_fresh(image);
    t->len = 0;
    for (int section = 0; section < SECTIONS; section++)
        add_section(t, section, counts[section], image, next);
}

/* Often that of the other section. */
void misplace(struct trace *t, int section)
{
    static const uint8_t likely[] = {FROSTSORREL_WRITE_MAILBOX, FROSTSORREL_WRITE_REGISTER,
                                     FROSTSORREL_OPTIONS};
    uint8_t *first = t->bytes + t->section[section] + 2;
    uint8_t *operation = first + EVENT_BYTES * draw((uint32_t)count_of(t, section));

    do
        *operation = draw(4) ? likely[draw(COUNT(likely))] : (uint8_t)draw(256);
    while (has_place(section, *operation));
}
