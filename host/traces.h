/* Traces drawn at random: their counts and places are right, whatever their events do. */
#ifndef TRACES_H
#define TRACES_H

#include <stddef.h>
#include <stdint.h>

#include "frostsorrel.h"

#define SECTIONS 3
#define LIMIT FROSTSORREL_SECTION_EVENTS

/* With room for an event more in each section than is allowed. */
struct trace {
    uint8_t bytes[SECTIONS * (2 + (LIMIT + 1) * FROSTSORREL_EVENT_BYTES)];
    size_t len, section[SECTIONS]; /* where each section begins */
};

/* Draws an event for an image. */
typedef size_t draw_function(uint8_t *event, const uint8_t *image);

/* Sections are 0 to 2 here. */
int has_place(int section, uint8_t operation);

size_t count_of(const struct trace *t, int section);
void put_count(struct trace *t, int section, size_t count);

/* So many events in each section, drawn by this function for the images of a run from fresh. */
void draw_trace(struct trace *t, const size_t *counts, draw_function *next);

/* One event gets an operation that its section does not take: section 0 or 1, which is not empty. */
void misplace(struct trace *t, int section);

#endif
