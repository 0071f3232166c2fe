/* Images made by hand: one of five states of either profile, then some words changed. */
#ifndef STATES_H
#define STATES_H

#include "image.h"

#define COUNT(table) (sizeof(table) / sizeof((table)[0]))

struct edit {
    int used, word;
    uint32_t value;
};
#define EDITS 5
#define SET(word, value) {1, word, value}

enum state { FRESH, NORMAL, SENDING, BUS_OFF, ASLEEP };

static const struct edit states[][EDITS] = {
    [NORMAL] = {SET(MODE, NORMAL_MODE)},
    [SENDING] = {SET(MODE, NORMAL_MODE), SET(SLOT, 3), SET(TRS, 8), SET(MC, 8)},
    [BUS_OFF] = {SET(MODE, NORMAL_MODE), SET(TEC, 256)},
    [ASLEEP] = {SET(MODE, SLEEP)},
};

static inline void change(uint8_t *image, const struct edit *edits)
{
    for (int i = 0; i < EDITS && edits[i].used; i++)
        put(image, edits[i].word, edits[i].value);
}

static inline void make_of(uint8_t *image, uint32_t profile, enum state state, const struct edit *edits)
{
    put_fresh_of(image, profile);
    change(image, states[state]);
    change(image, edits);
}

static inline void make(uint8_t *image, enum state state, const struct edit *edits)
{
    make_of(image, CAN_B, state, edits);
}

/* A state with one word changed. */
static inline void make_with_of(uint8_t *image, uint32_t profile, enum state state, int word, uint32_t value)
{
    const struct edit one[EDITS] = {SET(word, value)};

    make_of(image, profile, state, one);
}

static inline void make_with(uint8_t *image, enum state state, int word, uint32_t value)
{
    make_with_of(image, CAN_B, state, word, value);
}

#endif
