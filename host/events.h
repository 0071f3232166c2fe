/* The events of document 01, built by name. */
#ifndef EVENTS_H
#define EVENTS_H

#include "frostsorrel.h"
#include "image.h"

#define EVENT_BYTES FROSTSORREL_EVENT_BYTES

struct event {
    uint8_t bytes[EVENT_BYTES];
};

enum {
    SENT = FROSTSORREL_SENT,
    ARBITRATION_LOST = FROSTSORREL_ARBITRATION_LOST,
    ERROR = FROSTSORREL_ERROR,
    UNACKNOWLEDGED = FROSTSORREL_UNACKNOWLEDGED
};

static inline struct event plain_event(int operation, int target, int word, uint32_t value)
{
    struct event e;

    frostsorrel_event(e.bytes, (uint8_t)operation, (uint8_t)target, (uint8_t)word, value);
    return e;
}

/* The register is named by its word in the image, as MC or MASK(3). */
static inline int register_number(int word)
{
    return word < MASKS ? word - MC : word - MASKS + FROSTSORREL_MASK_0;
}

static inline struct event write_register(int word, uint32_t value)
{
    return plain_event(FROSTSORREL_WRITE_REGISTER, register_number(word), 0, value);
}

static inline struct event write_mailbox(int n, int k, uint32_t value)
{
    return plain_event(FROSTSORREL_WRITE_MAILBOX, n, k, value);
}

/* The identifier is STANDARD(..) or EXTENDED(..); the data are eight bytes, lowest byte first. */
static inline struct event data_frame(uint32_t identifier, int dlc, uint64_t data)
{
    struct event e = plain_event(FROSTSORREL_FRAME, dlc, 0, identifier);

    for (int i = 0; i < FROSTSORREL_MOST_DATA_BYTES; i++)
        e.bytes[8 + i] = (uint8_t)(data >> 8 * i);
    return e;
}

static inline struct event remote_frame(uint32_t identifier, int dlc)
{
    return plain_event(FROSTSORREL_FRAME, dlc, 0, identifier | FROSTSORREL_FRAME_RTR);
}

static inline struct event start(void)
{
    return plain_event(FROSTSORREL_START, 0, 0, 0);
}

static inline struct event outcome(int how)
{
    return plain_event(FROSTSORREL_OUTCOME, how, 0, 0);
}

static inline struct event receive_error(uint32_t rise)
{
    return plain_event(FROSTSORREL_RECEIVE_ERROR, 0, 0, rise);
}

static inline struct event recessive(void)
{
    return plain_event(FROSTSORREL_ELEVEN_RECESSIVE, 0, 0, 0);
}

static inline struct event tick(void)
{
    return plain_event(FROSTSORREL_TICK, 0, 0, 0);
}

static inline struct event mode(uint32_t wanted)
{
    return plain_event(FROSTSORREL_MODE, 0, 0, wanted);
}

static inline struct event options(uint32_t value)
{
    return plain_event(FROSTSORREL_OPTIONS, 0, 0, value);
}

static inline struct event reset(void)
{
    return plain_event(FROSTSORREL_RESET, 0, 0, 0);
}

/* The event with one byte changed. */
static inline struct event with_byte(struct event e, int at, int value)
{
    e.bytes[at] = (uint8_t)value;
    return e;
}

#endif
