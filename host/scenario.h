/*
 * Scenarios: events are fed to a model, and beside it the test keeps, by hand, what its image should
 * be. After every event all 776 bytes are compared, so each event shows what it changes and that it
 * changes nothing else.
 *
 *     begin("name", NORMAL)             a scenario, from one of the states of states.h, of a CAN-B
 *     begin_ecan("name", NORMAL)        the same of an eCAN
 *     given({word, value}, ..)          the image it goes on from has these words
 *     accept(event)                     accepted, mailbox 32, count 0
 *     answers(event, mailbox, count)    accepted
 *     refuse(event, refusal)            refused
 *     now({word, value}, ..)            what the event before has changed
 *     reads(number, value)              reading this register gives that
 *     cannot_read(number)               reading it gets refusal 2
 *     end()                             after the last scenario
 */
#ifndef SCENARIO_H
#define SCENARIO_H

#include "check.h"
#include "events.h"
#include "image.h"
#include "states.h"

#define BIT(n) (1u << (n))
#define NOBODY FROSTSORREL_NO_MAILBOX
#define GSR FROSTSORREL_GSR

/* The model's image, and the one kept by hand. */
extern uint8_t image[BYTES], expected[BYTES];

struct content {
    int word;
    uint32_t value;
};

void begin(const char *name, enum state state);
void begin_ecan(const char *name, enum state state);
void end(void);

#define CONTENTS(...) (const struct content[]){__VA_ARGS__}, \
                      COUNT(((const struct content[]){__VA_ARGS__}))
#define given(...) put_given(CONTENTS(__VA_ARGS__))
#define now(...) put_expected(CONTENTS(__VA_ARGS__))
#define answers(event, mailbox, count) feed(HERE, event, 0, (unsigned)(mailbox), (unsigned)(count))
#define accept(event) answers(event, NOBODY, 0)
#define refuse(event, refusal) feed(HERE, event, refusal, NOBODY, 0)
#define reads(number, value) read_as(HERE, number, value)
#define cannot_read(number) read_as(HERE, number, (uint64_t)FROSTSORREL_UNKNOWN << 32)
#define HERE (struct place){__FILE__, __LINE__}

struct place {
    const char *file;
    int line;
};

void put_given(const struct content *contents, size_t count);
void put_expected(const struct content *contents, size_t count);
void feed(struct place at, struct event e, unsigned refusal, unsigned mailbox, unsigned count);
void read_as(struct place at, uint32_t number, uint64_t expected_answer);

/* Given: this mailbox is enabled, with this word 0; or enabled and receives. */
void enabled(int n, uint32_t word_0);
void receiving(int n, uint32_t word_0);

/* Now: what a frame without data, time stamp 0, leaves in a mailbox that held none. */
void now_stored(int n, uint32_t word_0);

#endif
