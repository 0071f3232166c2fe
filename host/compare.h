/* What the parts of `compare` share: how they print a disagreement, and how they count what was met. */
#ifndef COMPARE_H
#define COMPARE_H

#include <stddef.h>
#include <stdint.h>
#include <stdio.h>
#include <string.h>

#include "check.h"
#include "frostsorrel.h"

#define GUARD 13 /* bytes around what is lent; odd, so that it does not stand at an even address */
#define MOST_SHOWN 3      /* disagreements of a kind */
#define LONG_ENOUGH 10000 /* steps, in which everything is met that is counted */

/* A stream, from its opening to what comes after its end, with calls along the way that are not its own. */
void compare_stream(unsigned long number);

/* Of all streams of so many steps: what they met. */
void check_streams(unsigned long steps);

static inline void print_answer(const char *who, uint64_t answer)
{
    printf("    %s answers refusal %u, mailbox %u, count %u\n", who,
           (unsigned)frostsorrel_answer_refusal(answer), (unsigned)frostsorrel_answer_mailbox(answer),
           (unsigned)frostsorrel_answer_count(answer));
}

/* Bytes are counted from the first that was handed over: below 0 and past the length are the guards. */
static inline void print_first_byte(const char *what, const uint8_t *ours, const uint8_t *theirs, size_t size)
{
    size_t at = 0;

    while (at < size && ours[at] == theirs[at])
        at++;
    if (at < size)
        printf("    %s, byte %ld: library 0x%02X, reference 0x%02X\n", what, (long)at - GUARD, ours[at],
               theirs[at]);
}

/* How often something was met. Those of one kind stand side by side, and are printed in one line. */
struct tally {
    const char *kind, *what;
    unsigned long times;
};

static inline void check_tallies(const char *call, const struct tally *tallies, size_t count,
                                 unsigned long steps)
{
    for (size_t i = 0; i < count; i++) {
        const struct tally *t = &tallies[i];

        if (i == 0 || strcmp(t->kind, t[-1].kind) != 0)
            printf("%s%s, %s:", i == 0 ? "" : "\n", call, t->kind);
        else
            printf(";");
        printf(" %lu %s", t->times, t->what);
    }
    printf("\n");
    for (size_t i = 0; i < count; i++)
        check(steps < LONG_ENOUGH || tallies[i].times > 0, "%s, %s: %s was not met", call, tallies[i].kind,
              tallies[i].what);
}

#endif
