/* A trace run step by step, with the image before and after each step and what was booked in it. */
#ifndef RUN_H
#define RUN_H

#include "books.h"
#include "trace.h"

struct step {
    const uint8_t *event;
    uint64_t answer;
    int first_made; /* its entries are made[first_made] and on, up to those of the next step */
};

struct run {
    struct trace trace;
    int steps;
    struct step *step;                          /* step[1] to step[steps]; step[steps + 1] only ends the entries */
    uint8_t (*image)[FROSTSORREL_IMAGE_BYTES];  /* image[0] is fresh, image[k] is what step k left */
    struct made *made;
    struct books books;
    struct text fault; /* empty where every check held */
};

/*
 * Reads a trace and runs it. Answers COMMAND_DONE, also for a malformed one, whose trace.fault is set and which has
 * no steps; or COMMAND_FAILED after a message, with nothing to free. After every step the books must balance and RMP,
 * RML and TRS must say the same; the answers must be those of frostsorrel_listing, and of a frame that was taken those
 * that frostsorrel_explain gives reasons for. What does not hold is a fault.
 */
int run_trace(const char *path, struct run *into);

/* Runs the trace that stands in r->trace; all else of r is zero. */
void run_steps(struct run *r);

void free_run(struct run *r);

/* What the step answered: 0 where it was accepted. */
uint32_t refusal_of(const struct run *r, int step);

/* The words in which two images differ, as frostsorrel_compare lists them. */
struct changes {
    size_t count;
    uint8_t list[FROSTSORREL_DIFFERENCE_BYTES];
};

/*
 * From the image after one step to that after another, which may be an earlier one. Every image of a run is good, so
 * that the library lists what differs; where it refuses, that is said, and the program ends with COMMAND_DIFFERS.
 */
void changes_between(const struct run *r, int from, int to, struct changes *into);

/* Why a frame lands where it does, as frostsorrel_explain lists it. */
struct explanation {
    uint32_t refusal; /* 2 where the event is no frame, 4 where it is a frame that is not allowed; else 0, and lines */
    size_t count;
    uint8_t list[FROSTSORREL_EXPLANATION_BYTES];
};

/*
 * Explains the event of this step, from the image before it. Where the library refuses what it has no reason to, or
 * takes what it should refuse, that is said, and the program ends with COMMAND_DIFFERS.
 */
void explain_step(const struct run *r, int step, struct explanation *into);

/* ---- subcommands whose words are a trace and steps of it */

/* Are they, with steps from this one on? Answers COMMAND_DONE, or COMMAND_FAILED after a message. */
int understand_steps(int argc, char **argv, int first);

/*
 * Runs the trace and, where it has all these steps, shows what is asked of them. Answers the exit status: that of
 * `show`, or COMMAND_DIFFERS where a check of the run found a difference, which is said.
 */
int show_steps(int argc, char **argv, int (*show)(const struct run *r, char **argv));

#endif
