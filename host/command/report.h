/* What a report says, in parts, apart from how it is laid out: a pen lays it out, as text or as a page. */
#ifndef REPORT_H
#define REPORT_H

#include "command.h"
#include "run.h"

/* The kinds of what is told of a step. */
enum kind { LOSS, MISSED, REFUSAL, BOOKED, CHANGED, NOTHING };

enum { MOST_CELLS = 7 };

struct pen {
    struct text out;
    int colour; /* of the text pen */
    void (*heading)(struct pen *p, const char *words);
    void (*line)(struct pen *p, enum kind kind, const char *words);
    void (*row)(struct pen *p, const char *const *cells, int count, int is_head); /* of a table; count 0 ends it */
    void (*step)(struct pen *p, int first, int last, const char *event, const char *answer);
    void (*detail)(struct pen *p, enum kind kind, const char *words, const char *numbers);
    void (*step_done)(struct pen *p);
};

/* The parts. */
void tell_steps(struct pen *p, const struct run *r);
void tell_mailboxes(struct pen *p, const struct run *r);
void tell_losses(struct pen *p, const struct run *r);
void tell_refusals(struct pen *p, const struct run *r);
void tell_state(struct pen *p, const struct run *r);

/* "19 steps, 1 frame lost, 2 not heard, 1 event refused" */
void say_sums(struct text *t, const struct run *r);

/* "REFUSED 5, busy: mailbox 2 is being sent": of a step that was refused. */
void say_refusal(struct text *t, const struct run *r, int step);

/* What befell a frame at worst: LOSS if one was overwritten or dropped, MISSED if one came to no mailbox, or BOOKED. */
enum kind worst_of(const struct run *r);

/* Adds the identifier of a mailbox behind these words, where it had no other since it was first in use. */
void say_only_identifier(struct text *t, const char *before, const struct run *r, int n);

/* The mailboxes that have an entry in these steps. */
uint32_t booked_in(const struct run *r, int first, int last);

/* The mailboxes in use: enabled at some time, or with an entry in the books. */
uint32_t in_use(const struct run *r);

/* Adds the picture of a run: an SVG for each band of steps. */
void draw_picture(struct text *out, const struct run *r);

/* Writes the whole report of a run, into an empty text: as text, or as a page. */
void write_text(struct text *out, const struct run *r, const char *name);
void write_page(struct text *out, const struct run *r, const char *name);

#endif
