/* Events, answers, refusals, explanations and changes of the image, in words for people. */
#ifndef WORDS_H
#define WORDS_H

#include "books.h"
#include "command.h"

/* "frame 0x718 data 03 7F 11 22", "frame 0x718 DLC 15 data 11 22 33 44 55 66 77 88", "write RMP = 0x20: mailbox 5" */
void say_event(struct text *t, const uint8_t *event);

/*
 * What an accepted step answers, "mailbox 5, 1 compared", and what does not happen in it, "mailbox 0, TEC stays at 128:
 * the unit is passive", "TEC stays at 8: the unit is passive, REC 128"; nothing where there is nothing to say.
 */
void say_answer(struct text *t, const uint8_t *before, const uint8_t *event, uint64_t answer);

/* Why this step was refused: "mailbox 5 is enabled (MC), so its word 0 is fixed". */
void say_reason(struct text *t, const uint8_t *before, const uint8_t *event, uint32_t refusal);

/* An entry in the books, and why a frame came to no mailbox: "released: mailbox 5, the frame of step 14". */
void say_made(struct text *t, const struct made *m, const uint8_t *before, const uint8_t *event);

/* Why a frame was not heard in this state: "the unit is in sleep, and the frame only wakes it". */
void say_not_heard(struct text *t, const char *state, const uint8_t *before);

/*
 * Why a mailbox did not get the frame of a step, or that it did, by a line of frostsorrel_explain's list: "mailbox 3:
 * bit 24 of the identifier differs". Of a frame that the step refused it says what would come of it.
 */
void say_line(struct text *t, const uint8_t *before, uint64_t answer, const uint8_t *list, size_t line);

/*
 * What one would look up next: the mailbox's identifier and what of it decided, its bits as the frame's identifier is
 * written: "0x718: 0x040 is 0 here, 1 in the frame; GAM frees 0x007", "0x718: differs in 0x002, which GAM frees"; the
 * identifier too, where a mask frees IDE: "ext 0x0C400001 (0x310 in 11 bits): differs in IDE, which GAM frees".
 * Nothing of a disabled mailbox whose word 0 is 0.
 */
void say_line_detail(struct text *t, const uint8_t *before, const uint8_t *event, const uint8_t *list, size_t line);

/* The register words stand behind the four of each mailbox, counted from the first byte of an image, then the masks. */
enum { FIRST_REGISTER = 4 * FROSTSORREL_MAILBOXES, FIRST_MASK = FIRST_REGISTER + 32 };

/*
 * How a word changed, by an entry of frostsorrel_compare's list: "RML: +5", "mailbox 5 word 1: DLC 4 -> 3",
 * "mailbox 5 word 1: DLC 3 -> 15 (8 bytes)".
 */
void say_change(struct text *t, const uint8_t *list, size_t entry);

/* The same in numbers: "0x00000000 -> 0x00000020". */
void say_contents(struct text *t, const uint8_t *list, size_t entry);

/* Has a register this number? It may be one that can only be read, or one that only an eCAN takes. */
int is_register(uint32_t number);

/* "0x718", "ext 0x1234567": what word 0 of a mailbox, or a frame's value, has as identifier. */
void say_identifier(struct text *t, uint32_t word_0);

/* "mailbox 5", "mailboxes 2, 5 to 7", "no mailbox": the bits of a flag word. */
void say_mailboxes(struct text *t, uint32_t bits);

/* How many data bytes go with this DLC, in a frame that is not a remote one: so many, and eight at most. */
int data_bytes_of(uint32_t dlc);

/* How many a frame event carries: those that go with its DLC, and none if it is a remote frame. */
int frame_bytes(const uint8_t *event);

/* " 03 7F 11 22" */
void say_bytes(struct text *t, const uint8_t *bytes, int count);

/* " empty", " mailbox 2": the slot. */
void say_slot(struct text *t, uint32_t slot);

/* " 5 RMLIF": the bits of GIF or GIM by number and by the name that GIF has for them, each with a sign before it. */
void say_interrupts(struct text *t, const char *sign, uint32_t bits);

/* "normal", "configuration", "sleep", "suspend", or "bus off", which stands beside the modes here. */
const char *state_of(const uint8_t *image);

/* "active", "warning", "passive" or "bus off": where TEC and REC stand. */
const char *error_state(const uint8_t *image);

#endif
