/*
 * A guarded mailbox: the story of refusal_lost, in an eCAN. The module says no; mailbox 5 is protected, so a later frame
 * goes past it, to mailbox 4, and the one behind that goes past both. guarded.md has what it prints.
 */
#include <stdio.h>
#include <stdlib.h>

#include "frostsorrel.h"

#define ANSWERS 5 /* takes the module's answers */
#define SPARE 4   /* takes those that mailbox 5 is guarded against */
#define BIT(n) (1u << (n))

static uint8_t image[FROSTSORREL_IMAGE_BYTES], event[FROSTSORREL_EVENT_BYTES];

/* Feeds an event to the model; answers what the step does. */
static uint64_t feed(const uint8_t *e)
{
    uint64_t answer = frostsorrel_step(image, sizeof image, e, FROSTSORREL_EVENT_BYTES);
    uint32_t refusal = frostsorrel_answer_refusal(answer);

    if (refusal != FROSTSORREL_ACCEPTED) {
        printf("refusal %u: %s\n", (unsigned)refusal, frostsorrel_refusal_reason(refusal));
        exit(1);
    }
    return answer;
}

static void write_register(uint8_t number, uint32_t value)
{
    feed(frostsorrel_write_register(event, number, value));
}

/* Both mailboxes receive one identifier, and both are protected. */
static void set_up(uint32_t identifier)
{
    frostsorrel_fresh(image, sizeof image, FROSTSORREL_ECAN);
    feed(frostsorrel_write_mailbox(event, ANSWERS, 0, identifier));
    feed(frostsorrel_write_mailbox(event, SPARE, 0, identifier));
    write_register(FROSTSORREL_BCR2, 0x25);
    write_register(FROSTSORREL_MD, BIT(ANSWERS) | BIT(SPARE));
    write_register(FROSTSORREL_PROTECTION, BIT(ANSWERS) | BIT(SPARE));
    write_register(FROSTSORREL_MC, BIT(ANSWERS) | BIT(SPARE));
    feed(frostsorrel_event(event, FROSTSORREL_MODE, 0, 0, FROSTSORREL_NORMAL));
}

/* What the explanation says of the mailboxes that are enabled. */
static void explain(void)
{
    uint8_t list[FROSTSORREL_EXPLANATION_BYTES];
    uint64_t lines = frostsorrel_explain(image, sizeof image, event, sizeof event, list, sizeof list);

    for (size_t i = 0; i < frostsorrel_answer_count(lines); i++)
        if (frostsorrel_line_reason(list, i) != FROSTSORREL_DISABLED)
            printf("  mailbox %u: %s\n", (unsigned)frostsorrel_line_mailbox(list, i),
                   frostsorrel_reason_name(frostsorrel_line_reason(list, i)));
}

static void frame_comes(const char *what, uint32_t identifier, uint8_t dlc, const uint8_t *data)
{
    uint64_t answer;

    frostsorrel_data_frame(event, identifier, dlc, data);
    printf("%s\n", what);
    explain();
    answer = feed(event);
    if (frostsorrel_answer_mailbox(answer) == FROSTSORREL_NO_MAILBOX)
        printf("  stored nowhere, %u compared\n", (unsigned)frostsorrel_answer_count(answer));
    else
        printf("  stored in mailbox %u, %u compared\n", (unsigned)frostsorrel_answer_mailbox(answer),
               (unsigned)frostsorrel_answer_count(answer));
}

static uint32_t value_of(uint32_t number)
{
    return frostsorrel_read_value(frostsorrel_read(image, sizeof image, number));
}

int main(void)
{
    static const uint8_t no[] = {0x03, 0x7F, 0x11, 0x22}, later[] = {0x02, 0x51, 0x11}, last[] = {0x02, 0x51, 0x12};
    const uint32_t identifier = frostsorrel_standard(0x718);

    set_up(identifier);
    frame_comes("the module says no", identifier, sizeof no, no);
    frame_comes("a later frame", identifier, sizeof later, later);
    frame_comes("one more", identifier, sizeof last, last);
    printf("mailbox %d still holds 0x%02X, the no\n", ANSWERS, frostsorrel_mailbox_data(image, ANSWERS, 1));
    printf("RMP 0x%02lX, RML 0x%02lX, GIF 0x%02lX\n", (unsigned long)value_of(FROSTSORREL_RMP),
           (unsigned long)value_of(FROSTSORREL_RML), (unsigned long)value_of(FROSTSORREL_GIF));
    write_register(FROSTSORREL_RMP, BIT(ANSWERS));
    frame_comes("the firmware has read the no, and a frame comes", identifier, sizeof last, last);
    return 0;
}
