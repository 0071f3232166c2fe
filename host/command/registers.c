/* frostsorrel registers [PROFILE]: every register of a fresh model, as the firmware would read it. */
#include <string.h>

#include "command.h"
#include "frostsorrel.h"

static const char help[] =
    "frostsorrel registers [can-b | ecan]\n"
    "\n"
    "Makes a fresh model and prints every register that can be read: its number, its name and its value. Without a word\n"
    "it is a CAN-B, as every trace has it; ecan makes the other maker's controller, which has no GSR. MASK0 to MASK31 and\n"
    "PROTECTION can be read in both and written in an eCAN alone; with LAM and GAM it is the other way round.\n";

/* Adds one line. Answers whether the read was accepted. */
static int add_register(struct text *t, const uint8_t *image, uint32_t number)
{
    uint64_t answer = frostsorrel_read(image, FROSTSORREL_IMAGE_BYTES, number);

    text_add(t, "%6lu  %-10s  0x%08lX\n", wide(number), frostsorrel_register_name(number),
             wide(frostsorrel_read_value(answer)));
    return frostsorrel_read_refusal(answer) == FROSTSORREL_ACCEPTED;
}

/* Answers whether all of these were accepted. */
static int add_row(struct text *t, const uint8_t *image, uint32_t first, uint32_t last)
{
    int accepted = 1;

    for (uint32_t number = first; number <= last; number++)
        accepted = add_register(t, image, number) && accepted;
    return accepted;
}

static int add_registers(struct text *t, uint32_t profile)
{
    uint8_t image[FROSTSORREL_IMAGE_BYTES];
    uint64_t made = frostsorrel_fresh(image, sizeof image, profile);
    int accepted = frostsorrel_answer_refusal(made) == FROSTSORREL_ACCEPTED;

    text_add(t, "number  name        value\n");
    accepted = add_row(t, image, FROSTSORREL_MC, FROSTSORREL_REC) && accepted;
    if (profile == FROSTSORREL_CAN_B)
        accepted = add_register(t, image, FROSTSORREL_GSR) && accepted;
    return add_row(t, image, FROSTSORREL_MASK_0, FROSTSORREL_PROTECTION) && accepted;
}

/* The profile that this word names; above the last one where it names none. */
static uint32_t profile_named(const char *word)
{
    if (strcmp(word, "can-b") == 0)
        return FROSTSORREL_CAN_B;
    return strcmp(word, "ecan") == 0 ? FROSTSORREL_ECAN : FROSTSORREL_ECAN + 1;
}

int command_registers(int argc, char **argv)
{
    uint32_t profile = argc > 1 ? profile_named(argv[1]) : FROSTSORREL_CAN_B;
    struct text t = {0};
    int status;

    if (asks_help(argc, argv))
        return show_help(help);
    if (argc > 2)
        return misused(argv[0], "%s takes one word, and %s is another", argv[0], argv[2]);
    if (profile > FROSTSORREL_ECAN)
        return misused(argv[0], "%s is no profile: can-b or ecan", argv[1]);
    status = add_registers(&t, profile) ? text_show(&t, 0) : COMMAND_DIFFERS;
    if (status == COMMAND_DIFFERS)
        complain("a fresh model refused a read");
    text_free(&t);
    return status;
}
