/*
 * Why a step was refused, told from the event and the image before it. The number itself comes from the library, and a
 * sentence is said only where it is true: with none that is, the general reason of that number stands.
 */
#include "words.h"

static uint32_t word_of(const uint8_t *image, uint32_t number)
{
    return frostsorrel_register_word(image, number);
}

static int has(const uint8_t *image, uint32_t number, uint32_t mailbox)
{
    return (word_of(image, number) >> mailbox & 1) != 0;
}

/* ---- 2: there is no such thing */

static int is_only_read(uint32_t number)
{
    return number == FROSTSORREL_RML || number == FROSTSORREL_RFP || number > FROSTSORREL_TSC;
}

static void say_unknown(struct text *t, const uint8_t *event)
{
    if (event[0] > FROSTSORREL_RESET)
        text_add(t, "there is no operation %d", event[0]);
    else if (event[0] == FROSTSORREL_OUTCOME)
        text_add(t, "there is no outcome %d", event[1]);
    else if (event[0] == FROSTSORREL_WRITE_REGISTER && !is_register(event[1]))
        text_add(t, "there is no register %d", event[1]);
    else if (event[0] == FROSTSORREL_WRITE_REGISTER && is_only_read(event[1]))
        text_add(t, "%s can only be read", frostsorrel_register_name(event[1]));
    else if (event[1] >= FROSTSORREL_MAILBOXES)
        text_add(t, "there is no mailbox %d", event[1]);
    else if (event[2] > 3)
        text_add(t, "a mailbox has no word %d", event[2]);
}

/* ---- 4: a value that is not allowed, or a byte that is not used */

static const char *bad_mask(uint32_t value)
{
    return value & (FROSTSORREL_GAME | FROSTSORREL_RFH) ? "bits 30 and 29 of a mask must be 0" : 0;
}

static const char *bad_register(uint32_t number, uint32_t value)
{
    if (number >= FROSTSORREL_MASK_0 && number <= FROSTSORREL_MASK_31)
        return bad_mask(value);
    switch (number) {
    case FROSTSORREL_LAM:
    case FROSTSORREL_GAM:
        return bad_mask(value);
    case FROSTSORREL_CDR:
        return value >> 31 ? "mailbox 31 never sends, so bit 31 must be 0" : 0;
    case FROSTSORREL_GIF:
    case FROSTSORREL_GIM:
        return value > 0xFF ? "the value must not be above 255" : 0;
    case FROSTSORREL_BCR1:
    case FROSTSORREL_BCR2:
        return value > 1023 ? "the value must not be above 1023" : 0;
    case FROSTSORREL_TSC:
        return value ? "TSC takes nothing but 0" : 0;
    default:
        return 0;
    }
}

static const char *bad_identifier(uint32_t value)
{
    return !(value & FROSTSORREL_IDE) && value & 0x3FFFF
               ? "a standard identifier stands in bits 28 to 18, and bits 17 to 0 must be 0"
               : 0;
}

static const char *bad_mailbox_word(uint8_t word, uint32_t value)
{
    if (word == 0)
        return bad_identifier(value);
    return word == 1 && value & 0xFFE0 ? "bits 15 to 5 of word 1 must be 0" : 0;
}

static const char *bad_frame(uint8_t dlc, uint32_t value)
{
    if (dlc > FROSTSORREL_HIGHEST_DLC)
        return "the DLC must not be above 15";
    return value & FROSTSORREL_RFH ? "bit 29 of a frame's value must be 0" : bad_identifier(value);
}

static const char *bad_value(const uint8_t *event)
{
    uint32_t value = frostsorrel_event_value(event);

    switch (event[0]) {
    case FROSTSORREL_WRITE_REGISTER:
        return bad_register(event[1], value);
    case FROSTSORREL_WRITE_MAILBOX:
        return bad_mailbox_word(event[2], value);
    case FROSTSORREL_FRAME:
        return bad_frame(event[1], value);
    case FROSTSORREL_RECEIVE_ERROR:
        return value != 1 && value != 8 ? "a receive error adds 1 or 8" : 0;
    case FROSTSORREL_MODE:
        return value > FROSTSORREL_SUSPEND ? "the modes are 0 to 3" : 0;
    case FROSTSORREL_OPTIONS:
        return value > 3 ? "the options are 0 to 3" : 0;
    default:
        return 0;
    }
}

/* Does this operation use its target, its word, its value, this data byte? Byte 3 is used by none. */
static int uses(const uint8_t *event, int byte)
{
    int operation = event[0];

    if (byte == 1)
        return operation <= FROSTSORREL_FRAME || operation == FROSTSORREL_OUTCOME;
    if (byte == 2)
        return operation == FROSTSORREL_WRITE_MAILBOX;
    if (byte >= 4 && byte < 8)
        return operation <= FROSTSORREL_FRAME || operation == FROSTSORREL_RECEIVE_ERROR ||
               operation == FROSTSORREL_MODE || operation == FROSTSORREL_OPTIONS;
    return byte >= 8 && operation == FROSTSORREL_FRAME && byte - 8 < frame_bytes(event);
}

static void say_not_allowed(struct text *t, const uint8_t *event)
{
    const char *why = bad_value(event);
    int byte = 1;

    while (byte < FROSTSORREL_EVENT_BYTES && (uses(event, byte) || event[byte] == 0))
        byte++;
    if (why)
        text_add(t, "%s", why);
    else if (byte < FROSTSORREL_EVENT_BYTES)
        text_add(t, "byte %d of the event is 0x%02X; it is not used and must be 0", byte, event[byte]);
}

/* ---- 5: busy */

/* What cannot be done at these mailboxes; nothing where there are none. */
static void say_forbidden(struct text *t, uint32_t mailboxes, const char *what)
{
    if (!mailboxes)
        return;
    say_mailboxes(t, mailboxes);
    text_add(t, "%s", what);
}

/* An MC write is busy where it turns off a mailbox, an MD write where it turns one round. */
static void say_busy_write(struct text *t, const uint8_t *before, const uint8_t *event)
{
    uint32_t value = frostsorrel_event_value(event), off = word_of(before, FROSTSORREL_MC) & ~value;
    uint32_t turned = word_of(before, FROSTSORREL_MD) ^ value, waiting = word_of(before, FROSTSORREL_TRS);

    if (event[1] == FROSTSORREL_MC)
        say_forbidden(t, off & waiting, " cannot be turned off while a request waits there (TRS)");
    else
        say_forbidden(t, turned & waiting, " cannot be turned round while a request waits there (TRS)");
}

static void say_busy(struct text *t, const uint8_t *before, const uint8_t *event)
{
    uint32_t slot = word_of(before, FROSTSORREL_WORD_SLOT);

    if (event[0] == FROSTSORREL_WRITE_REGISTER)
        say_busy_write(t, before, event);
    else if (slot != FROSTSORREL_EMPTY_SLOT && (event[0] != FROSTSORREL_WRITE_MAILBOX || event[1] == slot))
        text_add(t, "mailbox %lu is being sent", wide(slot));
    else if (event[0] == FROSTSORREL_WRITE_MAILBOX && has(before, FROSTSORREL_TRS, event[1]) &&
             !has(before, FROSTSORREL_CDR, event[1]))
        text_add(t, "a request waits at mailbox %d (TRS), and CDR does not hold it back", event[1]);
}

/* ---- 6: locked */

static int is_ecan(const uint8_t *image)
{
    return frostsorrel_profile_word(image) == FROSTSORREL_ECAN;
}

/* The other maker's masks, and protection. */
static int is_foreign(const uint8_t *before, uint32_t number)
{
    if (is_ecan(before))
        return number == FROSTSORREL_LAM || number == FROSTSORREL_GAM;
    return number >= FROSTSORREL_MASK_0;
}

static void say_locked_write(struct text *t, const uint8_t *before, const uint8_t *event)
{
    uint32_t turned = frostsorrel_event_value(event) ^ word_of(before, FROSTSORREL_MD);

    if (!is_ecan(before))
        turned &= ~BIT(31); /* which stays 1, whatever is written */
    if (is_foreign(before, event[1]))
        text_add(t, is_ecan(before) ? "%s is the CAN-B's, and this is an eCAN" : "%s is the eCAN's, and this is a CAN-B",
                 frostsorrel_register_name(event[1]));
    else if (event[1] == FROSTSORREL_MD)
        say_forbidden(t, turned & word_of(before, FROSTSORREL_MC), " cannot be turned round while enabled (MC)");
    else if (word_of(before, FROSTSORREL_WORD_MODE) != FROSTSORREL_CONFIGURATION)
        text_add(t, "%s can be written in configuration only", frostsorrel_register_name(event[1]));
}

static void say_locked_mailbox(struct text *t, const uint8_t *before, const uint8_t *event)
{
    if (!has(before, FROSTSORREL_MC, event[1]))
        return;
    if (event[2] == 0)
        text_add(t, "mailbox %d is enabled (MC), so its word 0 is fixed", event[1]);
    else if (has(before, FROSTSORREL_MD, event[1]))
        text_add(t, "mailbox %d is enabled (MC) and receives, so its data is not the firmware's to write", event[1]);
    else if (frostsorrel_mailbox_word(before, event[1], 0) & FROSTSORREL_RFH && !has(before, FROSTSORREL_CDR, event[1]))
        text_add(t, "mailbox %d is enabled (MC) and replies by itself (RFH): CDR must be set first", event[1]);
}

static void say_locked_mode(struct text *t, const uint8_t *before, const uint8_t *event)
{
    uint32_t mode = word_of(before, FROSTSORREL_WORD_MODE), wanted = frostsorrel_event_value(event);

    if (mode == FROSTSORREL_CONFIGURATION && wanted == FROSTSORREL_NORMAL)
        text_add(t, "BCR2 is 0x%lX: TSEG1 and TSEG2 must not be 0, and SJW must not be above TSEG2",
                 wide(word_of(before, FROSTSORREL_BCR2)));
    else if (mode != FROSTSORREL_NORMAL && wanted != FROSTSORREL_NORMAL)
        text_add(t, "%s can be left for normal only", frostsorrel_mode_name(mode));
}

/* ---- all of them */

void say_reason(struct text *t, const uint8_t *before, const uint8_t *event, uint32_t refusal)
{
    size_t length = t->length;

    if (refusal == FROSTSORREL_UNKNOWN)
        say_unknown(t, event);
    else if (refusal == FROSTSORREL_NOT_ALLOWED)
        say_not_allowed(t, event);
    else if (refusal == FROSTSORREL_BUSY)
        say_busy(t, before, event);
    else if (refusal == FROSTSORREL_LOCKED && event[0] == FROSTSORREL_WRITE_REGISTER)
        say_locked_write(t, before, event);
    else if (refusal == FROSTSORREL_LOCKED && event[0] == FROSTSORREL_WRITE_MAILBOX)
        say_locked_mailbox(t, before, event);
    else if (refusal == FROSTSORREL_LOCKED)
        say_locked_mode(t, before, event);
    if (t->length == length)
        text_add(t, "%s", frostsorrel_refusal_reason(refusal));
}
