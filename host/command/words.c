#include "words.h"

#include <string.h>

#include "scenario.h"

/* ---- parts of words */

/* The next row of bits without a gap, from this bit on. Answers its first bit and the bit behind it; 32 if none. */
static int next_row(uint32_t bits, int from, int *behind)
{
    while (from < 32 && !(bits & BIT(from)))
        from++;
    *behind = from;
    while (*behind < 32 && bits & BIT(*behind))
        ++*behind;
    return from;
}

void say_mailboxes(struct text *t, uint32_t bits)
{
    const char *before = bits & (bits - 1) ? "mailboxes " : "mailbox ";
    int behind;

    if (!bits)
        text_add(t, "no mailbox");
    for (int n = next_row(bits, 0, &behind); n < 32; n = next_row(bits, behind, &behind)) {
        text_add(t, "%s%d", before, n);
        if (behind > n + 1)
            text_add(t, behind > n + 2 ? " to %d" : ", %d", behind - 1);
        before = ", ";
    }
}

/* "+5", "-0 to 7": the bits that rose or fell. */
static void say_bits(struct text *t, char sign, uint32_t bits)
{
    int behind;

    for (int n = next_row(bits, 0, &behind); n < 32; n = next_row(bits, behind, &behind)) {
        text_add(t, " %c%d", sign, n);
        if (behind > n + 1)
            text_add(t, behind > n + 2 ? " to %c%d" : " %c%d", sign, behind - 1);
    }
}

void say_interrupts(struct text *t, const char *sign, uint32_t bits)
{
    const char *between = "";

    for (int n = 0; n < 8; n++)
        if (bits & BIT(n)) {
            text_add(t, "%s %s%d %s", between, sign, n, frostsorrel_gif_name((uint32_t)n));
            between = *sign ? "" : ",";
        }
}

static void say_options(struct text *t, const char *sign, uint32_t value)
{
    if (value & FROSTSORREL_MTOS)
        text_add(t, " %sMTOS", sign);
    if (value & FROSTSORREL_WUBA)
        text_add(t, " %sWUBA", sign);
}

void say_identifier(struct text *t, uint32_t word_0)
{
    if (word_0 & FROSTSORREL_IDE)
        text_add(t, "ext 0x%08lX", wide(frostsorrel_identifier(word_0)));
    else
        text_add(t, "0x%03lX", wide(frostsorrel_identifier(word_0)));
}

int data_bytes_of(uint32_t dlc)
{
    return dlc < FROSTSORREL_MOST_DATA_BYTES ? (int)dlc : FROSTSORREL_MOST_DATA_BYTES;
}

int frame_bytes(const uint8_t *event)
{
    return frostsorrel_event_value(event) & FROSTSORREL_FRAME_RTR ? 0 : data_bytes_of(event[1]);
}

void say_bytes(struct text *t, const uint8_t *bytes, int count)
{
    for (int i = 0; i < count; i++)
        text_add(t, " %02X", bytes[i]);
}

int is_register(uint32_t number)
{
    return number <= FROSTSORREL_REC || number == FROSTSORREL_GSR ||
           (number >= FROSTSORREL_MASK_0 && number <= FROSTSORREL_PROTECTION);
}

/* A register whose bit n is mailbox n's. */
static int is_flag_word(uint32_t number)
{
    return (number <= FROSTSORREL_MBIM && number != FROSTSORREL_LAM && number != FROSTSORREL_GAM) ||
           number == FROSTSORREL_PROTECTION;
}

static int is_mask_word(uint32_t number)
{
    return number >= FROSTSORREL_MASK_0 && number <= FROSTSORREL_MASK_31;
}

static int is_interrupt_word(uint32_t number)
{
    return number == FROSTSORREL_GIF || number == FROSTSORREL_GIM;
}

/* ---- events */

static void say_register_write(struct text *t, const uint8_t *event)
{
    uint32_t number = event[1], value = frostsorrel_event_value(event);

    if (is_register(number))
        text_add(t, "write %s = 0x%lX", frostsorrel_register_name(number), wide(value));
    else
        text_add(t, "write register %lu = 0x%lX", wide(number), wide(value));
    if (is_flag_word(number)) {
        text_add(t, ": ");
        say_mailboxes(t, value);
    } else if (is_interrupt_word(number) && value & 0xFF) {
        text_add(t, ":");
        say_interrupts(t, "", value);
    } else if (number == FROSTSORREL_BCR2) {
        text_add(t, ": SJW %lu, TSEG2 %lu, TSEG1 %lu", wide(value >> 8 & 3), wide(value >> 4 & 7), wide(value & 15));
    }
}

static void say_word_0(struct text *t, uint32_t value)
{
    text_add(t, " identifier ");
    say_identifier(t, value);
    text_add(t, "%s%s", value & FROSTSORREL_GAME ? ", masked" : "", value & FROSTSORREL_RFH ? ", RFH" : "");
}

/* The DLC of a word 1. Above eight it is not the number of bytes, so that is said too; a remote frame has none. */
static void say_dlc(struct text *t, uint32_t word_1)
{
    uint32_t dlc = word_1 & FROSTSORREL_DLC_BITS, count = frostsorrel_data_bytes(word_1);

    text_add(t, "%lu", wide(dlc));
    if (count && count < dlc)
        text_add(t, " (%lu bytes)", wide(count));
}

static void say_word_1(struct text *t, uint32_t value)
{
    text_add(t, " DLC ");
    say_dlc(t, value);
    text_add(t, value & FROSTSORREL_RTR ? ", RTR" : "");
    if (value >> 16)
        text_add(t, ", time stamp %lu", wide(value >> 16));
}

static void say_mailbox_write(struct text *t, const uint8_t *event)
{
    text_add(t, "mailbox %d word %d = 0x%08lX", event[1], event[2], wide(frostsorrel_event_value(event)));
    if (event[2] > 3)
        return;
    text_add(t, ":");
    if (event[2] == 0)
        say_word_0(t, frostsorrel_event_value(event));
    else if (event[2] == 1)
        say_word_1(t, frostsorrel_event_value(event));
    else
        say_bytes(t, event + 4, 4);
}

static void say_frame(struct text *t, const uint8_t *event)
{
    uint32_t value = frostsorrel_event_value(event);
    int is_remote = (value & FROSTSORREL_FRAME_RTR) != 0, count = frame_bytes(event);

    text_add(t, is_remote ? "remote frame " : "frame ");
    say_identifier(t, value);
    if (is_remote || event[1] > count)
        text_add(t, " DLC %d", event[1]);
    if (!is_remote)
        text_add(t, count ? " data" : " no data");
    say_bytes(t, event + 8, count);
}

static void say_mode(struct text *t, const uint8_t *event)
{
    uint32_t value = frostsorrel_event_value(event);

    if (value <= FROSTSORREL_SUSPEND)
        text_add(t, "mode %s", frostsorrel_mode_name(value));
    else
        text_add(t, "mode %lu", wide(value));
}

void say_event(struct text *t, const uint8_t *event)
{
    switch (event[0]) {
    case FROSTSORREL_WRITE_REGISTER:
        say_register_write(t, event);
        break;
    case FROSTSORREL_WRITE_MAILBOX:
        say_mailbox_write(t, event);
        break;
    case FROSTSORREL_FRAME:
        say_frame(t, event);
        break;
    case FROSTSORREL_OUTCOME:
        if (event[1] < OUTCOMES)
            text_add(t, "outcome %s", frostsorrel_outcome_name(event[1]));
        else
            text_add(t, "outcome %d", event[1]);
        break;
    case FROSTSORREL_RECEIVE_ERROR:
        text_add(t, "receive error %lu", wide(frostsorrel_event_value(event)));
        break;
    case FROSTSORREL_MODE:
        say_mode(t, event);
        break;
    case FROSTSORREL_OPTIONS:
        text_add(t, "options 0x%lX%s", wide(frostsorrel_event_value(event)),
                 frostsorrel_event_value(event) & 3 ? ":" : "");
        say_options(t, "", frostsorrel_event_value(event));
        break;
    case FROSTSORREL_START:
    case FROSTSORREL_ELEVEN_RECESSIVE:
    case FROSTSORREL_TICK:
    case FROSTSORREL_RESET:
        text_add(t, "%s", frostsorrel_operation_name(event[0]));
        break;
    default:
        text_add(t, "operation %d", event[0]);
    }
}

/* ---- answers and entries */

/* Why an event that was accepted did nothing: the state that it came in. Frames have their reason with their entry. */
static void say_idle(struct text *t, const char *state, uint8_t operation)
{
    int is_normal = strcmp(state, "normal") == 0;

    if (operation == FROSTSORREL_START && is_normal)
        text_add(t, "nothing to send: no enabled mailbox has a request that CDR does not hold back");
    else if (operation == FROSTSORREL_START)
        text_add(t, "nothing is sent in %s", state);
    else if (operation == FROSTSORREL_RECEIVE_ERROR && !is_normal)
        text_add(t, "not heard in %s", state);
    else if (operation == FROSTSORREL_ELEVEN_RECESSIVE && strcmp(state, "bus off") != 0)
        text_add(t, "counted in bus off only");
    else if (operation == FROSTSORREL_TICK && strcmp(state, "sleep") == 0)
        text_add(t, "the time stamp counter stands still in sleep");
}

/*
 * Where nobody acknowledged, a unit that was passive keeps its TEC (document 02, b). A change that does not come shows
 * nowhere else, so it is said; not where sleep waits, which makes TEC 0 in the same step. A TEC that is not above 127
 * leaves open why the unit is passive, so REC is named with it.
 */
static void say_kept_tec(struct text *t, const uint8_t *before, const uint8_t *event)
{
    uint32_t tec = frostsorrel_register_word(before, FROSTSORREL_TEC);
    int is_unacknowledged = event[0] == FROSTSORREL_OUTCOME && event[1] == FROSTSORREL_UNACKNOWLEDGED;
    int sleep_waits = frostsorrel_register_word(before, FROSTSORREL_WORD_WAITING) == FROSTSORREL_SLEEP;

    if (!is_unacknowledged || sleep_waits || strcmp(error_state(before), "passive") != 0)
        return;
    text_add(t, ", TEC stays at %lu: the unit is passive", wide(tec));
    if (tec <= FROSTSORREL_PASSIVE_ABOVE)
        text_add(t, ", REC %lu", wide(frostsorrel_register_word(before, FROSTSORREL_REC)));
}

/* An answer is told as it is. Where it names no mailbox the state may say why. */
void say_answer(struct text *t, const uint8_t *before, const uint8_t *event, uint64_t answer)
{
    uint32_t n = frostsorrel_answer_mailbox(answer);
    int is_named = n != FROSTSORREL_NO_MAILBOX, is_frame = event[0] == FROSTSORREL_FRAME;

    if (is_named)
        text_add(t, "mailbox %lu", wide(n));
    else if (is_frame)
        text_add(t, "no mailbox");
    else
        say_idle(t, state_of(before), event[0]);
    if (is_frame)
        text_add(t, ", %lu compared", (unsigned long)frostsorrel_answer_count(answer));
    say_kept_tec(t, before, event);
}

/* The mailbox at which the search for one ended, 32 if it ended at none: the last line of the explanation says it. */
static uint32_t search_ended_at(const uint8_t *before, const uint8_t *event)
{
    uint8_t list[FROSTSORREL_EXPLANATION_BYTES];
    uint64_t answer = frostsorrel_explain(before, FROSTSORREL_IMAGE_BYTES, event, FROSTSORREL_EVENT_BYTES, list,
                                          sizeof list);
    size_t count = (size_t)frostsorrel_answer_count(answer);

    return count && frostsorrel_line_reason(list, count - 1) == FROSTSORREL_MATCHED
               ? frostsorrel_line_mailbox(list, count - 1)
               : FROSTSORREL_NO_MAILBOX;
}

static void say_not_taken(struct text *t, const uint8_t *before, const uint8_t *event)
{
    uint32_t n = search_ended_at(before, event);

    if (n != FROSTSORREL_NO_MAILBOX)
        text_add(t, "it matches mailbox %lu, which transmits and does not reply (RFH 0): the search ends there",
                 wide(n));
    else if (frostsorrel_event_value(event) & FROSTSORREL_FRAME_RTR)
        text_add(t, "no enabled mailbox matches it");
    else
        text_add(t, "no enabled mailbox that receives matches it");
}

void say_not_heard(struct text *t, const char *state, const uint8_t *before)
{
    int sleeps = frostsorrel_register_word(before, FROSTSORREL_WORD_MODE) == FROSTSORREL_SLEEP;

    text_add(t, "the unit is in %s", state);
    if (sleeps && frostsorrel_register_word(before, FROSTSORREL_WORD_OPTIONS) & FROSTSORREL_WUBA)
        text_add(t, ", and the frame only wakes it");
}

void say_made(struct text *t, const struct made *m, const uint8_t *before, const uint8_t *event)
{
    static const char *const words[] = {
        "stored: mailbox %d",
        "released: mailbox %d, the frame of step %d",
        "LOST: mailbox %d, the frame of step %d was overwritten unread",
        "DROPPED: mailbox %d, the frame of step %d was dropped unread by the reset",
        "request raised: mailbox %d",
        "sent: mailbox %d, the request of step %d",
        "aborted: mailbox %d, the request of step %d",
        "dropped by sleep: mailbox %d, the request of step %d",
        "dropped by the reset: mailbox %d, the request of step %d",
        "NOT HEARD: ",
        "NOT TAKEN: ",
        "PASSED OVER: every mailbox that matches it is protected and holds a frame",
    };

    text_add(t, words[m->entry], m->mailbox, m->since);
    if (m->entry == NOT_TAKEN)
        say_not_taken(t, before, event);
    if (m->entry == NOT_HEARD)
        say_not_heard(t, state_of(before), before);
    if (m->entry == RELEASED && frostsorrel_register_word(before, FROSTSORREL_RML) & BIT(m->mailbox))
        text_add(t, "; its lost flag is cleared with it");
}

/* ---- changes */

static void say_numbers(struct text *t, const char *format, uint32_t old, uint32_t new)
{
    text_add(t, format, wide(old), wide(new));
}

/* The flags of word 0 that are not the identifier, and RTR of word 1. */
static void say_flag(struct text *t, uint32_t old, uint32_t new, uint32_t bit, const char *name)
{
    if ((old ^ new) & bit)
        text_add(t, " %c%s", new & bit ? '+' : '-', name);
}

static void say_word_0_change(struct text *t, uint32_t old, uint32_t new)
{
    if ((old ^ new) & (FROSTSORREL_IDE | FROSTSORREL_IDENTIFIER_BITS)) {
        text_add(t, " identifier ");
        say_identifier(t, old);
        text_add(t, " -> ");
        say_identifier(t, new);
    }
    say_flag(t, old, new, FROSTSORREL_GAME, "masked");
    say_flag(t, old, new, FROSTSORREL_RFH, "RFH");
}

static void say_word_1_change(struct text *t, uint32_t old, uint32_t new)
{
    if ((old ^ new) & FROSTSORREL_DLC_BITS) {
        text_add(t, " DLC ");
        say_dlc(t, old);
        text_add(t, " -> ");
        say_dlc(t, new);
    }
    say_flag(t, old, new, FROSTSORREL_RTR, "RTR");
    if ((old ^ new) >> 16)
        say_numbers(t, " time stamp %lu -> %lu", old >> 16, new >> 16);
}

/* Data bytes stand in a word from its low end. */
static void say_data(struct text *t, uint32_t word)
{
    for (int i = 0; i < 4; i++)
        text_add(t, " %02lX", wide(word >> 8 * i & 0xFF));
}

static void say_mailbox_change(struct text *t, uint32_t word, uint32_t old, uint32_t new)
{
    text_add(t, "mailbox %lu word %lu:", wide(word / 4), wide(word % 4));
    if (word % 4 == 0) {
        say_word_0_change(t, old, new);
    } else if (word % 4 == 1) {
        say_word_1_change(t, old, new);
    } else {
        say_data(t, old);
        text_add(t, " ->");
        say_data(t, new);
    }
}

void say_slot(struct text *t, uint32_t slot)
{
    if (slot == FROSTSORREL_EMPTY_SLOT)
        text_add(t, " empty");
    else
        text_add(t, " mailbox %lu", wide(slot));
}

/* The level that a counter rises to. */
static void say_level(struct text *t, uint32_t old, uint32_t new)
{
    if (old < FROSTSORREL_BUS_OFF_TEC && new == FROSTSORREL_BUS_OFF_TEC)
        text_add(t, ", bus off");
    else if (old <= FROSTSORREL_PASSIVE_ABOVE && new > FROSTSORREL_PASSIVE_ABOVE)
        text_add(t, ", above %d: passive", FROSTSORREL_PASSIVE_ABOVE);
    else if (old <= FROSTSORREL_WARNING_ABOVE && new > FROSTSORREL_WARNING_ABOVE)
        text_add(t, ", above %d: warning", FROSTSORREL_WARNING_ABOVE);
}

static void say_register_change(struct text *t, uint32_t number, uint32_t old, uint32_t new)
{
    text_add(t, "%s:", frostsorrel_register_name(number));
    if (is_flag_word(number)) {
        say_bits(t, '+', new & ~old);
        say_bits(t, '-', old & ~new);
    } else if (is_interrupt_word(number)) {
        say_interrupts(t, "+", new & ~old);
        say_interrupts(t, "-", old & ~new);
    } else if (number == FROSTSORREL_WORD_OPTIONS) {
        say_options(t, "+", new & ~old);
        say_options(t, "-", old & ~new);
    } else if (number == FROSTSORREL_WORD_MODE || number == FROSTSORREL_WORD_WAITING) {
        text_add(t, " %s -> %s", frostsorrel_mode_name(old), frostsorrel_mode_name(new));
    } else if (number == FROSTSORREL_WORD_SLOT) {
        say_slot(t, old);
        text_add(t, " ->");
        say_slot(t, new);
    } else if (number >= FROSTSORREL_TSC && !is_mask_word(number)) {
        say_numbers(t, " %lu -> %lu", old, new);
    } else {
        say_numbers(t, " 0x%lX -> 0x%lX", old, new);
    }
    if (number == FROSTSORREL_TEC || number == FROSTSORREL_REC)
        say_level(t, old, new);
}

void say_change(struct text *t, const uint8_t *list, size_t entry)
{
    uint32_t word = frostsorrel_entry_number(list, entry);
    uint32_t old = frostsorrel_entry_first(list, entry), new = frostsorrel_entry_second(list, entry);

    if (word < FIRST_REGISTER)
        say_mailbox_change(t, word, old, new);
    else if (word < FIRST_MASK)
        say_register_change(t, word - FIRST_REGISTER, old, new);
    else if (word < FROSTSORREL_IMAGE_WORDS - 1)
        say_register_change(t, word - FIRST_MASK + FROSTSORREL_MASK_0, old, new);
    else
        text_add(t, "profile: %s -> %s", frostsorrel_profile_name(old), frostsorrel_profile_name(new));
}

void say_contents(struct text *t, const uint8_t *list, size_t entry)
{
    say_numbers(t, "0x%08lX -> 0x%08lX", frostsorrel_entry_first(list, entry), frostsorrel_entry_second(list, entry));
}

const char *state_of(const uint8_t *image)
{
    if (frostsorrel_register_word(image, FROSTSORREL_TEC) == FROSTSORREL_BUS_OFF_TEC)
        return "bus off";
    return frostsorrel_mode_name(frostsorrel_register_word(image, FROSTSORREL_WORD_MODE));
}

/* GSR has it too, but an eCAN has no GSR. */
const char *error_state(const uint8_t *image)
{
    uint32_t tec = frostsorrel_register_word(image, FROSTSORREL_TEC);
    uint32_t rec = frostsorrel_register_word(image, FROSTSORREL_REC), worse = tec > rec ? tec : rec;

    if (tec == FROSTSORREL_BUS_OFF_TEC)
        return "bus off";
    if (worse > FROSTSORREL_PASSIVE_ABOVE)
        return "passive";
    return worse > FROSTSORREL_WARNING_ABOVE ? "warning" : "active";
}
