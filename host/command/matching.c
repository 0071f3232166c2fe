/*
 * Why a frame matched a mailbox or did not: a line of an explanation in words. The reason and the bit come from the
 * library. What is said behind them is looked up in the image before the step, and said only where it is true.
 */
#include "words.h"

/* A frame before a mailbox. */
struct meeting {
    uint32_t word_0;   /* of the mailbox */
    uint32_t frame;    /* the value of the event */
    uint32_t compared; /* IDE, and as many bits of the identifier as the frame has */
    uint32_t mask;     /* what GAM, or LAM in mailbox 31, would free of these; in an eCAN its own mask */
    const char *name;  /* "GAM", "LAM", "MASK5" */
    const char *bit;   /* "GAME", "LAME", "AME": the bit of word 0 that lets it do so */
};

static void find_mask(struct meeting *m, uint32_t mailbox, const uint8_t *before)
{
    int is_last = mailbox == FROSTSORREL_MAILBOXES - 1, is_ecan = frostsorrel_profile_word(before) == FROSTSORREL_ECAN;
    uint32_t shared = is_last ? FROSTSORREL_LAM : FROSTSORREL_GAM, own = FROSTSORREL_MASK_0 + mailbox;

    m->mask = is_ecan ? frostsorrel_mask_word(before, mailbox) : frostsorrel_register_word(before, shared);
    m->mask &= m->compared;
    m->name = frostsorrel_register_name(is_ecan ? own : shared);
    m->bit = is_ecan ? "AME" : is_last ? "LAME" : "GAME";
}

static struct meeting meeting_at(uint32_t mailbox, const uint8_t *before, const uint8_t *event)
{
    uint32_t frame = frostsorrel_event_value(event);
    uint32_t identifier = frame & FROSTSORREL_IDE ? FROSTSORREL_IDENTIFIER_BITS : frostsorrel_standard(0x7FF);
    struct meeting m = {frostsorrel_mailbox_word(before, mailbox, 0), frame, FROSTSORREL_IDE | identifier, 0, 0, 0};

    find_mask(&m, mailbox, before);
    return m;
}

/* "0x040", "0x01000000": bits of the identifier in the measure of the frame's, 11 bits or 29. */
static void say_bits(struct text *t, const struct meeting *m, uint32_t bits)
{
    uint32_t is_extended = m->frame & FROSTSORREL_IDE, in_identifier = bits & FROSTSORREL_IDENTIFIER_BITS;

    text_add(t, is_extended ? "0x%08lX" : "0x%03lX", wide(frostsorrel_identifier(is_extended | in_identifier)));
}

/* "IDE and 0x00F": some of the compared bits. */
static void say_part(struct text *t, const struct meeting *m, uint32_t bits)
{
    uint32_t in_identifier = bits & FROSTSORREL_IDENTIFIER_BITS;

    if (!bits)
        text_add(t, "no bit");
    if (bits & FROSTSORREL_IDE)
        text_add(t, in_identifier ? "IDE and " : "IDE");
    if (in_identifier)
        say_bits(t, m, bits);
}

/* " (0x0C680000 in 29 bits)": the identifier of a mailbox of the other kind, in the measure in which bits are told. */
static void say_other_measure(struct text *t, const struct meeting *m)
{
    if (!((m->word_0 ^ m->frame) & FROSTSORREL_IDE))
        return;
    text_add(t, " (");
    say_bits(t, m, m->word_0);
    text_add(t, m->frame & FROSTSORREL_IDE ? " in 29 bits)" : " in 11 bits)");
}

static int is_masked(const struct meeting *m)
{
    return (m->word_0 & FROSTSORREL_GAME) != 0;
}

/* Where the mask is not used: that it would have freed what differs. */
static void say_unused_mask(struct text *t, const struct meeting *m, uint32_t differing)
{
    if (m->mask & differing)
        text_add(t, "; %s would free it, but %s is 0", m->name, m->bit);
}

static void say_other_kind(struct text *t, const struct meeting *m)
{
    text_add(t, m->word_0 & FROSTSORREL_IDE ? ": extended here, standard in the frame"
                                            : ": standard here, extended in the frame");
    if (is_masked(m))
        text_add(t, "; %s does not free IDE", m->name);
    else
        say_unused_mask(t, m, FROSTSORREL_IDE);
}

static void say_other_bit(struct text *t, const struct meeting *m, uint32_t bit)
{
    say_other_measure(t, m);
    text_add(t, ": ");
    say_bits(t, m, BIT(bit));
    text_add(t, " is %lu here, %lu in the frame", wide(m->word_0 >> bit & 1), wide(m->frame >> bit & 1));
    if (is_masked(m)) {
        text_add(t, "; %s frees ", m->name);
        say_part(t, m, m->mask);
    } else {
        say_unused_mask(t, m, BIT(bit));
    }
}

static void say_match(struct text *t, const struct meeting *m)
{
    uint32_t differing = (m->word_0 ^ m->frame) & m->compared;

    say_other_measure(t, m);
    if (!differing) {
        text_add(t, ": as in the frame");
        return;
    }
    text_add(t, ": differs in ");
    say_part(t, m, differing);
    text_add(t, ", which %s frees", m->name);
}

void say_line_detail(struct text *t, const uint8_t *before, const uint8_t *event, const uint8_t *list, size_t line)
{
    uint32_t reason = frostsorrel_line_reason(list, line);
    struct meeting m;

    if (reason == FROSTSORREL_NOT_HEARD)
        return;
    m = meeting_at(frostsorrel_line_mailbox(list, line), before, event);
    if (reason == FROSTSORREL_DISABLED && !m.word_0)
        return;
    say_identifier(t, m.word_0);
    if (reason == FROSTSORREL_IDE_DIFFERS)
        say_other_kind(t, &m);
    else if (reason == FROSTSORREL_BIT_DIFFERS)
        say_other_bit(t, &m, frostsorrel_line_bit(list, line));
    else if (reason == FROSTSORREL_MATCHED || reason == FROSTSORREL_PROTECTED)
        say_match(t, &m);
}

/* What comes of a match, or would. */
static const char *fate(const uint8_t *before, uint32_t mailbox, int is_refused)
{
    if (frostsorrel_register_word(before, FROSTSORREL_MD) & BIT(mailbox))
        return is_refused ? "and would be stored there" : "and stored there";
    if (frostsorrel_mailbox_word(before, mailbox, 0) & FROSTSORREL_RFH)
        return is_refused ? "and would be asked to reply" : "and asked to reply";
    return "but RFH is 0: nothing comes of it";
}

static void say_silence(struct text *t, const uint8_t *before, uint32_t mode)
{
    text_add(t, "not heard: ");
    say_not_heard(t, mode == FROSTSORREL_IN_BUS_OFF ? "bus off" : frostsorrel_mode_name(mode), before);
}

void say_line(struct text *t, const uint8_t *before, uint64_t answer, const uint8_t *list, size_t line)
{
    uint32_t mailbox = frostsorrel_line_mailbox(list, line), reason = frostsorrel_line_reason(list, line);
    uint32_t bit = frostsorrel_line_bit(list, line);

    if (reason == FROSTSORREL_NOT_HEARD) {
        say_silence(t, before, bit);
        return;
    }
    text_add(t, "mailbox %lu: ", wide(mailbox));
    if (reason == FROSTSORREL_BIT_DIFFERS)
        text_add(t, "bit %lu of the identifier differs", wide(bit));
    else
        text_add(t, "%s", frostsorrel_reason_name(reason));
    if (reason == FROSTSORREL_TRANSMITS)
        text_add(t, ", and this is a data frame");
    if (reason == FROSTSORREL_PROTECTED)
        text_add(t, ", and keeps the frame that it holds");
    if (reason == FROSTSORREL_MATCHED)
        text_add(t, ", %s", fate(before, mailbox, frostsorrel_answer_refusal(answer) != FROSTSORREL_ACCEPTED));
}
