/*
 * The inline functions and constants of frostsorrel.h against numbers worked out by hand. It calls nothing of
 * the library and is C99, C11 and C++17 at once: host/test_header compiles it as each of them.
 */
#include <stdio.h>
#include <string.h>

#include "check.h"
#include "frostsorrel.h"

#define COUNT(table) (sizeof(table) / sizeof((table)[0]))

static void same_number(const char *what, uint64_t got, uint64_t expected)
{
    check(got == expected, "%s is 0x%llX, not 0x%llX", what, (unsigned long long)got,
          (unsigned long long)expected);
}

static void same_name(const char *what, uint32_t number, const char *got, const char *expected)
{
    check(strcmp(got, expected) == 0, "%s %lu is \"%s\", not \"%s\"", what, (unsigned long)number, got,
          expected);
}

/* ---- the version */

static void version(void)
{
    char numbers[40];

    snprintf(numbers, sizeof numbers, "%d.%d.%d", FROSTSORREL_VERSION_MAJOR, FROSTSORREL_VERSION_MINOR,
             FROSTSORREL_VERSION_PATCH);
    same_name("version", 0, FROSTSORREL_VERSION, numbers);
}

/* ---- sizes: what the parts add up to */

/*
 * What a part can bring: a line of 13 bytes at its first byte and one for each 16 bytes more, and behind them the
 * refusal for a byte that it has as well.
 */
static int lines_and_refusal_fit(void)
{
    size_t len;

    for (len = 0; len < 2000; len++) {
        size_t lines = len == 0 ? 0 : 1 + (len - 1) / 16, lines_before = len < 2 ? 0 : 1 + (len - 2) / 16;
        size_t room = len + FROSTSORREL_STREAM_FEED_BYTES;

        if (13 * lines > room || 13 * lines_before + (len > 0 ? 16 : 0) > room)
            return 0;
    }
    return 1;
}

static void sizes(void)
{
    const char header[] = "step code mailbox count\n", refusal[] = "trace refused 8\n", end[] = "end 3000\n";
    const char longest_listing[] = "step code mailbox count\n" "end 3000\n";

    same_number("the image", FROSTSORREL_IMAGE_BYTES, 4 * FROSTSORREL_IMAGE_WORDS);
    same_number("its words", FROSTSORREL_IMAGE_WORDS,
                4 * FROSTSORREL_MAILBOXES + 32 + FROSTSORREL_MAILBOXES + 1 + 1);
    same_number("the longest trace", FROSTSORREL_TRACE_BYTES,
                3 * (2 + FROSTSORREL_EVENT_BYTES * FROSTSORREL_SECTION_EVENTS));
    same_number("room for any listing", FROSTSORREL_LISTING_BYTES, strlen(longest_listing) + 3000 * 13);
    same_number("the state of a stream", FROSTSORREL_STREAM_BYTES, 4 * 4 + FROSTSORREL_EVENT_BYTES);
    same_number("what an opening writes", FROSTSORREL_STREAM_OPEN_BYTES, strlen(header));
    same_number("room for a closing", FROSTSORREL_STREAM_CLOSE_BYTES, strlen(refusal));
    check(strlen(end) <= FROSTSORREL_STREAM_CLOSE_BYTES, "room for the end line");
    same_number("room for a feeding beside its part", FROSTSORREL_STREAM_FEED_BYTES, 15 + strlen(refusal));
    check(lines_and_refusal_fit(), "room for a feeding");
    same_number("an entry", FROSTSORREL_ENTRY_BYTES, 4 + 4 + 4);
    same_number("room for any list of differences", FROSTSORREL_DIFFERENCE_BYTES,
                FROSTSORREL_ENTRY_BYTES * FROSTSORREL_IMAGE_WORDS);
    same_number("a line", FROSTSORREL_LINE_BYTES, 1 + 1 + 1 + 5);
    same_number("room for any explanation", FROSTSORREL_EXPLANATION_BYTES,
                FROSTSORREL_LINE_BYTES * FROSTSORREL_MAILBOXES);
    same_number("the data bytes of a mailbox", FROSTSORREL_MOST_DATA_BYTES, 2 * 4);
    same_number("those of an event", FROSTSORREL_MOST_DATA_BYTES, FROSTSORREL_EVENT_BYTES - 8);
    same_number("the highest DLC", FROSTSORREL_HIGHEST_DLC, 15);
    same_number("which fills its bits", FROSTSORREL_HIGHEST_DLC, FROSTSORREL_DLC_BITS);
}

/* ---- identifiers */

static void identifiers(void)
{
    same_number("standard 0x123", frostsorrel_standard(0x123), 0x048C0000);
    same_number("standard 0x718", frostsorrel_standard(0x718), 0x1C600000);
    same_number("standard 0x7FF", frostsorrel_standard(0x7FF), 0x1FFC0000);
    same_number("standard 0x800 has no place", frostsorrel_standard(0x800), 0);
    same_number("extended 0x11234567", frostsorrel_extended(0x11234567), 0x91234567);
    same_number("extended 0", frostsorrel_extended(0), 0x80000000);
    same_number("extended 0x20000000 has no place", frostsorrel_extended(0xE0000000), 0x80000000);
    for (uint32_t bit = 0; bit < 11; bit++)
        same_number("a standard identifier and back", frostsorrel_identifier(frostsorrel_standard(1u << bit)),
                    1u << bit);
    for (uint32_t bit = 0; bit < 29; bit++)
        same_number("an extended identifier and back", frostsorrel_identifier(frostsorrel_extended(1u << bit)),
                    1u << bit);
    same_number("GAME and RFH are no identifier", frostsorrel_identifier(0x048C0000 | 0x60000000), 0x123);
    same_number("nor of an extended one", frostsorrel_identifier(0xFFFFFFFF), 0x1FFFFFFF);
}

/* ---- events */

#define GUARD 0xA5

/* The 16 bytes, none behind them, and that the answer is the event that was given. */
static void same_event(const char *what, const uint8_t *got, const uint8_t *event, const char *expected)
{
    char text[3 * FROSTSORREL_EVENT_BYTES + 1] = "";

    for (size_t i = 0; i < FROSTSORREL_EVENT_BYTES; i++)
        snprintf(text + 3 * i, 4, "%02x ", event[i]);
    text[3 * FROSTSORREL_EVENT_BYTES - 1] = 0;
    check(got == event, "%s: the answer is not the event", what);
    check(event[FROSTSORREL_EVENT_BYTES] == GUARD, "%s: the byte behind the event was written", what);
    check(strcmp(text, expected) == 0, "%s: %s, not %s", what, text, expected);
}

/* As many bytes as the DLC says, and at most eight; a DLC above 15 is for a step to refuse. */
static void data_frames(void)
{
    static const uint8_t data[9] = {0x11, 0x22, 0x33, 0x44, 0x55, 0x66, 0x77, 0x88, 0x99};
    static const struct {
        uint8_t dlc;
        const char *event;
    } frames[] = {
        {0, "02 00 00 00 01 00 00 80 00 00 00 00 00 00 00 00"},
        {1, "02 01 00 00 01 00 00 80 11 00 00 00 00 00 00 00"},
        {7, "02 07 00 00 01 00 00 80 11 22 33 44 55 66 77 00"},
        {8, "02 08 00 00 01 00 00 80 11 22 33 44 55 66 77 88"},
        {9, "02 09 00 00 01 00 00 80 11 22 33 44 55 66 77 88"},
        {15, "02 0f 00 00 01 00 00 80 11 22 33 44 55 66 77 88"},
        {16, "02 10 00 00 01 00 00 80 11 22 33 44 55 66 77 88"},
        {255, "02 ff 00 00 01 00 00 80 11 22 33 44 55 66 77 88"},
    };
    uint8_t e[FROSTSORREL_EVENT_BYTES + 1];

    for (size_t i = 0; i < COUNT(frames); i++) {
        memset(e, GUARD, sizeof e);
        same_event("a data frame", frostsorrel_data_frame(e, frostsorrel_extended(1), frames[i].dlc, data), e,
                   frames[i].event);
    }
}

static void events(void)
{
    static const uint8_t data[2] = {0x11, 0x22};
    uint8_t e[FROSTSORREL_EVENT_BYTES + 1];

    memset(e, GUARD, sizeof e);
    same_event("any event", frostsorrel_event(e, 1, 2, 3, 0x87654321), e,
               "01 02 03 00 21 43 65 87 00 00 00 00 00 00 00 00");
    same_number("its value", frostsorrel_event_value(e), 0x87654321);
    memset(e, GUARD, sizeof e);
    same_event("a register write", frostsorrel_write_register(e, FROSTSORREL_MC, 0x20), e,
               "00 00 00 00 20 00 00 00 00 00 00 00 00 00 00 00");
    memset(e, GUARD, sizeof e);
    same_event("a mailbox write", frostsorrel_write_mailbox(e, 31, 3, 0xFF000001), e,
               "01 1f 03 00 01 00 00 ff 00 00 00 00 00 00 00 00");
    memset(e, GUARD, sizeof e);
    same_event("a data frame", frostsorrel_data_frame(e, frostsorrel_standard(0x123), 2, data), e,
               "02 02 00 00 00 00 8c 04 11 22 00 00 00 00 00 00");
    memset(e, GUARD, sizeof e);
    same_event("no data at all", frostsorrel_data_frame(e, frostsorrel_extended(1), 0, NULL), e,
               "02 00 00 00 01 00 00 80 00 00 00 00 00 00 00 00");
    memset(e, GUARD, sizeof e);
    same_event("a remote frame", frostsorrel_remote_frame(e, frostsorrel_extended(0x11234567), 8), e,
               "02 08 00 00 67 45 23 d1 00 00 00 00 00 00 00 00");
    memset(e, GUARD, sizeof e);
    same_event("a remote frame of DLC 15", frostsorrel_remote_frame(e, frostsorrel_standard(0x123), 15), e,
               "02 0f 00 00 00 00 8c 44 00 00 00 00 00 00 00 00");
    memset(e, GUARD, sizeof e);
    same_event("sent", frostsorrel_outcome(e, FROSTSORREL_SENT), e,
               "04 00 00 00 00 00 00 00 00 00 00 00 00 00 00 00");
    memset(e, GUARD, sizeof e);
    same_event("no acknowledgement", frostsorrel_outcome(e, FROSTSORREL_UNACKNOWLEDGED), e,
               "04 03 00 00 00 00 00 00 00 00 00 00 00 00 00 00");
}

/* ---- the image, each byte of which is another than its neighbours */

static void words(void)
{
    uint8_t image[FROSTSORREL_IMAGE_BYTES];

    for (size_t i = 0; i < sizeof image; i++)
        image[i] = (uint8_t)(i % 251);
    same_number("word 0 of mailbox 0", frostsorrel_mailbox_word(image, 0, 0), 0x03020100);
    same_number("word 3 of mailbox 5", frostsorrel_mailbox_word(image, 5, 3), 0x5F5E5D5C);
    same_number("word 3 of mailbox 31", frostsorrel_mailbox_word(image, 31, 3), 0x09080706);
    same_number("data byte 0 of mailbox 5", frostsorrel_mailbox_data(image, 5, 0), 0x58);
    same_number("data byte 7 of mailbox 31", frostsorrel_mailbox_data(image, 31, 7), 0x09);
    same_number("MC", frostsorrel_register_word(image, FROSTSORREL_MC), 0x0D0C0B0A);
    same_number("TSO", frostsorrel_register_word(image, FROSTSORREL_WORD_TSO), 0x79787776);
    same_number("mask 0", frostsorrel_mask_word(image, 0), 0x8D8C8B8A);
    same_number("mask 31", frostsorrel_mask_word(image, 31), 0x0E0D0C0B);
    same_number("protection", frostsorrel_protection_word(image), 0x1211100F);
    same_number("profile", frostsorrel_profile_word(image), 0x16151413);
    image[3] = 0xFF;
    same_number("a word's top bit", frostsorrel_mailbox_word(image, 0, 0), 0xFF020100);
}

/* ---- how many data bytes there are, by word 1: the time stamp and bits 15 to 5 say nothing about it */

static void data_bytes(void)
{
    static const uint32_t bytes[] = {0, 1, 2, 3, 4, 5, 6, 7, 8, 8, 8, 8, 8, 8, 8, 8};

    for (uint32_t dlc = 0; dlc < COUNT(bytes); dlc++) {
        same_number("the data bytes of a frame", frostsorrel_data_bytes(dlc), bytes[dlc]);
        same_number("the same, with a time stamp", frostsorrel_data_bytes(0xFFFF0000 | dlc), bytes[dlc]);
        same_number("the same, whatever bits 15 to 5 are", frostsorrel_data_bytes(0xFFE0 | dlc), bytes[dlc]);
        same_number("those of a remote frame", frostsorrel_data_bytes(FROSTSORREL_RTR | dlc), 0);
    }
}

/* ---- a list of two entries, by hand: word 3 of mailbox 31, then TSO */

static void entries(void)
{
    static const uint8_t list[] = {
        127, 0, 0, 0, 0x11, 0x22, 0x33, 0x84, 0x55, 0x66, 0x77, 0xF8,
        155, 0, 0, 0, 0x00, 0x00, 0x00, 0x00, 0x01, 0x00, 0x00, 0x00,
    };

    same_number("the number of entry 0", frostsorrel_entry_number(list, 0), 127);
    same_number("its first content", frostsorrel_entry_first(list, 0), 0x84332211);
    same_number("its second content", frostsorrel_entry_second(list, 0), 0xF8776655);
    same_number("the number of entry 1", frostsorrel_entry_number(list, 1), 155);
    same_number("its first content", frostsorrel_entry_first(list, 1), 0);
    same_number("its second content", frostsorrel_entry_second(list, 1), 1);
}

/* ---- lines of explanations, by hand: a bit of mailbox 3, mailbox 31 matched, not heard in bus off, 4 protected */

static void lines(void)
{
    static const uint8_t list[] = {
        3,  4, 28, 0, 0, 0, 0, 0,
        31, 5, 0,  0, 0, 0, 0, 0,
        32, 6, 4,  0, 0, 0, 0, 0,
        4,  7, 0,  0, 0, 0, 0, 0,
    };

    same_number("the mailbox of line 0", frostsorrel_line_mailbox(list, 0), 3);
    same_number("its reason", frostsorrel_line_reason(list, 0), FROSTSORREL_BIT_DIFFERS);
    same_number("its bit", frostsorrel_line_bit(list, 0), 28);
    same_number("the mailbox of line 1", frostsorrel_line_mailbox(list, 1), 31);
    same_number("its reason", frostsorrel_line_reason(list, 1), FROSTSORREL_MATCHED);
    same_number("its bit", frostsorrel_line_bit(list, 1), 0);
    same_number("the mailbox of line 2", frostsorrel_line_mailbox(list, 2), FROSTSORREL_NO_MAILBOX);
    same_number("its reason", frostsorrel_line_reason(list, 2), FROSTSORREL_NOT_HEARD);
    same_number("its mode", frostsorrel_line_bit(list, 2), FROSTSORREL_IN_BUS_OFF);
    same_number("the mailbox of line 3", frostsorrel_line_mailbox(list, 3), 4);
    same_number("its reason", frostsorrel_line_reason(list, 3), FROSTSORREL_PROTECTED);
    same_number("its bit", frostsorrel_line_bit(list, 3), 0);
}

/* ---- the state of a stream, by hand: 4 of section 2 left, 1,500 complete, 3 bytes of the next, options */

static void stream_words(void)
{
    static const uint8_t state[FROSTSORREL_STREAM_BYTES] = {
        2, 0, 0, 0, 4, 0, 0, 0, 0xDC, 5, 0, 0, 3, 0, 0, 0,
        9, 0, 0, 0, 0, 0, 0, 0, 0,    0, 0, 0, 0, 0, 0, 0,
    };
    static const uint8_t far[FROSTSORREL_STREAM_BYTES] = {5, 0, 0, 0x80};

    same_number("the section", frostsorrel_stream_word(state, FROSTSORREL_STREAM_SECTION), 2);
    same_number("the events left", frostsorrel_stream_word(state, FROSTSORREL_STREAM_LEFT), 4);
    same_number("the steps", frostsorrel_stream_word(state, FROSTSORREL_STREAM_STEPS), 1500);
    same_number("the bytes gathered", frostsorrel_stream_word(state, FROSTSORREL_STREAM_GATHERED), 3);
    same_number("a word's top bit", frostsorrel_stream_word(far, FROSTSORREL_STREAM_SECTION), 0x80000005);
    same_number("word 0", FROSTSORREL_STREAM_SECTION, 0);
    same_number("word 1", FROSTSORREL_STREAM_LEFT, 1);
    same_number("word 2", FROSTSORREL_STREAM_STEPS, 2);
    same_number("word 3", FROSTSORREL_STREAM_GATHERED, 3);
    same_number("behind the third section", FROSTSORREL_STREAM_BEHIND, 4);
    same_number("over", FROSTSORREL_STREAM_OVER, 5);
}

/* By the numbers of document 02; no mode has the number that says bus off. */
static void reasons(void)
{
    same_number("disabled", FROSTSORREL_DISABLED, 1);
    same_number("transmits", FROSTSORREL_TRANSMITS, 2);
    same_number("IDE differs", FROSTSORREL_IDE_DIFFERS, 3);
    same_number("bit differs", FROSTSORREL_BIT_DIFFERS, 4);
    same_number("matched", FROSTSORREL_MATCHED, 5);
    same_number("not heard", FROSTSORREL_NOT_HEARD, 6);
    same_number("protected", FROSTSORREL_PROTECTED, 7);
    same_number("in bus off", FROSTSORREL_IN_BUS_OFF, 4);
    same_number("the last mode", FROSTSORREL_SUSPEND, 3);
}

static void answers(void)
{
    same_number("the refusal", frostsorrel_answer_refusal(0x200507), 7);
    same_number("the mailbox", frostsorrel_answer_mailbox(0x200507), 5);
    same_number("the count", frostsorrel_answer_count(0x200507), 0x20);
    same_number("no room", frostsorrel_answer_refusal(0x2009), FROSTSORREL_NO_ROOM);
    same_number("a list of 189 entries", frostsorrel_answer_count(0xBD2000), 189);
    same_number("an explanation of 32 lines", frostsorrel_answer_count(0x202000), 32);
    same_number("a stream over, with 29 bytes", frostsorrel_answer_refusal(0x1D2008), FROSTSORREL_BAD_TRACE);
    same_number("those bytes", frostsorrel_answer_count(0x1D2008), 29);
    same_number("39,016 bytes", frostsorrel_answer_count(0x98682000), 39016);
    same_number("a read's value", frostsorrel_read_value(0x2FFFFFFFFu), 0xFFFFFFFF);
    same_number("a read's refusal", frostsorrel_read_refusal(0x2FFFFFFFFu), 2);
}

/* ---- constants: each GIF and GSR bit is the next one, but for those that GSR does not have */

static void bits(void)
{
    static const uint32_t gif[] = {FROSTSORREL_WLIF,   FROSTSORREL_EPIF,  FROSTSORREL_BOIF, FROSTSORREL_TSOIF,
                                   FROSTSORREL_TRMABF, FROSTSORREL_RMLIF, FROSTSORREL_WUIF, FROSTSORREL_RFPF};
    static const char *const gif_names[] = {"WLIF", "EPIF", "BOIF", "TSOIF", "TRMABF", "RMLIF", "WUIF", "RFPF"};

    for (uint32_t bit = 0; bit < COUNT(gif); bit++) {
        same_number(gif_names[bit], gif[bit], 1u << bit);
        same_name("GIF bit", bit, frostsorrel_gif_name(bit), gif_names[bit]);
    }
    same_number("fresh GSR", FROSTSORREL_GSR_MIS | FROSTSORREL_GSR_CCE, 0x1F080);
    same_number("suspended GSR", FROSTSORREL_GSR_MIS | FROSTSORREL_GSR_SUA, 0x1F100);
    same_number("GSR asleep", FROSTSORREL_GSR_MIS | FROSTSORREL_GSR_SMA, 0x1F040);
    same_number("GSR while mailbox 2 sends", 2u << FROSTSORREL_GSR_MIS_SHIFT | FROSTSORREL_GSR_TM, 0x2400);
    same_number("GSR in bus off", FROSTSORREL_GSR_BO | FROSTSORREL_GSR_EP | FROSTSORREL_GSR_EW, 7);
    same_number("the slot in GSR", (uint32_t)FROSTSORREL_GSR_MIS >> FROSTSORREL_GSR_MIS_SHIFT,
                FROSTSORREL_GSR_MIS_EMPTY);
    same_number("an empty slot in the image", FROSTSORREL_EMPTY_SLOT, FROSTSORREL_MAILBOXES);
    same_number("TSO in GSR", FROSTSORREL_GSR_TSO, 8);
    same_number("word 0", FROSTSORREL_IDE | FROSTSORREL_GAME | FROSTSORREL_RFH | FROSTSORREL_IDENTIFIER_BITS,
                0xFFFFFFFF);
    same_number("word 1", FROSTSORREL_RTR | FROSTSORREL_DLC_BITS, 0x1F);
}

/* ---- names: each table to its end, and a number behind it */

typedef const char *name_function(uint32_t number);

static void names_are(const char *what, name_function *name, const char *const *expected, uint32_t count)
{
    for (uint32_t number = 0; number < count; number++)
        same_name(what, number, name(number), expected[number]);
    same_name(what, count, name(count), "no name");
    same_name(what, 0xFFFFFFFF, name(0xFFFFFFFF), "no name");
}

static void names(void)
{
    static const char *const operations[] = {"register write", "mailbox write", "frame", "start", "outcome",
                                             "receive error", "eleven recessive bits", "tick", "mode",
                                             "options", "reset"};
    static const char *const outcomes[] = {"sent", "arbitration lost", "error", "no acknowledgement"};
    static const char *const modes[] = {"normal", "configuration", "sleep", "suspend", "none"};
    static const char *const reason_names[] = {"no name",     "disabled", "transmits", "IDE differs",
                                               "bit differs", "matched",  "not heard", "protected"};
    static const char *const profiles[] = {"CAN-B", "eCAN"};
    static const char *const refusals[] = {"accepted", "bad image", "unknown", "asleep", "not allowed",
                                           "busy", "locked", "slot empty", "bad trace", "no room"};
    static const char *const in_reason[] = {"taken", "the image is not", "there is no such", "while the model sleeps",
                                            "the value, the DLC or the profile", "being sent, or waits",
                                            "in this mode or profile", "an outcome came while nothing", "three sections",
                                            "does not fit"};

    names_are("operation", frostsorrel_operation_name, operations, COUNT(operations));
    names_are("outcome", frostsorrel_outcome_name, outcomes, COUNT(outcomes));
    names_are("mode", frostsorrel_mode_name, modes, COUNT(modes));
    names_are("reason", frostsorrel_reason_name, reason_names, COUNT(reason_names));
    names_are("profile", frostsorrel_profile_name, profiles, COUNT(profiles));
    names_are("refusal", frostsorrel_refusal_name, refusals, COUNT(refusals));
    for (uint32_t refusal = 0; refusal < COUNT(refusals); refusal++)
        check(strstr(frostsorrel_refusal_reason(refusal), in_reason[refusal]) != 0, "refusal %lu has the reason %s",
              (unsigned long)refusal, frostsorrel_refusal_reason(refusal));
}

static void register_names(void)
{
    static const struct {
        uint32_t number;
        const char *name;
    } registers[] = {
        {FROSTSORREL_MC, "MC"},       {FROSTSORREL_MD, "MD"},       {FROSTSORREL_TRS, "TRS"},
        {FROSTSORREL_TRR, "TRR"},     {FROSTSORREL_TA, "TA"},       {FROSTSORREL_AA, "AA"},
        {FROSTSORREL_RMP, "RMP"},     {FROSTSORREL_RML, "RML"},     {FROSTSORREL_LAM, "LAM"},
        {FROSTSORREL_GAM, "GAM"},     {FROSTSORREL_RFP, "RFP"},     {FROSTSORREL_CDR, "CDR"},
        {FROSTSORREL_MBTIF, "MBTIF"}, {FROSTSORREL_MBRIF, "MBRIF"}, {FROSTSORREL_MBIM, "MBIM"},
        {FROSTSORREL_GIF, "GIF"},     {FROSTSORREL_GIM, "GIM"},     {FROSTSORREL_BCR1, "BCR1"},
        {FROSTSORREL_BCR2, "BCR2"},   {FROSTSORREL_TSC, "TSC"},     {FROSTSORREL_TEC, "TEC"},
        {FROSTSORREL_REC, "REC"},     {FROSTSORREL_GSR, "GSR"},     {FROSTSORREL_WORD_MODE, "mode"},
        {FROSTSORREL_WORD_WAITING, "waiting mode"},
        {FROSTSORREL_WORD_SLOT, "slot"},
        {FROSTSORREL_WORD_RECOVERY, "recovery count"},
        {FROSTSORREL_WORD_OPTIONS, "options"},
        {FROSTSORREL_WORD_TSO, "TSO"},
        {28, "word 28"}, {31, "word 31"}, {33, "no name"}, {63, "no name"},
        {FROSTSORREL_PROTECTION, "PROTECTION"}, {97, "no name"}, {0xFFFFFFFF, "no name"},
    };
    char mask[16];

    for (size_t i = 0; i < COUNT(registers); i++)
        same_name("register", registers[i].number, frostsorrel_register_name(registers[i].number),
                  registers[i].name);
    for (uint32_t n = 0; n < FROSTSORREL_MAILBOXES; n++) {
        snprintf(mask, sizeof mask, "MASK%lu", (unsigned long)n);
        same_name("register", 64 + n, frostsorrel_register_name(FROSTSORREL_MASK_0 + n), mask);
    }
    same_number("the last mask", FROSTSORREL_MASK_31, 95);
    same_number("the protection", FROSTSORREL_PROTECTION, 96);
}

int main(int argc, char **argv)
{
    version();
    sizes();
    identifiers();
    events();
    data_frames();
    words();
    data_bytes();
    entries();
    lines();
    stream_words();
    reasons();
    answers();
    bits();
    names();
    register_names();
    return report(argc > 1 ? argv[1] : "host header");
}
