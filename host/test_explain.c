/* Calls frostsorrel_explain as a C host does, and holds it to requests d) and g) of document 02. */
#include "check.h"
#include "clauses.h"
#include "events.h"
#include "frostsorrel.h"
#include "generate.h"
#include "image.h"
#include "lists.h"

#define MOST FROSTSORREL_EXPLANATION_BYTES

/* Word 0 of a mailbox and the value of a frame; of the two standard ones bit 18 alone differs. */
#define STANDARD_123 0x048C0000u
#define STANDARD_122 0x04880000u
#define EXTENDED_123 0x848C0000u
#define EXTENDED_122 0x84880000u
#define LOW 0x0003FFFFu /* the bits that only an extended identifier has */
#define REMOTE FROSTSORREL_FRAME_RTR

#define ALL 0xFFFFFFFFu
#define EVERY_MASK 0x9FFFFFFFu /* IDE and all identifier bits are freed */
#define BIT_31 0x80000000u

/* The reasons, by the numbers of document 02. */
enum { DISABLED = 1, TRANSMITS, IDE_DIFFERS, BIT_DIFFERS, MATCHED, NOT_HEARD, PROTECTED };

/* ---- calls that are checked */

static struct call of_event(const uint8_t *image, const uint8_t *event, size_t event_len, size_t list_len)
{
    struct call c = {image, event, BYTES, event_len, list_len};

    return c;
}

/* The whole outcome; image and event stay. */
static void expect(const char *what, struct call c, uint64_t answer, const struct list *list)
{
    expect_call(what, frostsorrel_explain, c, answer, list);
}

/* Just enough room, more, and too little of it. */
static void expect_lines(const char *what, const uint8_t *image, struct event e, const struct list *list)
{
    expect_rooms_of(what, frostsorrel_explain, of_event(image, e.bytes, EVENT_BYTES, 0), list,
                    FROSTSORREL_LINE_BYTES);
}

/* Each room from none to more than any explanation needs. */
static void expect_each_room(const char *what, const uint8_t *image, struct event e, const struct list *list)
{
    for (size_t len = 0; len <= MOST + 20; len++) {
        struct call c = of_event(image, e.bytes, EVENT_BYTES, len);

        if (len < list->len)
            expect(what, c, REFUSED(9), &nothing);
        else
            expect(what, c, ACCEPTED(list->len / 8), list);
    }
}

/* Whatever the room: none, for the one line of a frame that is not heard, for any explanation. */
static void expect_refusal(const char *what, struct call c, uint32_t refusal)
{
    static const size_t rooms[] = {0, 8, LONGEST_LIST};

    for (size_t i = 0; i < COUNT(rooms); i++) {
        c.list_len = rooms[i];
        expect(what, c, REFUSED(refusal), &nothing);
    }
}

/* ---- lists */

static void add_line(struct list *list, int mailbox, int reason, int bit)
{
    const uint8_t line[] = {(uint8_t)mailbox, (uint8_t)reason, (uint8_t)bit, 0, 0, 0, 0, 0};

    memcpy(list->bytes + list->len, line, sizeof line);
    list->len += sizeof line;
}

/* Lines of disabled mailboxes from the one whose line is next, below this number. */
static void add_disabled(struct list *list, int below)
{
    for (int n = (int)list->len / 8; n < below; n++)
        add_line(list, n, DISABLED, 0);
}

/* This mailbox is enabled and no other: all behind it have their lines too, unless it matches. */
static struct list only_line(int mailbox, int reason, int bit)
{
    struct list list = nothing;

    add_disabled(&list, mailbox);
    add_line(&list, mailbox, reason, bit);
    if (reason != MATCHED)
        add_disabled(&list, 32);
    return list;
}

/* The frame of this value, without data. */
static struct event frame_of(uint32_t value)
{
    return plain_event(FROSTSORREL_FRAME, 0, 0, value);
}

/* Mailbox n alone is enabled, and receives with this word 0. */
static void put_one(uint8_t *image, int n, uint32_t word_0)
{
    make_with(image, NORMAL, MC, 1u << n);
    put(image, MD, ALL);
    put(image, MAILBOX(n, 0), word_0);
}

static void expect_at(const char *what, const uint8_t *image, uint32_t frame, int n, int reason, int bit)
{
    struct list list = only_line(n, reason, bit);

    expect_lines(what, image, frame_of(frame), &list);
}

/* ---- lists written by hand */

#define LINE(mailbox, reason, bit) mailbox, reason, bit, 0, 0, 0, 0, 0

static const struct by_hand {
    const char *what;
    struct edit edits[EDITS]; /* of an image in normal mode */
    uint32_t frame;           /* its value */
    struct list front;        /* the mailboxes behind are disabled; where none of these matches, they follow */
} lists[] = {
    {"nothing is enabled", {{0, 0, 0}}, STANDARD_123, {{0}, 0}},
    /* each reason */
    {"disabled", {SET(MD, ALL), SET(MAILBOX(0, 0), STANDARD_123)}, STANDARD_123,
     {{0, 1, 0, 0, 0, 0, 0, 0}, 8}},
    {"transmits", {SET(MC, 1), SET(MAILBOX(0, 0), STANDARD_123)}, STANDARD_123,
     {{0, 2, 0, 0, 0, 0, 0, 0}, 8}},
    {"transmits, with RFH", {SET(MC, 1), SET(MAILBOX(0, 0), STANDARD_123 | RFH)}, STANDARD_123,
     {{LINE(0, 2, 0)}, 8}},
    {"extended mailbox, standard frame", {SET(MC, 1), SET(MD, ALL), SET(MAILBOX(0, 0), EXTENDED_123)},
     STANDARD_123, {{0, 3, 0, 0, 0, 0, 0, 0}, 8}},
    {"standard mailbox, extended frame", {SET(MC, 1), SET(MD, ALL), SET(MAILBOX(0, 0), STANDARD_123)},
     EXTENDED_123, {{LINE(0, 3, 0)}, 8}},
    {"bit 18", {SET(MC, 1), SET(MD, ALL), SET(MAILBOX(0, 0), STANDARD_122)}, STANDARD_123,
     {{0, 4, 18, 0, 0, 0, 0, 0}, 8}},
    {"bit 18, in the mailbox", {SET(MC, 1), SET(MD, ALL), SET(MAILBOX(0, 0), STANDARD_123)}, STANDARD_122,
     {{LINE(0, 4, 18)}, 8}},
    {"bit 0", {SET(MC, 1), SET(MD, ALL), SET(MAILBOX(0, 0), EXTENDED_123)}, EXTENDED_123 | 1,
     {{LINE(0, 4, 0)}, 8}},
    {"matched", {SET(MC, 1), SET(MD, ALL), SET(MAILBOX(0, 0), STANDARD_123)}, STANDARD_123,
     {{0, 5, 0, 0, 0, 0, 0, 0}, 8}},
    {"matched, extended", {SET(MC, 1), SET(MD, ALL), SET(MAILBOX(0, 0), EXTENDED_123 | 1)}, EXTENDED_123 | 1,
     {{LINE(0, 5, 0)}, 8}},
    {"matched by a remote frame", {SET(MC, 1), SET(MD, ALL), SET(MAILBOX(0, 0), STANDARD_123)},
     STANDARD_123 | REMOTE, {{LINE(0, 5, 0)}, 8}},
    /* the first reason of several */
    {"disabled before transmits", {SET(MAILBOX(0, 0), STANDARD_123)}, STANDARD_123, {{LINE(0, 1, 0)}, 8}},
    {"disabled before all", {SET(MAILBOX(0, 0), EXTENDED_122)}, STANDARD_123, {{LINE(0, 1, 0)}, 8}},
    {"disabled before IDE", {SET(MD, ALL), SET(MAILBOX(0, 0), EXTENDED_123)}, STANDARD_123,
     {{LINE(0, 1, 0)}, 8}},
    {"disabled before a bit", {SET(MD, ALL), SET(MAILBOX(0, 0), STANDARD_122)}, STANDARD_123,
     {{LINE(0, 1, 0)}, 8}},
    {"transmits before IDE", {SET(MC, 1), SET(MAILBOX(0, 0), EXTENDED_123)}, STANDARD_123,
     {{LINE(0, 2, 0)}, 8}},
    {"transmits before a bit", {SET(MC, 1), SET(MAILBOX(0, 0), STANDARD_122)}, STANDARD_123,
     {{LINE(0, 2, 0)}, 8}},
    {"IDE before a bit", {SET(MC, 1), SET(MD, ALL), SET(MAILBOX(0, 0), EXTENDED_122)}, STANDARD_123,
     {{LINE(0, 3, 0)}, 8}},
    {"IDE before the highest bit", {SET(MC, 1), SET(MD, ALL), SET(MAILBOX(0, 0), 0x948C0000)}, STANDARD_123,
     {{LINE(0, 3, 0)}, 8}},
    /* remote frames and transmit mailboxes: RFH does not matter here */
    {"it replies", {SET(MC, 1), SET(MAILBOX(0, 0), STANDARD_123 | RFH)}, STANDARD_123 | REMOTE,
     {{LINE(0, 5, 0)}, 8}},
    {"it is silent", {SET(MC, 1), SET(MAILBOX(0, 0), STANDARD_123)}, STANDARD_123 | REMOTE,
     {{LINE(0, 5, 0)}, 8}},
    {"it is silent, and the next one would have stored the frame",
     {SET(MC, 3), SET(MD, 0xFFFFFFFE), SET(MAILBOX(0, 0), STANDARD_123), SET(MAILBOX(1, 0), STANDARD_123)},
     STANDARD_123 | REMOTE, {{LINE(0, 5, 0)}, 8}},
    {"it transmits, and its IDE differs", {SET(MC, 1), SET(MAILBOX(0, 0), EXTENDED_122)},
     STANDARD_123 | REMOTE, {{LINE(0, 3, 0)}, 8}},
    {"it transmits, and a bit differs", {SET(MC, 1), SET(MAILBOX(0, 0), STANDARD_122)}, STANDARD_123 | REMOTE,
     {{LINE(0, 4, 18)}, 8}},
    {"RFH is no bit of the identifier", {SET(MC, 1), SET(MD, ALL), SET(MAILBOX(0, 0), STANDARD_123 | RFH)},
     STANDARD_123, {{LINE(0, 5, 0)}, 8}},
    /* several mailboxes */
    {"the data frame goes past", {SET(MC, 3), SET(MD, 0xFFFFFFFE), SET(MAILBOX(0, 0), STANDARD_123),
                                  SET(MAILBOX(1, 0), STANDARD_123)},
     STANDARD_123, {{LINE(0, 2, 0), LINE(1, 5, 0)}, 16}},
    {"the first of two that match",
     {SET(MC, 6), SET(MD, ALL), SET(MAILBOX(1, 0), STANDARD_123), SET(MAILBOX(2, 0), STANDARD_123)},
     STANDARD_123, {{LINE(0, 1, 0), LINE(1, 5, 0)}, 16}},
    {"disabled ones have lines and do not end it",
     {SET(MC, 0x14), SET(MD, ALL), SET(MAILBOX(2, 0), STANDARD_122), SET(MAILBOX(4, 0), STANDARD_123)},
     STANDARD_123,
     {{LINE(0, 1, 0), LINE(1, 1, 0), LINE(2, 4, 18), LINE(3, 1, 0), LINE(4, 5, 0)}, 40}},
    {"one of each", {SET(MC, 0x1D), SET(MD, 0xFFFFFFFB), SET(MAILBOX(0, 0), EXTENDED_123),
                     SET(MAILBOX(3, 0), STANDARD_122), SET(MAILBOX(4, 0), STANDARD_123)},
     STANDARD_123,
     {{0, 3, 0, 0, 0, 0, 0, 0, 1, 1, 0, 0, 0, 0, 0, 0, 2, 2, 0, 0, 0, 0, 0, 0, 3, 4, 18, 0, 0, 0, 0, 0,
       4, 5, 0, 0, 0, 0, 0, 0}, 40}},
    /* masks */
    {"GAM without GAME", {SET(MC, 1), SET(MD, ALL), SET(GAM, EVERY_MASK), SET(MAILBOX(0, 0), STANDARD_122)},
     STANDARD_123, {{LINE(0, 4, 18)}, 8}},
    {"GAM frees IDE, without GAME",
     {SET(MC, 1), SET(MD, ALL), SET(GAM, EVERY_MASK), SET(MAILBOX(0, 0), EXTENDED_123)}, STANDARD_123,
     {{LINE(0, 3, 0)}, 8}},
    {"GAME, and nothing in GAM", {SET(MC, 1), SET(MD, ALL), SET(MAILBOX(0, 0), STANDARD_122 | MASKED)},
     STANDARD_123, {{LINE(0, 4, 18)}, 8}},
    {"GAM frees the bit",
     {SET(MC, 1), SET(MD, ALL), SET(GAM, 1u << 18), SET(MAILBOX(0, 0), STANDARD_122 | MASKED)}, STANDARD_123,
     {{LINE(0, 5, 0)}, 8}},
    {"GAM frees the higher of two, and the lower is named",
     {SET(MC, 1), SET(MD, ALL), SET(GAM, 1u << 20), SET(MAILBOX(0, 0), 0x04980000 | MASKED)}, STANDARD_123,
     {{LINE(0, 4, 18)}, 8}},
    {"GAM frees the lower of two",
     {SET(MC, 1), SET(MD, ALL), SET(GAM, 1u << 18), SET(MAILBOX(0, 0), 0x04980000 | MASKED)}, STANDARD_123,
     {{LINE(0, 4, 20)}, 8}},
    {"GAM frees IDE",
     {SET(MC, 1), SET(MD, ALL), SET(GAM, BIT_31), SET(MAILBOX(0, 0), EXTENDED_123 | MASKED)}, STANDARD_123,
     {{LINE(0, 5, 0)}, 8}},
    {"GAM frees IDE, and a bit differs",
     {SET(MC, 1), SET(MD, ALL), SET(GAM, BIT_31), SET(MAILBOX(0, 0), EXTENDED_122 | MASKED)}, STANDARD_123,
     {{LINE(0, 4, 18)}, 8}},
    {"GAM frees every bit but IDE",
     {SET(MC, 1), SET(MD, ALL), SET(GAM, 0x1FFFFFFF), SET(MAILBOX(0, 0), EXTENDED_123 | MASKED)},
     STANDARD_123, {{LINE(0, 3, 0)}, 8}},
    {"GAM frees every bit but IDE, which is equal",
     {SET(MC, 1), SET(MD, ALL), SET(GAM, 0x1FFFFFFF), SET(MAILBOX(0, 0), MASKED)}, STANDARD_123,
     {{LINE(0, 5, 0)}, 8}},
    {"LAM is not for mailbox 0",
     {SET(MC, 1), SET(MD, ALL), SET(LAM, EVERY_MASK), SET(MAILBOX(0, 0), STANDARD_122 | MASKED)},
     STANDARD_123, {{LINE(0, 4, 18)}, 8}},
    {"a transmit mailbox's mask", {SET(MC, 1), SET(GAM, 1u << 18), SET(MAILBOX(0, 0), STANDARD_122 | MASKED)},
     STANDARD_123 | REMOTE, {{LINE(0, 5, 0)}, 8}},
    {"a mask lets no data frame into a transmit mailbox",
     {SET(MC, 1), SET(GAM, EVERY_MASK), SET(MAILBOX(0, 0), STANDARD_122 | MASKED)}, STANDARD_123,
     {{LINE(0, 2, 0)}, 8}},
    {"a standard frame has no low bits to compare",
     {SET(MC, 1), SET(MD, ALL), SET(GAM, BIT_31), SET(MAILBOX(0, 0), EXTENDED_123 | LOW | MASKED)},
     STANDARD_123, {{LINE(0, 5, 0)}, 8}},
    {"an extended frame has",
     {SET(MC, 1), SET(MD, ALL), SET(GAM, BIT_31), SET(MAILBOX(0, 0), STANDARD_123 | MASKED)},
     EXTENDED_123 | 0x20001, {{LINE(0, 4, 17)}, 8}},
    {"an extended frame whose low bits are 0",
     {SET(MC, 1), SET(MD, ALL), SET(GAM, BIT_31), SET(MAILBOX(0, 0), STANDARD_123 | MASKED)}, EXTENDED_123,
     {{LINE(0, 5, 0)}, 8}},
};

static int is_matched_last(const struct list *list)
{
    return list->len > 0 && list->bytes[list->len - 7] == MATCHED;
}

static void test_by_hand(void)
{
    uint8_t image[BYTES];

    for (size_t i = 0; i < COUNT(lists); i++) {
        struct list list = lists[i].front;

        if (!is_matched_last(&list))
            add_disabled(&list, 32);
        make(image, NORMAL, lists[i].edits);
        expect_lines(lists[i].what, image, frame_of(lists[i].frame), &list);
    }
}

/* The header's functions on the lines of "disabled ones have lines and do not end it". */
static void test_line_functions(void)
{
    static const struct edit edits[EDITS] = {SET(MC, 0x14), SET(MD, ALL), SET(MAILBOX(2, 0), STANDARD_122),
                                             SET(MAILBOX(4, 0), STANDARD_123)};
    struct event e = frame_of(STANDARD_123);
    uint8_t image[BYTES], list[MOST];
    uint64_t answer;

    make(image, NORMAL, edits);
    answer = frostsorrel_explain(image, BYTES, e.bytes, EVENT_BYTES, list, sizeof list);
    check(frostsorrel_answer_refusal(answer) == FROSTSORREL_ACCEPTED, "lines: refusal");
    check(frostsorrel_answer_mailbox(answer) == FROSTSORREL_NO_MAILBOX, "lines: mailbox");
    check(frostsorrel_answer_count(answer) == 5, "lines: count");
    check(frostsorrel_line_mailbox(list, 1) == 1, "line 1: mailbox");
    check(frostsorrel_line_reason(list, 1) == FROSTSORREL_DISABLED, "line 1: reason");
    check(frostsorrel_line_bit(list, 1) == 0, "line 1: bit");
    check(frostsorrel_line_mailbox(list, 2) == 2, "line 2: mailbox");
    check(frostsorrel_line_reason(list, 2) == FROSTSORREL_BIT_DIFFERS, "line 2: reason");
    check(frostsorrel_line_bit(list, 2) == 18, "line 2: bit");
    check(frostsorrel_line_mailbox(list, 4) == 4, "line 4: mailbox");
    check(frostsorrel_line_reason(list, 4) == FROSTSORREL_MATCHED, "line 4: reason");
    put(image, MODE, SUSPEND);
    answer = frostsorrel_explain(image, BYTES, e.bytes, EVENT_BYTES, list, sizeof list);
    check(frostsorrel_answer_count(answer) == 1, "not heard: count");
    check(frostsorrel_line_mailbox(list, 0) == FROSTSORREL_NO_MAILBOX, "not heard: mailbox");
    check(frostsorrel_line_reason(list, 0) == FROSTSORREL_NOT_HEARD, "not heard: reason");
    check(frostsorrel_line_bit(list, 0) == FROSTSORREL_SUSPEND, "not heard: mode");
    answer = frostsorrel_explain(image, BYTES, e.bytes, EVENT_BYTES, list, 7);
    check(frostsorrel_answer_refusal(answer) == FROSTSORREL_NO_ROOM, "no room: refusal");
    check(frostsorrel_answer_mailbox(answer) == FROSTSORREL_NO_MAILBOX, "no room: mailbox");
    check(frostsorrel_answer_count(answer) == 0, "no room: count");
}

/* ---- each mailbox alone enabled, with each reason */

static void test_each_mailbox(int n)
{
    uint8_t image[BYTES];

    put_one(image, n, STANDARD_123);
    expect_at("each mailbox, matched", image, STANDARD_123, n, MATCHED, 0);
    expect_at("each mailbox, IDE", image, EXTENDED_123, n, IDE_DIFFERS, 0);
    expect_at("each mailbox, a bit", image, STANDARD_122, n, BIT_DIFFERS, 18);
    if (n == 31)
        return;
    put(image, MD, ~(1u << n));
    expect_at("each mailbox, transmits", image, STANDARD_123, n, TRANSMITS, 0);
    expect_at("each mailbox, silent", image, STANDARD_123 | REMOTE, n, MATCHED, 0);
    expect_at("each mailbox, transmits, and IDE differs", image, EXTENDED_123, n, TRANSMITS, 0);
    expect_at("each mailbox, transmits, and a bit differs", image, STANDARD_122, n, TRANSMITS, 0);
    put(image, MAILBOX(n, 0), STANDARD_123 | RFH);
    expect_at("each mailbox, replies", image, STANDARD_123 | REMOTE, n, MATCHED, 0);
}

/* Each mailbox alone disabled: the rest, none of which matches, is told as it is. */
static void test_each_disabled(int n)
{
    uint8_t image[BYTES];
    struct list list = nothing;

    make_with(image, NORMAL, MC, ~(1u << n));
    put(image, MD, ALL);
    put(image, MAILBOX(n, 0), STANDARD_123);
    for (int k = 0; k < 32; k++)
        add_line(&list, k, k == n ? DISABLED : BIT_DIFFERS, k == n ? 0 : 26);
    expect_lines("each mailbox, disabled", image, frame_of(STANDARD_123), &list);
}

/* GAM is for 0 to 30 and LAM for 31; IDE and all compared bits differ. */
static void test_each_mask(int n)
{
    uint8_t image[BYTES];
    int own = n == 31 ? LAM : GAM, other = n == 31 ? GAM : LAM;

    put_one(image, n, EXTENDED(0x6DC, LOW) | MASKED);
    put(image, own, EVERY_MASK);
    expect_at("each mask", image, STANDARD_123, n, MATCHED, 0);
    put(image, own, 0x1FFFFFFF);
    expect_at("each mask without IDE", image, STANDARD_123, n, IDE_DIFFERS, 0);
    put(image, own, BIT_31);
    expect_at("each mask, IDE alone", image, STANDARD_123, n, BIT_DIFFERS, 28);
    put(image, own, 0x9FF80000);
    expect_at("each mask, all but bit 18", image, STANDARD_123, n, BIT_DIFFERS, 18);
    put(image, own, 0);
    put(image, other, EVERY_MASK);
    expect_at("the other mask", image, STANDARD_123, n, IDE_DIFFERS, 0);
    put(image, own, EVERY_MASK);
    put(image, MAILBOX(n, 0), EXTENDED(0x6DC, LOW));
    expect_at("each mask, not used", image, STANDARD_123, n, IDE_DIFFERS, 0);
}

/* One identifier in both; GAM frees bit 20, LAM bit 21. */
static void test_two_masks(void)
{
    static const struct edit edits[EDITS] = {SET(MC, 0xC0000000), SET(GAM, 1u << 20), SET(LAM, 1u << 21),
                                             SET(MAILBOX(30, 0), STANDARD_123 | MASKED),
                                             SET(MAILBOX(31, 0), STANDARD_123 | MASKED)};
    uint8_t image[BYTES];
    struct list list = nothing;

    make(image, NORMAL, edits);
    put(image, MD, ALL);
    expect_at("30 under GAM", image, STANDARD_123 ^ 1u << 20, 30, MATCHED, 0);
    add_disabled(&list, 30);
    add_line(&list, 30, BIT_DIFFERS, 21);
    add_line(&list, 31, MATCHED, 0);
    expect_lines("31 under LAM", image, frame_of(STANDARD_123 ^ 1u << 21), &list);
    list = nothing;
    add_disabled(&list, 30);
    add_line(&list, 30, BIT_DIFFERS, 21);
    add_line(&list, 31, BIT_DIFFERS, 20);
    expect_lines("30 and 31, each freed of another bit", image, frame_of(STANDARD_123 ^ 3u << 20), &list);
}

/* ---- each bit */

/* In mailbox 9, with what GAM frees of it. */
static void expect_bits(const char *what, uint32_t frame, uint32_t differing, uint32_t freed, int reason,
                        int bit)
{
    uint8_t image[BYTES];

    put_one(image, 9, (frame ^ differing) | (freed ? MASKED : 0));
    put(image, GAM, freed);
    expect_at(what, image, frame, 9, reason, bit);
}

/* Of two the higher is named, but for those that are freed. */
static void test_two_bits(uint32_t frame, int high, int low)
{
    uint32_t h = 1u << high, l = 1u << low;

    expect_bits("two bits", frame, h | l, 0, BIT_DIFFERS, high);
    expect_bits("two bits, the higher freed", frame, h | l, h, BIT_DIFFERS, low);
    expect_bits("two bits, the lower freed", frame, h | l, l, BIT_DIFFERS, high);
    expect_bits("two bits, both freed", frame, h | l, h | l, MATCHED, 0);
}

/* A frame whose identifier has bits lowest to 28. */
static void test_bits(uint32_t frame, int lowest)
{
    uint32_t all = FROSTSORREL_IDENTIFIER_BITS & ALL << lowest;

    for (int bit = lowest; bit <= 28; bit++) {
        uint32_t one = 1u << bit;

        expect_bits("each bit", frame, one, 0, BIT_DIFFERS, bit);
        expect_bits("each bit, freed", frame, one, one, MATCHED, 0);
        expect_bits("each bit, the others freed", frame, all, EVERY_MASK & ~one, BIT_DIFFERS, bit);
        expect_bits("all from each bit down", frame, all & (2 * one - 1), 0, BIT_DIFFERS, bit);
        for (int low = lowest; low < bit; low++)
            test_two_bits(frame, bit, low);
    }
}

/* With IDE freed, the 18 low bits are compared where the frame has them, and not where the mailbox alone has. */
static void test_low_bits(void)
{
    uint8_t image[BYTES];

    for (int bit = 0; bit < 18; bit++) {
        put_one(image, 9, EXTENDED_123 | 1u << bit | MASKED);
        put(image, GAM, BIT_31);
        expect_at("standard frame, low bit", image, STANDARD_123, 9, MATCHED, 0);
        expect_at("standard frame, low bit and bit 18", image, STANDARD_122, 9, BIT_DIFFERS, 18);
        put(image, MAILBOX(9, 0), STANDARD_123 | MASKED);
        expect_at("extended frame, low bit", image, EXTENDED_123 | 1u << bit, 9, BIT_DIFFERS, bit);
        put(image, GAM, BIT_31 | LOW);
        expect_at("extended frame, low bit freed", image, EXTENDED_123 | 1u << bit, 9, MATCHED, 0);
    }
}

/* ---- all lines, in every room */

/* Mailbox n is disabled, transmits, differs in IDE or in bit n % 11 + 18, by n % 4. */
static void put_all_kinds(uint8_t *image)
{
    make_with(image, NORMAL, MC, 0xEEEEEEEE);
    put(image, MD, 0xDDDDDDDD);
    for (int n = 0; n < 32; n++)
        put(image, MAILBOX(n, 0), n % 4 == 2 ? EXTENDED_123 : STANDARD_123 ^ 1u << (n % 11 + 18));
}

static struct list all_kinds(void)
{
    struct list list = nothing;

    for (int n = 0; n < 32; n++)
        add_line(&list, n, n % 4 + 1, n % 4 == 3 ? n % 11 + 18 : 0);
    return list;
}

static void test_all_lines(void)
{
    uint8_t image[BYTES];
    struct list list = all_kinds();

    put_all_kinds(image);
    expect_each_room("none of 32", image, frame_of(STANDARD_123), &list);
    put(image, MAILBOX(31, 0), STANDARD_123);
    list.bytes[8 * 31 + 1] = MATCHED;
    list.bytes[8 * 31 + 2] = 0;
    expect_each_room("the last of 32", image, frame_of(STANDARD_123), &list);
    put(image, MAILBOX(11, 0), STANDARD_123);
    list.bytes[8 * 11 + 1] = MATCHED;
    list.bytes[8 * 11 + 2] = 0;
    list.len = 8 * 12;
    expect_each_room("the twelfth of 32", image, frame_of(STANDARD_123), &list);
    put_one(image, 0, STANDARD_123);
    list = only_line(0, MATCHED, 0);
    expect_each_room("the first of 32", image, frame_of(STANDARD_123), &list);
}

/* ---- frames that are not heard */

/* One line, whatever the frame and the room. */
static void expect_silence(const char *what, const uint8_t *image, int mode)
{
    static const uint32_t frames[] = {STANDARD_123, STANDARD_123 | REMOTE, EXTENDED_123 | 1,
                                      EXTENDED_123 | REMOTE, 0};
    struct list list = nothing;

    add_line(&list, 32, NOT_HEARD, mode);
    expect_each_room(what, image, frame_of(STANDARD_123), &list);
    for (size_t i = 0; i < COUNT(frames); i++)
        expect_lines(what, image, frame_of(frames[i]), &list);
}

/* With no mailbox enabled, and with one that would match. */
static void test_silent_state(const char *what, const struct edit *edits, int mode)
{
    uint8_t image[BYTES];

    make(image, NORMAL, edits);
    put(image, MD, ALL);
    put(image, MAILBOX(7, 0), STANDARD_123);
    for (uint32_t options = 0; options < 4; options++) {
        put(image, OPTIONS, options);
        put(image, MC, 0);
        expect_silence(what, image, mode);
        put(image, MC, 1u << 7);
        expect_silence(what, image, mode);
    }
}

static void test_not_heard(void)
{
    static const struct {
        const char *what;
        struct edit edits[EDITS];
        int mode; /* as the line has it */
    } states_not_heard[] = {
        {"configuration", {SET(MODE, CONFIGURATION)}, 1},
        {"configuration, TEC 255", {SET(MODE, CONFIGURATION), SET(TEC, 255)}, 1},
        {"sleep", {SET(MODE, SLEEP)}, 2},
        {"suspend", {SET(MODE, SUSPEND)}, 3},
        {"suspend, REC 255", {SET(MODE, SUSPEND), SET(REC, 255)}, 3},
        {"bus off", {SET(TEC, 256)}, 4},
        {"bus off, nearly over", {SET(TEC, 256), SET(RECOVERY, 127)}, 4},
        {"bus off, configuration waits", {SET(TEC, 256), SET(WAITING, 1)}, 4},
        {"bus off, sleep waits", {SET(TEC, 256), SET(WAITING, 2)}, 4},
        {"bus off, suspend waits", {SET(TEC, 256), SET(WAITING, 3)}, 4},
    };

    for (size_t i = 0; i < COUNT(states_not_heard); i++)
        test_silent_state(states_not_heard[i].what, states_not_heard[i].edits, states_not_heard[i].mode);
}

/* What is nearly a reason not to hear it, and is none. */
static void test_heard(void)
{
    uint8_t image[BYTES];

    put_one(image, 7, STANDARD_123);
    put(image, TEC, 255);
    put(image, REC, 255);
    expect_at("TEC and REC 255", image, STANDARD_123, 7, MATCHED, 0);
    put(image, OPTIONS, FROSTSORREL_WUBA);
    expect_at("WUBA, awake", image, STANDARD_123, 7, MATCHED, 0);
    put(image, RMP, ALL);
    put(image, RML, ALL);
    put(image, GIF, 0xFF);
    expect_at("a frame that was not released", image, STANDARD_123, 7, MATCHED, 0);
}

/* ---- a filled slot is no reason to refuse, and nothing that the search looks at */

static void test_filled_slot(void)
{
    static const uint32_t waiting[] = {1, 2, 3, 4};
    uint8_t image[BYTES], event[EVENT_BYTES];
    struct list list = nothing;

    make_with(image, SENDING, MAILBOX(3, 0), STANDARD_123);
    frostsorrel_data_frame(event, STANDARD_123, 0, NULL);
    check(frostsorrel_step(image, BYTES, event, EVENT_BYTES) == REFUSED(FROSTSORREL_BUSY), "a step is busy");
    for (size_t i = 0; i < COUNT(waiting); i++) {
        put(image, WAITING, waiting[i]);
        put(image, TRR, i % 2 ? 8 : 0);
        expect_at("data frame, the slot's mailbox", image, STANDARD_123, 3, TRANSMITS, 0);
        expect_at("remote frame, the slot's mailbox", image, STANDARD_123 | REMOTE, 3, MATCHED, 0);
        expect_at("remote frame, another", image, STANDARD_122 | REMOTE, 3, BIT_DIFFERS, 18);
    }
    put(image, MC, 0x28);
    put(image, MD, 0x80000020);
    put(image, MAILBOX(5, 0), STANDARD_123);
    add_disabled(&list, 3);
    add_line(&list, 3, TRANSMITS, 0);
    add_disabled(&list, 5);
    add_line(&list, 5, MATCHED, 0);
    expect_each_room("data frame, behind the slot's mailbox", image, frame_of(STANDARD_123), &list);
}

/* ---- the frame: DLC and data say nothing about where it lands */

static void test_each_dlc(void)
{
    uint8_t image[BYTES];
    struct list list = only_line(4, MATCHED, 0);

    put_one(image, 4, STANDARD_123);
    for (int dlc = 0; dlc <= 15; dlc++) {
        uint64_t data = dlc < 8 ? ~(~UINT64_C(0) << 8 * dlc) : ~UINT64_C(0);

        expect_lines("each DLC, no data", image, data_frame(STANDARD_123, dlc, 0), &list);
        expect_lines("each DLC, data", image, data_frame(STANDARD_123, dlc, data), &list);
        expect_lines("each DLC, remote", image, remote_frame(STANDARD_123, dlc), &list);
    }
}

/* ---- the eCAN: downwards, each mailbox under its own mask, and past those that are protected */

/* Mailbox n alone is enabled, and receives with this word 0. */
static void put_one_of_ecan(uint8_t *image, int n, uint32_t word_0)
{
    make_with_of(image, ECAN, NORMAL, MC, 1u << n);
    put(image, MD, ALL);
    put(image, MAILBOX(n, 0), word_0);
}

/* Lines of disabled mailboxes from the one whose line is next, down to this one. */
static void add_disabled_down(struct list *list, int to)
{
    for (int n = 31 - (int)list->len / 8; n >= to; n--)
        add_line(list, n, DISABLED, 0);
}

/* The same as only_line, downwards: a mailbox that is protected does not end the lines either. */
static struct list only_line_down(int mailbox, int reason)
{
    struct list list = nothing;

    add_disabled_down(&list, mailbox + 1);
    add_line(&list, mailbox, reason, reason == BIT_DIFFERS ? 18 : 0);
    if (reason != MATCHED)
        add_disabled_down(&list, 0);
    return list;
}

static void expect_at_of_ecan(const char *what, const uint8_t *image, uint32_t frame, int n, int reason)
{
    struct list list = only_line_down(n, reason);

    expect_lines(what, image, frame_of(frame), &list);
}

/* With every flag that could protect it, and with each of these gone. Protected is the last reason before matched. */
static void test_each_protected(int n)
{
    uint8_t image[BYTES];
    uint32_t bit = 1u << n;

    put_one_of_ecan(image, n, STANDARD_123);
    put(image, RMP, ALL);
    put(image, PROTECTION, ALL);
    expect_at_of_ecan("protected", image, STANDARD_123, n, PROTECTED);
    expect_at_of_ecan("protected, a remote frame", image, STANDARD_123 | REMOTE, n, PROTECTED);
    expect_at_of_ecan("IDE before protected", image, EXTENDED_123, n, IDE_DIFFERS);
    expect_at_of_ecan("a bit before protected", image, STANDARD_122, n, BIT_DIFFERS);
    put(image, RMP, ~bit);
    expect_at_of_ecan("nothing is held", image, STANDARD_123, n, MATCHED);
    put(image, RMP, bit);
    put(image, PROTECTION, ~bit);
    expect_at_of_ecan("held, and not protected", image, STANDARD_123, n, MATCHED);
    put(image, PROTECTION, bit);
    expect_at_of_ecan("its own bits alone", image, STANDARD_123, n, PROTECTED);
    put(image, MD, ~bit);
    expect_at_of_ecan("transmits before protected", image, STANDARD_123, n, TRANSMITS);
    expect_at_of_ecan("what transmits is not protected", image, STANDARD_123 | REMOTE, n, MATCHED);
    put(image, MD, ALL);
    put(image, MC, 0);
    expect_at_of_ecan("disabled before protected", image, STANDARD_123, n, DISABLED);
}

/* In a CAN-B neither protection nor masks are looked at. */
static void test_each_unprotected(int n)
{
    uint8_t image[BYTES];

    put_one(image, n, STANDARD_123 | MASKED);
    put(image, RMP, ALL);
    put(image, PROTECTION, ALL);
    put(image, MASK(n), EVERY_MASK);
    expect_at("a CAN-B has no protection", image, STANDARD_123, n, MATCHED, 0);
    expect_at("a CAN-B has no masks", image, STANDARD_122, n, BIT_DIFFERS, 18);
}

/* Only the mailbox's own mask counts: not LAM, not GAM, not the other masks. */
static void test_each_own_mask(int n)
{
    uint8_t image[BYTES];

    put_one_of_ecan(image, n, STANDARD_122 | MASKED);
    put(image, LAM, EVERY_MASK);
    put(image, GAM, EVERY_MASK);
    for (int other = 0; other < 32; other++)
        put(image, MASK(other), other == n ? 0 : EVERY_MASK);
    expect_at_of_ecan("the masks of others", image, STANDARD_123, n, BIT_DIFFERS);
    put(image, MASK(n), 1u << 18);
    expect_at_of_ecan("its own mask", image, STANDARD_123, n, MATCHED);
    expect_at_of_ecan("its own mask does not free IDE", image, EXTENDED_123, n, IDE_DIFFERS);
    put(image, RMP, 1u << n);
    put(image, PROTECTION, 1u << n);
    expect_at_of_ecan("protected under its mask", image, STANDARD_123, n, PROTECTED);
    put(image, MAILBOX(n, 0), STANDARD_122);
    expect_at_of_ecan("its own mask, not used", image, STANDARD_123, n, BIT_DIFFERS);
}

/* By n % 5: disabled, transmits, IDE differs, a bit differs, protected. */
static void put_all_kinds_of_ecan(uint8_t *image)
{
    static const uint32_t words[] = {STANDARD_123, STANDARD_123, EXTENDED_123, STANDARD_122, STANDARD_123};

    make_with_of(image, ECAN, NORMAL, RMP, ALL);
    put(image, PROTECTION, ALL);
    for (int n = 0; n < 32; n++) {
        put(image, MAILBOX(n, 0), words[n % 5]);
        put(image, MC, word_of(image, MC) | (uint32_t)(n % 5 != 0) << n);
        put(image, MD, word_of(image, MD) | (uint32_t)(n % 5 != 1) << n);
    }
}

static struct list all_kinds_of_ecan(void)
{
    static const int reasons[] = {DISABLED, TRANSMITS, IDE_DIFFERS, BIT_DIFFERS, PROTECTED};
    struct list list = nothing;

    for (int n = 31; n >= 0; n--)
        add_line(&list, n, reasons[n % 5], n % 5 == 3 ? 18 : 0);
    return list;
}

/* The frame goes past all, or ends at one that is not protected: 19 is the thirteenth, 4 the twenty-eighth. */
static void test_all_lines_of_ecan(void)
{
    static const int open[] = {19, 4};
    uint8_t image[BYTES];
    struct list list = all_kinds_of_ecan();

    put_all_kinds_of_ecan(image);
    expect_each_room("an eCAN, none of 32", image, frame_of(STANDARD_123), &list);
    for (size_t i = 0; i < COUNT(open); i++) {
        put(image, PROTECTION, ~(1u << open[i]));
        list = all_kinds_of_ecan();
        list.len = 8 * (size_t)(32 - open[i]);
        list.bytes[list.len - 7] = MATCHED;
        expect_each_room("an eCAN, ends at one", image, frame_of(STANDARD_123), &list);
    }
}

/* Mailboxes 5, 4 and 3 as in the guide's 3.2.5, before each of its frames. */
static void test_overload(void)
{
    uint8_t image[BYTES];
    struct list list = nothing;

    make_with_of(image, ECAN, NORMAL, MC, 0x38);
    put(image, MD, 0x38);
    put(image, PROTECTION, 0x30);
    for (int n = 3; n <= 5; n++)
        put(image, MAILBOX(n, 0), STANDARD_123);
    add_disabled_down(&list, 6);
    for (int n = 5; n >= 3; n--) {
        add_line(&list, n, MATCHED, 0);
        expect_lines("the guide's overload", image, frame_of(STANDARD_123), &list);
        list.bytes[list.len - 7] = PROTECTED;
        put(image, RMP, word_of(image, RMP) | 1u << n);
    }
    list.bytes[list.len - 7] = MATCHED; /* 3 is not protected: it is overwritten */
    expect_lines("the guide's overload, all held", image, frame_of(STANDARD_123), &list);
    put(image, PROTECTION, 0x38);
    list.bytes[list.len - 7] = PROTECTED;
    add_disabled_down(&list, 0);
    expect_lines("the guide's overload, all protected", image, frame_of(STANDARD_123 | REMOTE), &list);
}

/* Not heard: one line, as in a CAN-B; a filled slot, mailbox 31 in it, is not looked at. */
static void test_states_of_ecan(void)
{
    uint8_t image[BYTES];

    put_all_kinds_of_ecan(image);
    put(image, MODE, SUSPEND);
    expect_silence("an eCAN in suspend", image, SUSPEND);
    put(image, MODE, SLEEP);
    expect_silence("an eCAN asleep", image, SLEEP);
    put(image, MODE, NORMAL_MODE);
    put(image, TEC, BUS_OFF_TEC);
    expect_silence("an eCAN in bus off", image, FROSTSORREL_IN_BUS_OFF);
    make_with_of(image, ECAN, NORMAL, MAILBOX(31, 0), STANDARD_123);
    put(image, MC, BIT_31);
    put(image, TRS, BIT_31);
    put(image, SLOT, 31);
    expect_at_of_ecan("data frame, mailbox 31 is sent", image, STANDARD_123, 31, TRANSMITS);
    expect_at_of_ecan("remote frame, mailbox 31 is sent", image, STANDARD_123 | REMOTE, 31, MATCHED);
}

/* ---- refusals 4, 2 and 1: of several the lowest, whatever the mode and the room */

/* An image that hears the frame, one that sends, one that does not hear it. */
static void expect_4(const char *what, struct event e)
{
    uint8_t image[BYTES];

    put_all_kinds(image);
    expect_refusal(what, of_event(image, e.bytes, EVENT_BYTES, 0), 4);
    make_with(image, SENDING, MAILBOX(3, 0), STANDARD_123);
    expect_refusal(what, of_event(image, e.bytes, EVENT_BYTES, 0), 4);
    make_with(image, ASLEEP, OPTIONS, FROSTSORREL_WUBA);
    expect_refusal(what, of_event(image, e.bytes, EVENT_BYTES, 0), 4);
}

/* A data frame with a byte behind those that it carries, and a remote frame with any. */
static void test_unused_data(void)
{
    for (int dlc = 0; dlc <= 15; dlc++)
        for (int at = 0; at < 8; at++) {
            if (at >= dlc)
                expect_4("unused data byte", with_byte(data_frame(STANDARD_123, dlc, 0), 8 + at, 1));
            expect_4("data byte of a remote frame", with_byte(remote_frame(STANDARD_123, dlc), 8 + at, 0x80));
        }
}

static void test_bad_frames(void)
{
    for (int bit = 0; bit < 8; bit++) {
        expect_4("byte 2", with_byte(frame_of(STANDARD_123), 2, 1 << bit));
        expect_4("byte 3", with_byte(frame_of(STANDARD_123), 3, 1 << bit));
    }
    for (int dlc = 16; dlc < 256; dlc++) {
        expect_4("DLC above 15", data_frame(STANDARD_123, dlc, 0));
        expect_4("DLC above 15, remote", remote_frame(EXTENDED_123, dlc));
    }
    for (int bit = 0; bit < 18; bit++) {
        expect_4("standard with a low bit", frame_of(STANDARD_123 | 1u << bit));
        expect_4("standard with a low bit, remote", frame_of(STANDARD_123 | 1u << bit | REMOTE));
    }
    expect_4("bit 29", frame_of(STANDARD_123 | 1u << 29));
    expect_4("bit 29, extended", frame_of(EXTENDED_123 | 1u << 29));
    expect_4("bit 29, remote", frame_of(EXTENDED_123 | REMOTE | 1u << 29));
    test_unused_data();
}

/* The bytes of the event are a good frame, or one for 4; asleep, where a step would say 3 for some, too. */
static void expect_2(const char *what, const uint8_t *event, size_t event_len)
{
    static const enum state each[] = {FRESH, NORMAL, SENDING, BUS_OFF, ASLEEP};
    static const struct edit none[EDITS];
    uint8_t image[BYTES];

    for (size_t i = 0; i < COUNT(each); i++) {
        make(image, each[i], none);
        expect_refusal(what, of_event(image, event, event_len, 0), 2);
    }
}

static void test_other_events(void)
{
    uint8_t event[LONGEST_EVENT] = {0};

    frostsorrel_data_frame(event, STANDARD_123, 0, NULL);
    for (size_t len = 0; len <= LONGEST_EVENT; len++)
        if (len != EVENT_BYTES)
            expect_2("a good frame of another length", event, len);
    for (int operation = 0; operation < 256; operation++) {
        if (operation == FROSTSORREL_FRAME)
            continue;
        expect_2("another operation", with_byte(plain_event(0, 0, 0, 0), 0, operation).bytes, EVENT_BYTES);
        expect_2("another operation, value", with_byte(frame_of(STANDARD_123), 0, operation).bytes, EVENT_BYTES);
        expect_2("another operation, and 4", with_byte(plain_event(0, 99, 7, ALL), 0, operation).bytes,
                 EVENT_BYTES);
    }
    event[3] = 1;
    for (size_t len = 0; len <= LONGEST_EVENT; len++)
        if (len != EVENT_BYTES)
            expect_2("a frame for 4 of another length", event, len);
}

/* With a good frame, a bad one, another operation and another length. */
static void expect_1(const char *what, const uint8_t *image, size_t image_len)
{
    struct event good = frame_of(STANDARD_123), bad = with_byte(good, 3, 1), other = with_byte(good, 0, 3);
    struct call calls[] = {of_event(image, good.bytes, EVENT_BYTES, 0), of_event(image, bad.bytes, EVENT_BYTES, 0),
                           of_event(image, other.bytes, EVENT_BYTES, 0), of_event(image, good.bytes, 15, 0),
                           of_event(image, good.bytes, 0, 0)};

    for (size_t i = 0; i < COUNT(calls); i++) {
        calls[i].first_len = image_len;
        expect_refusal(what, calls[i], 1);
    }
}

/* With a zero byte behind it, at every length but its own. */
static void test_lengths(void)
{
    uint8_t image[LONGEST_READ] = {0};

    put_all_kinds(image);
    for (size_t len = 0; len <= LONGEST_READ; len++)
        if (len != BYTES)
            expect_1("the image's length", image, len);
}

/* No explanation is empty, so a good image gets 9 where there is no room; 4 and 2 come before. */
static void judge_by_explain(const char *what, const uint8_t *image, int good)
{
    struct event e = frame_of(STANDARD_123), bad = with_byte(e, 3, 1);

    if (!good) {
        expect_1(what, image, BYTES);
        return;
    }
    expect(what, of_event(image, e.bytes, EVENT_BYTES, 0), REFUSED(9), &nothing);
    expect(what, of_event(image, e.bytes, EVENT_BYTES, 7), REFUSED(9), &nothing);
    expect(what, of_event(image, bad.bytes, EVENT_BYTES, 0), REFUSED(4), &nothing);
    expect(what, of_event(image, bad.bytes, EVENT_BYTES - 1, 0), REFUSED(2), &nothing);
}

int main(void)
{
    test_by_hand();
    test_line_functions();
    for (int n = 0; n < 32; n++) {
        test_each_mailbox(n);
        test_each_disabled(n);
        test_each_mask(n);
        test_each_protected(n);
        test_each_unprotected(n);
        test_each_own_mask(n);
    }
    test_two_masks();
    test_bits(EXTENDED(0x2AA, 0x15555), 0);
    test_bits(STANDARD(0x2AA), 18);
    test_low_bits();
    test_all_lines();
    test_not_heard();
    test_heard();
    test_filled_slot();
    test_each_dlc();
    test_all_lines_of_ecan();
    test_overload();
    test_states_of_ecan();
    test_bad_frames();
    test_other_events();
    test_lengths();
    ask_about_good_images(judge_by_explain);
    return report("host explanations");
}
