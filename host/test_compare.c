/* Calls frostsorrel_compare as a C host does, and holds it to requests a) and g) of document 02. */
#include "check.h"
#include "clauses.h"
#include "frostsorrel.h"
#include "image.h"
#include "lists.h"

#define ENTRY FROSTSORREL_ENTRY_BYTES
#define MOST FROSTSORREL_DIFFERENCE_BYTES

/* ---- calls that are checked */

static struct call of_images(const uint8_t *first, const uint8_t *second, size_t list_len)
{
    struct call c = {first, second, BYTES, BYTES, list_len};

    return c;
}

/* The whole outcome; the images stay. */
static void expect(const char *what, struct call c, uint64_t answer, const struct list *list)
{
    expect_call(what, frostsorrel_compare, c, answer, list);
}

static void expect_refusal(const char *what, struct call c, uint32_t refusal)
{
    expect(what, c, REFUSED(refusal), &nothing);
}

static void expect_rooms(const char *what, const uint8_t *first, const uint8_t *second,
                         const struct list *list)
{
    expect_rooms_of(what, frostsorrel_compare, of_images(first, second, 0), list, ENTRY);
    expect(what, of_images(first, second, MOST), ACCEPTED(list->len / ENTRY), list);
}

/* By the words of the request, for pairs that nobody wants to write out. */
static struct list list_of(const uint8_t *first, const uint8_t *second)
{
    struct list list = nothing;

    for (int word = 0; word < WORDS; word++) {
        if (word_of(first, word) == word_of(second, word))
            continue;
        put(list.bytes + list.len, 0, (uint32_t)word);
        put(list.bytes + list.len, 1, word_of(first, word));
        put(list.bytes + list.len, 2, word_of(second, word));
        list.len += ENTRY;
    }
    return list;
}

static void expect_list_of(const char *what, const uint8_t *first, const uint8_t *second)
{
    struct list list = list_of(first, second);

    expect(what, of_images(first, second, list.len), ACCEPTED(list.len / ENTRY), &list);
}

/* ---- lists written by hand */

static const struct by_hand {
    const char *what;
    struct edit first[EDITS], second[EDITS]; /* of an image in normal mode */
    struct list list;
} lists[] = {
    {"the first word", {SET(MAILBOX(0, 0), 0)}, {SET(MAILBOX(0, 0), 0x91234567)},
     {{0, 0, 0, 0, 0, 0, 0, 0, 0x67, 0x45, 0x23, 0x91}, 12}},
    {"the last word that a register has", {SET(TSO, 1)}, {SET(TSO, 0)},
     {{155, 0, 0, 0, 1, 0, 0, 0, 0, 0, 0, 0}, 12}},
    {"the first mask", {SET(MASK(0), 0x9FFFFFFF)}, {SET(MASK(0), 0x80000001)},
     {{160, 0, 0, 0, 0xFF, 0xFF, 0xFF, 0x9F, 1, 0, 0, 0x80}, 12}},
    {"the last mask", {{0, 0, 0}}, {SET(MASK(31), 0x00000200)},
     {{191, 0, 0, 0, 0, 0, 0, 0, 0, 2, 0, 0}, 12}},
    {"the protection", {SET(PROTECTION, 0xF0000030)}, {SET(PROTECTION, 0x00000030)},
     {{192, 0, 0, 0, 0x30, 0, 0, 0xF0, 0x30, 0, 0, 0}, 12}},
    {"the profile, which is the last word", {{0, 0, 0}}, {SET(PROFILE, ECAN)},
     {{193, 0, 0, 0, 0, 0, 0, 0, 1, 0, 0, 0}, 12}},
    {"protection and profile, back", {SET(PROTECTION, 7), SET(PROFILE, ECAN)}, {{0, 0, 0}},
     {{192, 0, 0, 0, 7, 0, 0, 0, 0, 0, 0, 0, 193, 0, 0, 0, 1, 0, 0, 0, 0, 0, 0, 0}, 24}},
    {"a fresh eCAN's MD too", {{0, 0, 0}}, {SET(PROFILE, ECAN), SET(MD, 0)},
     {{129, 0, 0, 0, 0, 0, 0, 0x80, 0, 0, 0, 0, 193, 0, 0, 0, 0, 0, 0, 0, 1, 0, 0, 0}, 24}},
    {"the last word of the mailboxes", {SET(MAILBOX(31, 3), 1)}, {SET(MAILBOX(31, 3), 0xFF000001)},
     {{127, 0, 0, 0, 1, 0, 0, 0, 1, 0, 0, 0xFF}, 12}},
    {"the first of the registers", {SET(MC, 0x04030201)}, {SET(MC, 0x84030201)},
     {{128, 0, 0, 0, 1, 2, 3, 4, 1, 2, 3, 0x84}, 12}},
    {"two words", {SET(MAILBOX(5, 2), 0x04030201)}, {SET(MAILBOX(5, 2), 0xF4332211), SET(TSO, 1)},
     {{22, 0, 0, 0, 0x01, 0x02, 0x03, 0x04, 0x11, 0x22, 0x33, 0xF4,
       155, 0, 0, 0, 0, 0, 0, 0, 1, 0, 0, 0}, 24}},
    {"two words, back", {SET(MAILBOX(5, 2), 0xF4332211), SET(TSO, 1)}, {SET(MAILBOX(5, 2), 0x04030201)},
     {{22, 0, 0, 0, 0x11, 0x22, 0x33, 0xF4, 0x01, 0x02, 0x03, 0x04,
       155, 0, 0, 0, 1, 0, 0, 0, 0, 0, 0, 0}, 24}},
    {"a DLC above 8, and 8", {SET(MAILBOX(5, 1), 15)}, {SET(MAILBOX(5, 1), 8)},
     {{21, 0, 0, 0, 15, 0, 0, 0, 8, 0, 0, 0}, 12}},
    {"two neighbours, exchanged", {SET(MAILBOX(9, 2), 7), SET(MAILBOX(9, 3), 8)},
     {SET(MAILBOX(9, 2), 8), SET(MAILBOX(9, 3), 7)},
     {{38, 0, 0, 0, 7, 0, 0, 0, 8, 0, 0, 0, 39, 0, 0, 0, 8, 0, 0, 0, 7, 0, 0, 0}, 24}},
};

static void test_by_hand(void)
{
    uint8_t first[BYTES], second[BYTES];

    for (size_t i = 0; i < COUNT(lists); i++) {
        make(first, NORMAL, lists[i].first);
        make(second, NORMAL, lists[i].second);
        expect_rooms(lists[i].what, first, second, &lists[i].list);
    }
}

/* The header's functions on the list of "two words". */
static void test_entry_functions(void)
{
    static const struct edit before[EDITS] = {SET(MAILBOX(5, 2), 0x04030201)};
    static const struct edit after[EDITS] = {SET(MAILBOX(5, 2), 0xF4332211), SET(TSO, 1)};
    uint8_t first[BYTES], second[BYTES], list[24];
    uint64_t answer;

    make(first, NORMAL, before);
    make(second, NORMAL, after);
    answer = frostsorrel_compare(first, BYTES, second, BYTES, list, sizeof list);
    check(frostsorrel_answer_refusal(answer) == FROSTSORREL_ACCEPTED, "entries: refusal");
    check(frostsorrel_answer_mailbox(answer) == FROSTSORREL_NO_MAILBOX, "entries: mailbox");
    check(frostsorrel_answer_count(answer) == 2, "entries: count");
    check(frostsorrel_entry_number(list, 0) == MAILBOX(5, 2), "entry 0: number");
    check(frostsorrel_entry_first(list, 0) == 0x04030201, "entry 0: first content");
    check(frostsorrel_entry_second(list, 0) == 0xF4332211, "entry 0: second content");
    check(frostsorrel_entry_number(list, 1) == TSO, "entry 1: number");
    check(frostsorrel_entry_first(list, 1) == 0, "entry 1: first content");
    check(frostsorrel_entry_second(list, 1) == 1, "entry 1: second content");
    answer = frostsorrel_compare(first, BYTES, second, BYTES, list, sizeof list - 1);
    check(frostsorrel_answer_refusal(answer) == FROSTSORREL_NO_ROOM, "no room: refusal");
    check(frostsorrel_answer_mailbox(answer) == FROSTSORREL_NO_MAILBOX, "no room: mailbox");
    check(frostsorrel_answer_count(answer) == 0, "no room: count");
}

/* A frame that nobody had released is overwritten: word 2 of mailbox 5, RML and GIF differ. */
static const struct list lost_frame = {
    {22, 0, 0, 0, 0x03, 0x7F, 0x11, 0x22, 0x02, 0x51, 0x11, 0x22,
     135, 0, 0, 0, 0, 0, 0, 0, 0x20, 0, 0, 0,
     143, 0, 0, 0, 0, 0, 0, 0, 0x20, 0, 0, 0},
    36,
};

static void test_lost_frame(void)
{
    static const uint8_t later[] = {0x02, 0x51, 0x11};
    static const struct edit held[EDITS] = {SET(MC, 1u << 5), SET(MD, 0x80000020), SET(RMP, 1u << 5),
                                            SET(MAILBOX(5, 1), 3), SET(MAILBOX(5, 2), 0x22117F03)};
    uint8_t first[BYTES], second[BYTES], event[FROSTSORREL_EVENT_BYTES];

    make(first, NORMAL, held);
    memcpy(second, first, BYTES);
    frostsorrel_step(second, BYTES, frostsorrel_data_frame(event, 0, sizeof later, later), sizeof event);
    expect_rooms("a lost frame", first, second, &lost_frame);
}

/* ---- nothing differs */

static void test_equal(void)
{
    static const struct edit none[EDITS];
    uint8_t first[BYTES], second[BYTES];

    for (int state = FRESH; state <= ASLEEP; state++) {
        make(first, (enum state)state, none);
        make(second, (enum state)state, none);
        expect("equal images", of_images(first, second, 0), ACCEPTED(0), &nothing);
        expect("equal images", of_images(first, second, MOST), ACCEPTED(0), &nothing);
        expect("one image twice", of_images(first, first, 0), ACCEPTED(0), &nothing);
        expect("one image twice", of_images(first, first, MOST), ACCEPTED(0), &nothing);
    }
}

/* ---- one word differs */

static int is_good(const uint8_t *image)
{
    return frostsorrel_read_refusal(frostsorrel_read(image, BYTES, FROSTSORREL_MC)) == 0;
}

/* Each word may change alone in one of these: with the flags, also those that others have to allow. */
static void put_base(uint8_t *image, uint32_t profile, int base)
{
    static const enum state bases[] = {FRESH, SENDING, BUS_OFF};
    static const struct edit flags[EDITS] = {SET(MC, 0xFFFFFFFF), SET(TRS, 0x7FFFFFFF), SET(RMP, 0xFFFFFFFF),
                                             SET(WAITING, 2)};
    static const struct edit none[EDITS];

    make_of(image, profile, bases[base], bases[base] == SENDING ? flags : none);
}

/* Every bit of a word that may differ alone from this image; answers how many. */
static int expect_word(const uint8_t *image, int word)
{
    uint8_t second[BYTES];
    int tried = 0;

    for (int bit = 0; bit < 32; bit++) {
        memcpy(second, image, BYTES);
        put(second, word, word_of(image, word) ^ 1u << bit);
        if (!is_good(second))
            continue;
        expect_list_of(word_name(word), image, second);
        tried++;
    }
    return tried;
}

/* Each word can differ alone, but for the four behind TSO, which are 0 in every good image. */
static void test_each_word(uint32_t profile)
{
    uint8_t image[BYTES];

    for (int word = 0; word < WORDS; word++) {
        int tried = 0, is_spare = word >= SPARE && word < MASKS, turns_bad = word == PROFILE && profile == ECAN;

        for (int base = 0; base < 3; base++) {
            put_base(image, profile, base);
            tried += expect_word(image, word);
        }
        check((tried > 0) == !(is_spare || turns_bad), "%s alone: %d pairs", word_name(word), tried); /* MD bit 31 is 0 */
    }
}

/* ---- as many words differ as can */

/*
 * Three good images: of a CAN-B with a mailbox in the slot, and of eCANs in configuration and in bus off. At most
 * 189 words can differ: the four behind TSO are 0; and where TRR and the recovery count differ, one image has a
 * mailbox in the slot and the other is in bus off, so that both are in normal mode.
 */
enum { SLOT_FILLED, CONFIGURED, OFF };
#define MOST_WORDS (WORDS - 4 - 1)

static const uint32_t registers[][3] = {
    {0xF1234667, 0x0EDCB998, 0x00000000}, /* MC, with mailbox 9 where that is in the slot */
    {0x8A5A00F0, 0x80000001, 0xFFFFFF00}, /* MD */
    {0x11050203, 0x7FFFFFFE, 0x00000001}, /* TRS, with mailbox 9, apart from MD */
    {0x00000200, 0, 0},                   /* TRR, mailbox 9 */
    {0x7A0000A1, 0x00000001, 0x00000000}, /* TA */
    {0x0B1C2D3E, 0x00000000, 0x7FFFFFFF}, /* AA */
    {0xC3D2E1F0, 0xFFFFFFFF, 0x0000FF00}, /* RMP */
    {0x81C2A150, 0x80000000, 0x0000FF00}, /* RML, within RMP */
    {0x9E8D7C6B, 0x1FFFFFFF, 0x80000000}, /* LAM */
    {0x1A2B3C4D, 0x80000000, 0x00000000}, /* GAM */
    {0x42104060, 0xFFFFFFFF, 0x00008000}, /* RFP, within RMP */
    {0x55667788, 0x00000000, 0x7FFFFFFF}, /* CDR */
    {0x66778899, 0x00000001, 0x00000000}, /* MBTIF */
    {0xDEADBEEF, 0xFFFFFFFF, 0x00000000}, /* MBRIF */
    {0x99AABBCC, 0x00000000, 0xFFFFFFFF}, /* MBIM */
    {0xA5, 0xFF, 0x07},                   /* GIF */
    {0x5A, 0x00, 0xFF},                   /* GIM */
    {0x2B7, 0x3FF, 0x000},                /* BCR1 */
    {0x315, 0x000, 0x025},                /* BCR2 */
    {0xBEAD, 0xFFFF, 0x0000},             /* TSC */
    {200, 255, 256},                      /* TEC */
    {99, 0, 255},                         /* REC */
    {0, 1, 0},                            /* mode */
    {2, 4, 3},                            /* waiting mode: sleep, none, suspend */
    {9, 32, 32},                          /* slot */
    {0, 0, 127},                          /* recovery count */
    {3, 0, 1},                            /* options */
    {1, 0, 0},                            /* TSO */
};

static void put_image(uint8_t *image, int which)
{
    uint32_t k = (uint32_t)which;

    put_fresh(image);
    for (int n = 0; n < 32; n++) {
        put(image, MAILBOX(n, 0), EXTENDED(n, 0x10101 * k));
        put(image, MAILBOX(n, 1), CONTROL(0xFF00 - 256 * k + (uint32_t)n, 0, 8 - k));
        put(image, MAILBOX(n, 2), k << 24 | (uint32_t)n);
        put(image, MAILBOX(n, 3), 0xFFFFFFFF - k);
    }
    for (size_t i = 0; i < COUNT(registers); i++)
        put(image, MC + (int)i, registers[i][which]);
    for (int n = 0; n < 32; n++)
        put(image, MASK(n), 0x80000000 | k << 8 | (uint32_t)n);
    put(image, PROTECTION, 0xFFFFFFFF - k);
    put(image, PROFILE, which == SLOT_FILLED ? CAN_B : ECAN);
}

/* Which word stands in this entry, where all but those behind TSO and this one differ. */
static uint32_t word_of_entry(int entry, int equal)
{
    int word = entry < equal ? entry : entry + 1;

    return (uint32_t)(word < SPARE ? word : word + 4);
}

/* All words of two of these but those behind TSO and this one. */
static void expect_all_but(const char *what, int one, int other, int equal)
{
    uint8_t first[BYTES], second[BYTES];
    struct list list;

    put_image(first, one);
    put_image(second, other);
    list = list_of(first, second);
    check(list.len == MOST_WORDS * ENTRY, "%s: the list has %lu bytes", what, (unsigned long)list.len);
    for (int i = 0; i < MOST_WORDS; i++)
        check(word_of(list.bytes, 3 * i) == word_of_entry(i, equal), "%s: entry %d", what, i);
    for (size_t len = 0; len <= LONGEST_LIST; len++) {
        if (len < list.len)
            expect_refusal(what, of_images(first, second, len), 9);
        else
            expect(what, of_images(first, second, len), ACCEPTED(MOST_WORDS), &list);
    }
}

static void test_most_words(void)
{
    expect_all_but("all but the recovery count", SLOT_FILLED, CONFIGURED, RECOVERY);
    expect_all_but("all but the recovery count, back", CONFIGURED, SLOT_FILLED, RECOVERY);
    expect_all_but("all but the mode", SLOT_FILLED, OFF, MODE);
    expect_all_but("all but the mode, back", OFF, SLOT_FILLED, MODE);
}

/* ---- refusal 1, also where the list would not fit */

static void expect_bad(const char *what, const uint8_t *first, size_t first_len, const uint8_t *second,
                       size_t second_len)
{
    struct call c = {first, second, first_len, second_len, 0};

    expect_refusal(what, c, 1);
    c.list_len = LONGEST_LIST;
    expect_refusal(what, c, 1);
}

static void test_bad_images(void)
{
    uint8_t good[BYTES], other[BYTES], bad[BYTES];

    put_image(good, SLOT_FILLED);
    put_image(other, CONFIGURED);
    put_image(bad, CONFIGURED);
    put(bad, PROFILE, PROFILES);
    expect_refusal("two good images, no room", of_images(good, other, 0), 9);
    expect_bad("the first image is bad", bad, BYTES, good, BYTES);
    expect_bad("the second image is bad", good, BYTES, bad, BYTES);
    expect_bad("only the last word differs", other, BYTES, bad, BYTES);
    put(other, SPARE, 1);
    expect_bad("both images are bad", other, BYTES, bad, BYTES);
    expect_bad("one bad image twice", bad, BYTES, bad, BYTES);
}

/* Two fresh images with a zero byte behind them, at every length but that of an image. */
static void test_lengths(void)
{
    uint8_t first[LONGEST_READ] = {0}, second[LONGEST_READ] = {0};

    put_fresh(first);
    put_fresh(second);
    for (size_t len = 0; len <= LONGEST_READ; len++) {
        if (len == BYTES)
            continue;
        expect_bad("the first length", first, len, second, BYTES);
        expect_bad("the second length", first, BYTES, second, len);
        expect_bad("both lengths", first, len, second, len);
    }
    expect_bad("lengths that make up for each other", first, BYTES - 1, second, BYTES + 1);
    expect_bad("lengths that make up for each other", first, BYTES + 1, second, BYTES - 1);
}

/* An image beside the fresh one, on either side. */
static void judge_by_compare(const char *what, const uint8_t *image, int good)
{
    uint8_t fresh[BYTES];

    put_fresh(fresh);
    if (good) {
        expect_list_of(what, image, fresh);
        expect_list_of(what, fresh, image);
    } else {
        expect_bad(what, image, BYTES, fresh, BYTES);
        expect_bad(what, fresh, BYTES, image, BYTES);
    }
}

int main(void)
{
    test_by_hand();
    test_entry_functions();
    test_lost_frame();
    test_equal();
    test_each_word(CAN_B);
    test_each_word(ECAN);
    test_most_words();
    test_bad_images();
    test_lengths();
    ask_about_good_images(judge_by_compare);
    return report("host differences");
}
