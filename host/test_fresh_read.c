/* Calls frostsorrel_fresh and frostsorrel_read as a C host does, and holds them to documents 01 and 02. */
#include "check.h"
#include "clauses.h"
#include "frostsorrel.h"
#include "image.h"

#define LONGEST (2 * BYTES) /* lengths are tried from 0 to this */
#define GSR FROSTSORREL_GSR

/* A read's answer when it is refused: the value is 0. */
#define REFUSED(refusal) ((uint64_t)(refusal) << 32)

/* ---- reads that are checked */

static void expect(const char *what, const uint8_t *image, size_t len, uint32_t number,
                   uint64_t answer)
{
    uint8_t before[LONGEST];
    uint64_t got;

    memcpy(before, image, len);
    got = frostsorrel_read(image, len, number);
    check(got == answer, "%s: register %lu gives 0x%llX, not 0x%llX", what, (unsigned long)number,
          (unsigned long long)got, (unsigned long long)answer);
    check(memcmp(before, image, len) == 0, "%s: reading register %lu changed the image", what,
          (unsigned long)number);
}

static void expect_value(const char *what, const uint8_t *image, uint32_t number, uint32_t value)
{
    expect(what, image, BYTES, number, value);
}

/* Is the image good? Number 22 is no register, so a good image gets 2 there and a bad one gets 1; GSR is the CAN-B's. */
static void expect_good(const char *what, const uint8_t *image, int good)
{
    uint64_t answer = frostsorrel_read(image, BYTES, GSR);
    uint32_t refusal = !good ? 1 : word_of(image, PROFILE) == ECAN ? 2 : 0;

    check(refusal ? answer == REFUSED(refusal) : answer >> 32 == 0, "%s: GSR gives 0x%llX, but it is %s", what,
          (unsigned long long)answer, good ? "good" : "not good");
    expect(what, image, BYTES, FROSTSORREL_PROTECTION,
           !good ? REFUSED(1) : word_of(image, MODE) == SLEEP ? 0 : word_of(image, PROTECTION));
    expect(what, image, BYTES, 22, REFUSED(good ? 2 : 1));
}

/* ---- fresh */

/* Any bytes, the same in every run. */
static void scramble(uint8_t *bytes, size_t len)
{
    static uint32_t x = 2463534242;

    for (size_t i = 0; i < len; i++) {
        x ^= x << 13;
        x ^= x >> 17;
        x ^= x << 5;
        bytes[i] = (uint8_t)(x >> 8);
    }
}

#define GUARD 17 /* odd, so that the image does not stand at an even address */

/* The length is looked at first. */
static uint32_t refusal_of_fresh(size_t len, uint32_t profile)
{
    if (len != BYTES)
        return FROSTSORREL_BAD_IMAGE;
    return profile < PROFILES ? FROSTSORREL_ACCEPTED : FROSTSORREL_NOT_ALLOWED;
}

/* Fresh over len bytes of an arena: what it answers, and that every byte it may not write stays. */
static void fresh_over(uint8_t *arena, size_t size, size_t len, uint32_t profile)
{
    uint8_t expected[2 * GUARD + LONGEST];
    uint32_t refusal = refusal_of_fresh(len, profile);
    uint64_t answer;

    memcpy(expected, arena, size);
    if (refusal == FROSTSORREL_ACCEPTED)
        put_fresh_of(expected + GUARD, profile);
    answer = frostsorrel_fresh(arena + GUARD, len, profile);
    check(answer == 8192 + refusal, "fresh of %lu bytes, profile %lu, answers %llu", (unsigned long)len,
          (unsigned long)profile, (unsigned long long)answer);
    check(memcmp(expected, arena, size) == 0, "fresh of %lu bytes, profile %lu, leaves other bytes than it should",
          (unsigned long)len, (unsigned long)profile);
}

static void test_fresh(uint32_t profile)
{
    uint8_t arena[2 * GUARD + LONGEST];

    for (size_t len = 0; len <= LONGEST; len++) {
        scramble(arena, sizeof arena);
        fresh_over(arena, sizeof arena, len, profile);
    }
    memset(arena, 0xFF, sizeof arena);
    fresh_over(arena, sizeof arena, BYTES, profile);
    fresh_over(arena, sizeof arena, BYTES, profile); /* over a fresh image */
    fresh_over(arena, sizeof arena, BYTES, CAN_B);
    fresh_over(arena, sizeof arena, BYTES, profile); /* over that of a CAN-B */
    memset(arena, 0, sizeof arena);
    fresh_over(arena, sizeof arena, BYTES, profile);
    fresh_over(arena, sizeof arena, BYTES - 1, profile);
    fresh_over(arena, sizeof arena, BYTES + 1, profile);
    fresh_over(arena, sizeof arena, 640, profile);
}

static void test_profiles(void)
{
    static const uint32_t profiles[] = {0, 1, 2, 3, 31, 32, 256, 257, 0x10000, 0x80000000, 0x80000001, 0xFFFFFFFF};

    for (size_t i = 0; i < COUNT(profiles); i++)
        test_fresh(profiles[i]);
}

static void test_answer_parts(void)
{
    uint8_t image[BYTES];
    uint64_t accepted = frostsorrel_fresh(image, BYTES, CAN_B);
    uint64_t refused = frostsorrel_fresh(image, BYTES - 1, CAN_B);
    uint64_t other_profile = frostsorrel_fresh(image, BYTES, PROFILES);
    uint64_t bad_number = frostsorrel_read(image, BYTES, 22);

    check(frostsorrel_answer_refusal(accepted) == FROSTSORREL_ACCEPTED, "accepted: refusal");
    check(frostsorrel_answer_mailbox(accepted) == FROSTSORREL_NO_MAILBOX, "accepted: mailbox");
    check(frostsorrel_answer_count(accepted) == 0, "accepted: count");
    check(frostsorrel_answer_refusal(refused) == FROSTSORREL_BAD_IMAGE, "refused: refusal");
    check(frostsorrel_answer_mailbox(refused) == FROSTSORREL_NO_MAILBOX, "refused: mailbox");
    check(frostsorrel_answer_count(refused) == 0, "refused: count");
    check(frostsorrel_answer_refusal(other_profile) == FROSTSORREL_NOT_ALLOWED, "profile 2: refusal");
    check(frostsorrel_answer_mailbox(other_profile) == FROSTSORREL_NO_MAILBOX, "profile 2: mailbox");
    check(frostsorrel_read_refusal(bad_number) == FROSTSORREL_UNKNOWN, "read: refusal");
    check(frostsorrel_read_value(bad_number) == 0, "read: value of a refusal");
}

/* ---- every register */

static void test_fresh_registers(void)
{
    uint8_t image[BYTES];

    frostsorrel_fresh(image, BYTES, CAN_B);
    for (uint32_t number = 0; number <= 21; number++)
        expect_value("fresh", image, number, number == FROSTSORREL_MD ? 0x80000000 : 0);
    for (uint32_t number = 64; number <= 96; number++)
        expect_value("fresh", image, number, 0);
    expect_value("fresh", image, GSR, 0x1F080);
    frostsorrel_fresh(image, BYTES, ECAN);
    for (uint32_t number = 0; number <= 21; number++)
        expect_value("fresh eCAN", image, number, 0);
    for (uint32_t number = 64; number <= 96; number++)
        expect_value("fresh eCAN", image, number, 0);
    expect("fresh eCAN", image, BYTES, GSR, REFUSED(2));
}

/* A good image in which no two register words that can be read are equal. Mailbox 9 is in the slot. */
static const uint32_t distinct[] = {
    0xF1234667, /* MC, with mailbox 9 */
    0x8A5A00F0, /* MD */
    0x11050203, /* TRS, with mailbox 9, apart from MD */
    0x00000200, /* TRR, mailbox 9 */
    0x7A0000A1, /* TA */
    0x0B1C2D3E, /* AA */
    0xC3D2E1F0, /* RMP */
    0x81C2A150, /* RML, within RMP */
    0x9E8D7C6B, /* LAM */
    0x1A2B3C4D, /* GAM */
    0x42104060, /* RFP, within RMP */
    0x55667788, /* CDR */
    0x66778899, /* MBTIF */
    0xDEADBEEF, /* MBRIF */
    0x99AABBCC, /* MBIM */
    0xA5,       /* GIF */
    0x5A,       /* GIM */
    0x2B7,      /* BCR1 */
    0x315,      /* BCR2 */
    0xBEAD,     /* TSC */
    200,        /* TEC */
    99,         /* REC */
    0,          /* mode: normal */
    2,          /* waiting mode: sleep */
    9,          /* slot */
    0,          /* recovery count */
    3,          /* options */
    1,          /* TSO */
};

static uint32_t distinct_mask(int n)
{
    return 0x80070001 + (uint32_t)n * 0x101;
}

static void put_distinct(uint8_t *image, uint32_t profile)
{
    put_fresh_of(image, profile);
    for (int n = 0; n < 32; n++) {
        put(image, MAILBOX(n, 0), 0xE1000000 + (uint32_t)n * 0x10101);
        put(image, MAILBOX(n, 1), (uint32_t)n << 24 | 0x11550018);
        put(image, MAILBOX(n, 2), 0x30000001 + (uint32_t)n);
        put(image, MAILBOX(n, 3), 0x40000001 + (uint32_t)n);
        put(image, MASK(n), distinct_mask(n));
    }
    put(image, PROTECTION, 0xC0FFEE11);
    for (size_t k = 0; k < COUNT(distinct); k++)
        put(image, MC + (int)k, distinct[k]);
}

/* GSR reads this in a CAN-B, and is refused in an eCAN. */
static uint64_t gsr_answer(uint32_t profile, uint32_t value)
{
    return profile == ECAN ? REFUSED(2) : value;
}

static void test_distinct_registers(uint32_t profile)
{
    uint8_t image[BYTES];

    put_distinct(image, profile);
    for (uint32_t number = 0; number <= 21; number++)
        expect_value("distinct", image, number, distinct[number]);
    for (uint32_t n = 0; n < 32; n++)
        expect_value("distinct", image, FROSTSORREL_MASK_0 + n, distinct_mask((int)n));
    expect_value("distinct", image, FROSTSORREL_PROTECTION, 0xC0FFEE11);
    expect("distinct", image, BYTES, GSR, gsr_answer(profile, 0x940B));
}

static const struct edit to_sleep[EDITS] = {
    SET(MODE, SLEEP), SET(WAITING, 4), SET(SLOT, 32), SET(TRS, 0), SET(TRR, 0),
};
static const struct edit counters_to_0[EDITS] = {SET(TEC, 0), SET(REC, 0)};

/* The same image put to sleep: TSO is set and shows nowhere. */
static void put_distinct_asleep(uint8_t *image, uint32_t profile)
{
    put_distinct(image, profile);
    change(image, to_sleep);
    change(image, counters_to_0);
}

static void test_asleep(uint32_t profile)
{
    uint8_t image[BYTES];

    put_distinct_asleep(image, profile);
    for (uint32_t number = 0; number <= 21; number++)
        expect_value("asleep", image, number, 0);
    for (uint32_t number = 64; number <= 96; number++)
        expect_value("asleep", image, number, 0);
    expect("asleep", image, BYTES, GSR, gsr_answer(profile, 0x0001F040));
    make_with_of(image, profile, ASLEEP, TSO, 0);
    expect("asleep without TSO", image, BYTES, GSR, gsr_answer(profile, 0x0001F040));
}

/* ---- GSR */

static const struct gsr {
    const char *what;
    enum state state;
    struct edit edits[EDITS];
    uint32_t value;
} gsr_values[] = {
    {"fresh", FRESH, {{0, 0, 0}}, 0x1F080},
    {"normal and quiet", NORMAL, {{0, 0, 0}}, 0x1F000},
    {"suspended", FRESH, {SET(MODE, SUSPEND)}, 0x1F100},
    {"sending", SENDING, {{0, 0, 0}}, 0x03400},
    {"sending, to be cancelled", SENDING, {SET(TRR, 8)}, 0x03400},
    {"sending, a mode waits", SENDING, {SET(WAITING, 3)}, 0x03400},
    {"sending, all flags", SENDING, {SET(TSO, 1), SET(TEC, 255)}, 0x0340B},
    {"TSO", NORMAL, {SET(TSO, 1)}, 0x1F008},
    {"TSO in configuration", FRESH, {SET(TSO, 1)}, 0x1F088},
    {"TSO in suspend", FRESH, {SET(MODE, SUSPEND), SET(TSO, 1)}, 0x1F108},
    {"bus off", BUS_OFF, {{0, 0, 0}}, 0x1F007},
    {"bus off, recovering", BUS_OFF, {SET(RECOVERY, 127)}, 0x1F007},
    {"bus off, a mode waits", BUS_OFF, {SET(WAITING, 2)}, 0x1F007},
    {"TEC 96", NORMAL, {SET(TEC, 96)}, 0x1F000},
    {"TEC 97", NORMAL, {SET(TEC, 97)}, 0x1F001},
    {"TEC 127", NORMAL, {SET(TEC, 127)}, 0x1F001},
    {"TEC 128", NORMAL, {SET(TEC, 128)}, 0x1F003},
    {"TEC 255", NORMAL, {SET(TEC, 255)}, 0x1F003},
    {"REC 96", NORMAL, {SET(REC, 96)}, 0x1F000},
    {"REC 97", NORMAL, {SET(REC, 97)}, 0x1F001},
    {"REC 127", NORMAL, {SET(REC, 127)}, 0x1F001},
    {"REC 128", NORMAL, {SET(REC, 128)}, 0x1F003},
    {"REC 255", NORMAL, {SET(REC, 255)}, 0x1F003},
    {"TEC and REC 96", NORMAL, {SET(TEC, 96), SET(REC, 96)}, 0x1F000},
    {"TEC and REC 127", NORMAL, {SET(TEC, 127), SET(REC, 127)}, 0x1F001},
    {"TEC 128 in suspend", FRESH, {SET(MODE, SUSPEND), SET(TEC, 128)}, 0x1F103},
    {"REC 97 in configuration", FRESH, {SET(REC, 97)}, 0x1F081},
    /* words that GSR does not show */
    {"GIF, options, TSC", NORMAL, {SET(GIF, 255), SET(OPTIONS, 3), SET(TSC, 65535)}, 0x1F000},
};

static void test_gsr(void)
{
    uint8_t image[BYTES];

    for (size_t i = 0; i < COUNT(gsr_values); i++) {
        make(image, gsr_values[i].state, gsr_values[i].edits);
        expect_value(gsr_values[i].what, image, GSR, gsr_values[i].value);
    }
    for (uint32_t n = 0; n <= 30; n++) {
        const struct edit slot[EDITS] = {SET(SLOT, n), SET(TRS, 1u << n), SET(MC, 1u << n)};

        make(image, NORMAL, slot);
        expect_value("each slot", image, GSR, n << 12 | 0x400);
    }
}

/* ---- refusals of a read */

static const uint32_t far_numbers[] = {
    97, 98, 128, 160, 193, 255, 256, 256 + 32, 256 + 64, 65536, 65536 + 21, 65536 + 96, 0x7FFFFFFF, 0x80000000,
    0x80000020, 0x80000040, 0xFFFFFFFF,
};

static void test_numbers(const char *what, const uint8_t *image, uint64_t answer)
{
    for (uint32_t number = 22; number <= 63; number++)
        if (number != GSR)
            expect(what, image, BYTES, number, answer);
    for (size_t i = 0; i < COUNT(far_numbers); i++)
        expect(what, image, BYTES, far_numbers[i], answer);
}

static void test_read_refusals(uint32_t profile)
{
    uint8_t image[BYTES];

    put_fresh_of(image, profile);
    test_numbers("no such register", image, REFUSED(2));
    put_distinct(image, profile);
    test_numbers("no such register, distinct", image, REFUSED(2));
    put_distinct_asleep(image, profile);
    test_numbers("no such register, asleep", image, REFUSED(2));

    put(image, TSO, 2);
    test_numbers("bad image, asleep", image, REFUSED(1));
    make_with_of(image, profile, FRESH, SPARE, 1);
    test_numbers("bad image", image, REFUSED(1));
    for (uint32_t number = 0; number <= 21; number++)
        expect("bad image", image, BYTES, number, REFUSED(1));
    for (uint32_t number = 64; number <= 96; number++)
        expect("bad image", image, BYTES, number, REFUSED(1));
    expect("bad image", image, BYTES, GSR, REFUSED(1));
}

/* A fresh image with zero bytes behind it, read at every length. */
static void test_read_lengths(uint32_t profile)
{
    uint8_t image[LONGEST];

    memset(image, 0, sizeof image);
    put_fresh_of(image, profile);
    for (size_t len = 0; len <= LONGEST; len++) {
        expect("length", image, len, GSR, len == BYTES ? gsr_answer(profile, 0x1F080) : REFUSED(1));
        expect("length", image, len, FROSTSORREL_PROTECTION, len == BYTES ? 0 : REFUSED(1));
        expect("length", image, len, 22, len == BYTES ? REFUSED(2) : REFUSED(1));
    }
}

int main(void)
{
    test_profiles();
    test_answer_parts();
    test_fresh_registers();
    test_gsr();
    for (uint32_t profile = CAN_B; profile <= ECAN; profile++) {
        test_distinct_registers(profile);
        test_asleep(profile);
        test_read_refusals(profile);
        test_read_lengths(profile);
    }
    ask_about_good_images(expect_good);
    return report("host fresh/read");
}
