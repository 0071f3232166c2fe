/* The refusals of a step: section "The events" of document 01. */
#include "clauses.h"
#include "scenario.h"
#include "step.h"

/* ---- lengths, refusal 1, and the order of refusals */

static void step_of_lengths(uint8_t *bytes, size_t image_len, size_t event_len, unsigned refusal)
{
    uint8_t before[BYTES + 1], event[EVENT_BYTES + 1] = {FROSTSORREL_OPTIONS};
    uint64_t answer;

    memcpy(before, bytes, sizeof before);
    answer = frostsorrel_step(bytes, image_len, event, event_len);
    check(answer == 8192 + refusal, "image of %lu bytes, event of %lu: answer %llu",
          (unsigned long)image_len, (unsigned long)event_len, (unsigned long long)answer);
    check(memcmp(before, bytes, sizeof before) == 0, "image of %lu bytes, event of %lu: bytes moved",
          (unsigned long)image_len, (unsigned long)event_len);
}

/* Setting the options to what they are changes nothing, so the bytes stay in every case. */
static void lengths(void)
{
    uint8_t bytes[BYTES + 1] = {0};

    put_fresh(bytes);
    for (size_t len = 0; len <= BYTES + 1; len++)
        step_of_lengths(bytes, len, EVENT_BYTES, len == BYTES ? 0 : 1);
    for (size_t len = 0; len <= EVENT_BYTES + 1; len++)
        step_of_lengths(bytes, BYTES, len, len == EVENT_BYTES ? 0 : 2);
    step_of_lengths(bytes, 0, 0, 1);
    step_of_lengths(bytes, BYTES - 1, EVENT_BYTES - 1, 1);
    step_of_lengths(bytes, BYTES + 1, EVENT_BYTES + 1, 1);
    put(bytes, TSO, 2);
    step_of_lengths(bytes, BYTES, EVENT_BYTES, 1);
    step_of_lengths(bytes, BYTES, EVENT_BYTES - 1, 1);
    step_of_lengths(bytes, BYTES, 0, 1);
}

/* A tick is accepted in every good image, and no event is in one that is not good. */
static void judge_by_step(const char *what, const uint8_t *given_image, int good)
{
    uint8_t bytes[BYTES];
    struct event ticked = tick(), unknown = plain_event(11, 0, 0, 0);
    uint64_t answer;

    memcpy(bytes, given_image, BYTES);
    answer = frostsorrel_step(bytes, BYTES, unknown.bytes, EVENT_BYTES);
    check(answer == (good ? 8194 : 8193), "%s: an unknown operation gets %llu", what,
          (unsigned long long)answer);
    check(memcmp(bytes, given_image, BYTES) == 0, "%s: an unknown operation moved bytes", what);
    answer = frostsorrel_step(bytes, BYTES, ticked.bytes, EVENT_BYTES);
    check(answer == (good ? 8192 : 8193), "%s: a tick gets %llu", what, (unsigned long long)answer);
    check(good || memcmp(bytes, given_image, BYTES) == 0, "%s: a refused tick moved bytes", what);
}

static void refusal_1_comes_first(void)
{
    begin("a bad image", NORMAL);
    given({SPARE, 1});
    for (int operation = 0; operation <= 11; operation++) {
        refuse(plain_event(operation, 0, 0, 0), 1);
        refuse(plain_event(operation, 0xFF, 0xFF, 0xFFFFFFFF), 1);
    }
    refuse(plain_event(255, 0, 0, 0), 1);
}

static void refusal_2(void)
{
    begin("no such thing", SENDING);
    for (int operation = 11; operation <= 255; operation++)
        refuse(plain_event(operation, 0, 0, 0), 2);
    for (int number = 20; number <= 255; number++)
        if (number < FROSTSORREL_MASK_0 || number > FROSTSORREL_PROTECTION)
            refuse(plain_event(FROSTSORREL_WRITE_REGISTER, number, 0, 0), 2);
    refuse(write_register(RML, 0), 2);
    refuse(write_register(RFP, 0), 2);
    for (int n = 32; n <= 255; n++)
        refuse(write_mailbox(n, 0, 0), 2);
    for (int k = 4; k <= 255; k++)
        refuse(write_mailbox(0, k, 0), 2);
    for (int how = 4; how <= 255; how++)
        refuse(outcome(how), 2);
}

/* Refusal 2 stands before 3, 4, 5, 6 and 7. */
static void refusal_2_wins(void)
{
    begin("2 and 3", ASLEEP);
    given({MC, 1});
    refuse(write_register(RML, 1), 2);
    refuse(write_register(TEC, 1), 2);
    refuse(write_mailbox(32, 0, 0), 2);
    refuse(write_mailbox(0, 4, 0), 2);
    begin("2 and 4", NORMAL);
    refuse(with_byte(write_register(RFP, 0), 2, 1), 2);
    refuse(with_byte(write_register(RML, 0xFFFFFFFF), 3, 1), 2);
    refuse(with_byte(write_mailbox(33, 1, 0x20), 15, 1), 2);
    refuse(write_mailbox(0, 5, 0xFFFFFFFF), 2);
    refuse(with_byte(outcome(4), 2, 1), 2); /* and 7: the slot is empty */
    refuse(with_byte(plain_event(11, 1, 1, 1), 3, 1), 2);
    begin("2 and 5", SENDING);
    refuse(write_mailbox(3, 4, 0), 2);
    begin("2 and 6", NORMAL);
    given({MC, 8});
    refuse(write_mailbox(3, 255, 0), 2);
    begin("2 and 7", NORMAL);
    refuse(outcome(4), 2);
    refuse(outcome(255), 2);
}

/* Refusal 3 is for operations 0, 1 and 9 alone, and stands before 4 and 6. */
static void refusal_3(void)
{
    begin("asleep", ASLEEP);
    given({MC, BIT(0) | BIT(5) | BIT(31)}, {MD, BIT(5) | BIT(31)});
    for (int r = MC; r <= TSC; r++)
        refuse(write_register(r, 0), r == RML || r == RFP ? 2 : 3);
    for (int r = MASKS; r <= PROTECTION; r++)
        refuse(write_register(r, 0), 3);
    for (int k = 0; k < 4; k++)
        for (int n = 0; n < 32; n++)
            refuse(write_mailbox(n, k, 0), 3);
    refuse(options(0), 3);
    /* 4 applies as well */
    refuse(write_register(TSC, 1), 3);
    refuse(with_byte(write_register(MC, 0), 2, 1), 3);
    refuse(write_mailbox(1, 1, 32), 3);
    refuse(with_byte(write_mailbox(1, 1, 0), 9, 1), 3);
    refuse(options(4), 3);
    refuse(with_byte(options(0), 1, 1), 3);
    /* 6 applies as well */
    refuse(write_register(MASK(3), MASK_SPARE), 3);
    refuse(write_register(BCR2, 0x25), 3);
    refuse(write_register(MD, BIT(0) | BIT(31)), 3);
    refuse(write_mailbox(5, 0, 0), 3);
    /* the other operations are not refused for sleep */
    accept(data_frame(STANDARD(1), 0, 0));
    accept(start());
    refuse(outcome(SENT), 7);
    accept(receive_error(8));
    accept(recessive());
    accept(tick());
    accept(mode(SLEEP));
    reads(GSR, 0x1F040);
}

/* Refusal 4 stands before 5, 6 and 7. */
static void refusal_4_wins(void)
{
    begin("4 and 5", SENDING);
    refuse(data_frame(STANDARD(1), 16, 0), 4);
    refuse(with_byte(data_frame(STANDARD(1), 1, 0x55), 2, 1), 4);
    refuse(with_byte(remote_frame(STANDARD(1), 15), 15, 1), 4);
    refuse(with_byte(start(), 1, 1), 4);
    refuse(receive_error(2), 4);
    refuse(with_byte(receive_error(1), 8, 1), 4);
    refuse(with_byte(write_register(MC, 0), 3, 1), 4);
    refuse(with_byte(write_register(MD, BIT(3)), 8, 1), 4);
    refuse(write_mailbox(3, 0, 1), 4);
    refuse(write_mailbox(3, 1, 32), 4);
    refuse(with_byte(write_mailbox(3, 2, 0), 12, 1), 4);
    begin("4 and 6", NORMAL);
    given({MC, BIT(6) | BIT(7)}, {MD, BIT(6) | BIT(31)});
    refuse(write_register(BCR1, 1024), 4);
    refuse(with_byte(write_register(BCR2, 0x25), 2, 1), 4);
    refuse(with_byte(write_register(MD, BIT(31)), 15, 1), 4);
    refuse(write_register(MASK(6), BIT(29)), 4);
    refuse(write_register(MASK(31), BIT(30)), 4);
    refuse(with_byte(write_register(PROTECTION, 0), 2, 1), 4);
    refuse(write_mailbox(6, 0, 1), 4);
    refuse(with_byte(write_mailbox(6, 2, 0), 3, 1), 4);
    begin("4 and 6, mode", FRESH);
    refuse(with_byte(mode(SLEEP), 1, 1), 4);
    refuse(with_byte(mode(NORMAL_MODE), 2, 1), 4);
    begin("4 and 7", NORMAL);
    refuse(with_byte(outcome(SENT), 2, 1), 4);
    refuse(with_byte(outcome(ERROR), 4, 1), 4);
    refuse(with_byte(outcome(UNACKNOWLEDGED), 15, 1), 4);
}

/* Refusal 5 stands before 6. */
static void refusal_5_wins(void)
{
    begin("5 and 6", SENDING);
    refuse(write_register(MD, BIT(3)), 5);
    refuse(write_mailbox(3, 0, 0), 5);
    given({TRS, BIT(3) | BIT(4)}, {MC, BIT(3) | BIT(4) | BIT(5)});
    refuse(write_mailbox(4, 0, 0), 5);
    given({MAILBOX(4, 0), RFH});
    refuse(write_mailbox(4, 2, 0), 5);
    refuse(write_register(MD, BIT(4) | BIT(5)), 5); /* 5 is only locked, 4 is busy */
    refuse(write_register(MD, BIT(5)), 6);
}

static void refusal_7(void)
{
    static const enum state empty[] = {FRESH, NORMAL, BUS_OFF, ASLEEP};

    for (size_t i = 0; i < COUNT(empty); i++) {
        begin("an outcome with an empty slot", empty[i]);
        for (int how = SENT; how <= UNACKNOWLEDGED; how++)
            refuse(outcome(how), 7);
    }
    begin("an outcome in suspend", FRESH);
    given({MODE, SUSPEND}, {TRS, BIT(3)}, {MC, BIT(3)});
    refuse(outcome(SENT), 7);
}

/* ---- refusal 4: unused bytes, and values not allowed */

/* An event that is accepted, and which of its bytes are used (D8, D9). */
static const struct usage {
    enum state state;
    int operation, target;
    uint32_t value;
    const char *used;
} usages[] = {
    /*                                                 0123456789012345 */
    {FRESH, FROSTSORREL_WRITE_REGISTER, 14, 0,        "xx..xxxx........"},
    {FRESH, FROSTSORREL_WRITE_MAILBOX, 0, 0,          "xxx.xxxx........"},
    {NORMAL, FROSTSORREL_FRAME, 0, 0,                 "xx..xxxx........"},
    {NORMAL, FROSTSORREL_FRAME, 1, 0,                 "xx..xxxxx......."},
    {NORMAL, FROSTSORREL_FRAME, 2, 0x80000000,        "xx..xxxxxx......"},
    {NORMAL, FROSTSORREL_FRAME, 3, 0,                 "xx..xxxxxxx....."},
    {NORMAL, FROSTSORREL_FRAME, 4, 0x80000000,        "xx..xxxxxxxx...."},
    {NORMAL, FROSTSORREL_FRAME, 5, 0,                 "xx..xxxxxxxxx..."},
    {NORMAL, FROSTSORREL_FRAME, 6, 0,                 "xx..xxxxxxxxxx.."},
    {NORMAL, FROSTSORREL_FRAME, 7, 0,                 "xx..xxxxxxxxxxx."},
    {NORMAL, FROSTSORREL_FRAME, 8, 0,                 "xx..xxxxxxxxxxxx"},
    {NORMAL, FROSTSORREL_FRAME, 9, 0,                 "xx..xxxxxxxxxxxx"},
    {NORMAL, FROSTSORREL_FRAME, 10, 0x80000000,       "xx..xxxxxxxxxxxx"},
    {NORMAL, FROSTSORREL_FRAME, 11, 0,                "xx..xxxxxxxxxxxx"},
    {NORMAL, FROSTSORREL_FRAME, 12, 0,                "xx..xxxxxxxxxxxx"},
    {NORMAL, FROSTSORREL_FRAME, 13, 0,                "xx..xxxxxxxxxxxx"},
    {NORMAL, FROSTSORREL_FRAME, 14, 0x80000000,       "xx..xxxxxxxxxxxx"},
    {NORMAL, FROSTSORREL_FRAME, 15, 0,                "xx..xxxxxxxxxxxx"},
    {NORMAL, FROSTSORREL_FRAME, 0, 0x40000000,        "xx..xxxx........"}, /* remote */
    {NORMAL, FROSTSORREL_FRAME, 8, 0x40000000,        "xx..xxxx........"},
    {NORMAL, FROSTSORREL_FRAME, 8, 0xC0000000,        "xx..xxxx........"},
    {NORMAL, FROSTSORREL_FRAME, 9, 0xC0000000,        "xx..xxxx........"},
    {NORMAL, FROSTSORREL_FRAME, 15, 0x40000000,       "xx..xxxx........"},
    {ASLEEP, FROSTSORREL_FRAME, 2, 0,                 "xx..xxxxxx......"},
    {ASLEEP, FROSTSORREL_FRAME, 15, 0,                "xx..xxxxxxxxxxxx"},
    {BUS_OFF, FROSTSORREL_FRAME, 2, 0,                "xx..xxxxxx......"},
    {BUS_OFF, FROSTSORREL_FRAME, 15, 0x40000000,      "xx..xxxx........"},
    {NORMAL, FROSTSORREL_START, 0, 0,                 "x..............."},
    {FRESH, FROSTSORREL_START, 0, 0,                  "x..............."},
    {NORMAL, FROSTSORREL_RECEIVE_ERROR, 0, 1,         "x...xxxx........"},
    {ASLEEP, FROSTSORREL_RECEIVE_ERROR, 0, 8,         "x...xxxx........"},
    {BUS_OFF, FROSTSORREL_ELEVEN_RECESSIVE, 0, 0,     "x..............."},
    {FRESH, FROSTSORREL_ELEVEN_RECESSIVE, 0, 0,       "x..............."},
    {FRESH, FROSTSORREL_TICK, 0, 0,                   "x..............."},
    {ASLEEP, FROSTSORREL_TICK, 0, 0,                  "x..............."},
    {NORMAL, FROSTSORREL_MODE, 0, SUSPEND,            "x...xxxx........"},
    {FRESH, FROSTSORREL_MODE, 0, CONFIGURATION,       "x...xxxx........"},
    {FRESH, FROSTSORREL_OPTIONS, 0, 3,                "x...xxxx........"},
    {SENDING, FROSTSORREL_RESET, 0, 0,                "x..............."},
    {ASLEEP, FROSTSORREL_RESET, 0, 0,                 "x..............."},
};

static void unused_bytes(struct usage u)
{
    struct event e = plain_event(u.operation, u.target, 0, u.value), all = e;

    begin("unused bytes", u.state);
    for (int i = 0; i < EVENT_BYTES; i++) {
        if (u.used[i] == 'x')
            continue;
        refuse(with_byte(e, i, 1), 4);
        refuse(with_byte(e, i, 0x80), 4);
        refuse(with_byte(e, i, 0xFF), 4);
        all = with_byte(all, i, 0xFF);
    }
    refuse(all, 4);
}

/* The same of outcomes, which need a filled slot, and are accepted as they stand. */
static void unused_bytes_of_outcomes(void)
{
    for (int how = SENT; how <= UNACKNOWLEDGED; how++) {
        begin("unused bytes of an outcome", SENDING);
        for (int i = 2; i < EVENT_BYTES; i++)
            refuse(with_byte(outcome(how), i, 1), 4);
    }
}

/* The data bytes that are used take any content. */
static void used_data_bytes(struct usage u)
{
    for (int i = 8; i < EVENT_BYTES && u.used[i] == 'x'; i++) {
        struct event e = with_byte(plain_event(u.operation, u.target, 0, u.value), i, 0xFF);

        begin("used data bytes", u.state);
        accept(e); /* no mailbox is enabled: a frame changes nothing */
    }
}

/* The events of the table are accepted as they stand: the refusals above are for the byte. */
static void usages_are_accepted(void)
{
    for (size_t i = 0; i < COUNT(usages); i++) {
        struct usage u = usages[i];
        struct event e = plain_event(u.operation, u.target, 0, u.value);

        begin("the event of the table", u.state);
        check(frostsorrel_step(image, BYTES, e.bytes, EVENT_BYTES) == 8192, "usage %d", (int)i);
        memcpy(expected, image, BYTES); /* what they do is shown elsewhere */
    }
}

static void frames_not_allowed(void)
{
    begin("frames not allowed", NORMAL);
    for (int dlc = 16; dlc <= 255; dlc++) {
        refuse(data_frame(STANDARD(1), dlc, 0), 4);
        refuse(data_frame(STANDARD(1), dlc, 0x8877665544332211), 4);
        refuse(remote_frame(EXTENDED(1, 1), dlc), 4);
    }
    for (int bit = 0; bit < 18; bit++) {
        refuse(data_frame(STANDARD(1) | BIT(bit), 0, 0), 4);
        refuse(remote_frame(STANDARD(1) | BIT(bit), 0), 4);
        answers(data_frame(EXTENDED(1, BIT(bit)), 0, 0), NOBODY, 0);
    }
    refuse(data_frame(STANDARD(1) | BIT(29), 0, 0), 4);
    refuse(data_frame(EXTENDED(1, 0) | BIT(29), 0, 0), 4);
    refuse(remote_frame(EXTENDED(1, 0) | BIT(29), 0), 4);
}

static void frames_allowed(void)
{
    begin("frames allowed", NORMAL);
    for (int dlc = 0; dlc <= 15; dlc++) {
        accept(data_frame(STANDARD(1), dlc, 0));
        accept(data_frame(EXTENDED(1, 1), dlc, 0));
        accept(remote_frame(STANDARD(1), dlc));
        accept(remote_frame(EXTENDED(1, 1), dlc));
    }
}

static void mailbox_words_not_allowed(void)
{
    begin("mailbox words not allowed", FRESH);
    for (int bit = 0; bit < 18; bit++) {
        refuse(write_mailbox(9, 0, BIT(bit)), 4);
        refuse(write_mailbox(9, 0, MASKED | RFH | STANDARD(5) | BIT(bit)), 4);
    }
    for (int bit = 5; bit < 16; bit++) {
        refuse(write_mailbox(9, 1, BIT(bit)), 4);
        refuse(write_mailbox(9, 1, CONTROL(7, 1, 15) | BIT(bit)), 4);
    }
}

static void allowed_word(int k, uint32_t value)
{
    accept(write_mailbox(9, k, value));
    now({MAILBOX(9, k), value});
}

static void mailbox_words_allowed(void)
{
    begin("mailbox words allowed", FRESH);
    for (int bit = 0; bit < 32; bit++) {
        allowed_word(0, 0x80000000 | BIT(bit));
        allowed_word(0, bit >= 18 ? BIT(bit) : 0);
        allowed_word(1, bit >= 16 ? BIT(bit) : 0);
        allowed_word(2, BIT(bit));
        allowed_word(3, BIT(bit));
    }
    for (uint32_t dlc = 0; dlc <= 15; dlc++) {
        allowed_word(1, CONTROL(0, 0, dlc));
        allowed_word(1, CONTROL(0xFFFF, 1, dlc));
    }
    allowed_word(0, 0xFFFFFFFF);
    allowed_word(0, 0x7FFC0000);
    allowed_word(2, 0xFFFFFFFF);
    allowed_word(3, 0xFFFFFFFF);
}

/* The registers that can be written: bits that are allowed, and bits that appear in a fresh image. */
static const struct {
    int word;
    uint32_t allowed, appear;
} registers[] = {
    {MC, 0xFFFFFFFF, 0xFFFFFFFF},  {MD, 0xFFFFFFFF, 0xFFFFFFFF}, {TRS, 0xFFFFFFFF, 0x7FFFFFFF},
    {TRR, 0xFFFFFFFF, 0},          {TA, 0xFFFFFFFF, 0},          {AA, 0xFFFFFFFF, 0},
    {RMP, 0xFFFFFFFF, 0},          {LAM, 0x9FFFFFFF, ~0u},       {GAM, 0x9FFFFFFF, ~0u},
    {CDR, 0x7FFFFFFF, ~0u},        {MBTIF, 0xFFFFFFFF, 0},       {MBRIF, 0xFFFFFFFF, 0},
    {MBIM, 0xFFFFFFFF, 0xFFFFFFFF}, {GIF, 0xFF, 0},              {GIM, 0xFF, ~0u},
    {BCR1, 0x3FF, ~0u},            {BCR2, 0x3FF, ~0u},           {TSC, 0, 0},
};

static void register_values(void)
{
    for (size_t i = 0; i < COUNT(registers); i++) {
        int word = registers[i].word;

        for (int bit = 0; bit < 32; bit++) {
            begin("each bit of each register", FRESH);
            if (registers[i].allowed & BIT(bit)) {
                accept(write_register(word, BIT(bit)));
                now({word, word_of(expected, word) | (BIT(bit) & registers[i].appear)});
            } else {
                refuse(write_register(word, BIT(bit)), 4);
            }
        }
    }
}

static void other_values_not_allowed(void)
{
    static const uint32_t no_error[] = {0, 2, 3, 7, 9, 16, 0x101, 0x108, 0x80000001, 0xFFFFFFFF};
    static const uint32_t above_3[] = {4, 5, 7, 8, 255, 256, 0x10000, 0x80000000, 0xFFFFFFFF};

    begin("other values not allowed", NORMAL);
    for (size_t i = 0; i < COUNT(no_error); i++)
        refuse(receive_error(no_error[i]), 4);
    for (size_t i = 0; i < COUNT(above_3); i++) {
        refuse(mode(above_3[i]), 4);
        refuse(options(above_3[i]), 4);
    }
    for (uint32_t value = 0; value < 4; value++) {
        accept(options(value));
        now({OPTIONS, value});
    }
}

/* ---- refusal 5: busy */

static void busy_slot(void)
{
    begin("busy: a filled slot", SENDING);
    given({MAILBOX(3, 0), STANDARD(0x100)});
    refuse(data_frame(STANDARD(0x100), 0, 0), 5);
    refuse(remote_frame(STANDARD(0x100), 0), 5);
    refuse(data_frame(EXTENDED(0x7FF, 1), 8, 0x1122334455667788), 5);
    refuse(start(), 5);
    refuse(receive_error(1), 5);
    refuse(receive_error(8), 5);
    for (int k = 0; k < 4; k++)
        refuse(write_mailbox(3, k, 0), 5);
    accept(write_register(CDR, BIT(3))); /* CDR does not reach a frame that is on its way (D17) */
    now({CDR, BIT(3)});
    for (int k = 0; k < 4; k++)
        refuse(write_mailbox(3, k, 0), 5);
    /* what is not busy */
    accept(tick());
    now({TSC, 1});
    accept(recessive());
    accept(options(1));
    now({OPTIONS, 1});
    accept(write_mailbox(4, 2, 5));
    now({MAILBOX(4, 2), 5});
    accept(write_register(MBIM, 1));
    now({MBIM, 1});
    reads(GSR, 0x3400);
}

static void busy_requests(void)
{
    const uint32_t written[] = {STANDARD(9), CONTROL(5, 1, 8), 0x11111111, 0x22222222};

    begin("busy: a request waits", NORMAL);
    given({TRS, BIT(0) | BIT(30)});
    for (int k = 0; k < 4; k++) {
        refuse(write_mailbox(0, k, written[k]), 5);
        refuse(write_mailbox(30, k, written[k]), 5);
        accept(write_mailbox(1, k, written[k]));
        now({MAILBOX(1, k), written[k]});
        accept(write_mailbox(31, k, written[k])); /* the slot holds 32: that is nobody (D4) */
        now({MAILBOX(31, k), written[k]});
    }
    accept(write_register(CDR, BIT(30))); /* holds that request back: its mailbox is free */
    now({CDR, BIT(30)});
    for (int k = 0; k < 4; k++) {
        refuse(write_mailbox(0, k, written[k]), 5);
        accept(write_mailbox(30, k, written[k]));
        now({MAILBOX(30, k), written[k]});
    }
    accept(write_register(MC, BIT(30)));
    now({MC, BIT(30)});
    refuse(write_mailbox(30, 0, 0), 6); /* enabled: it can still be locked (D17) */
    accept(write_mailbox(30, 2, 0));
    now({MAILBOX(30, 2), 0});
}

static void busy_enabling_and_direction(void)
{
    begin("busy: MC and MD", NORMAL);
    given({TRS, BIT(2) | BIT(4)}, {MC, BIT(2) | BIT(9)});
    refuse(write_register(MC, BIT(9)), 5);
    refuse(write_register(MC, 0), 5);
    accept(write_register(MC, BIT(2))); /* 2 is not turned off, 9 has no request */
    now({MC, BIT(2)});
    accept(write_register(MC, BIT(2) | BIT(4))); /* turning on is free (D16) */
    now({MC, BIT(2) | BIT(4)});
    refuse(write_register(MC, BIT(2)), 5);
    refuse(write_register(MC, 0xFFFFFFFF & ~BIT(4)), 5);
    accept(write_register(MC, 0xFFFFFFFF));
    now({MC, 0xFFFFFFFF});

    begin("busy: MD", NORMAL);
    given({TRS, BIT(2)});
    refuse(write_register(MD, BIT(31) | BIT(2)), 5);
    refuse(write_register(MD, 0xFFFFFFFF), 5);
    accept(write_register(MD, BIT(31) | BIT(3)));
    now({MD, BIT(31) | BIT(3)});
    given({CDR, BIT(2)});
    refuse(write_register(MD, BIT(31) | BIT(3) | BIT(2)), 5); /* CDR frees the mailbox words alone */
    accept(write_register(MD, 0)); /* bit 31 stays, and is not changed (D14) */
    now({MD, BIT(31)});
}

/* ---- refusal 6: locked */

/* A CAN-B has neither masks nor a protection: the same value is refused as well. */
static void locked_words_of_the_ecan(void)
{
    static const enum state awake[] = {FRESH, NORMAL, SENDING, BUS_OFF};

    for (size_t i = 0; i < COUNT(awake); i++) {
        begin("locked: masks and protection of a CAN-B", awake[i]);
        for (int word = MASKS; word <= PROTECTION; word++) {
            refuse(write_register(word, 0), 6);
            refuse(write_register(word, 0x9FFFFFFF), 6);
        }
        refuse(write_register(PROTECTION, 0xFFFFFFFF), 6);
    }
}

static void locked_direction(void)
{
    begin("locked: MD", FRESH);
    given({MC, BIT(5) | BIT(6) | BIT(31)}, {MD, BIT(5) | BIT(31)});
    refuse(write_register(MD, BIT(31)), 6);
    refuse(write_register(MD, BIT(31) | BIT(5) | BIT(6)), 6);
    refuse(write_register(MD, BIT(31) | BIT(6)), 6);
    refuse(write_register(MD, BIT(31) | BIT(7)), 6); /* one locked bit refuses them all (D15) */
    accept(write_register(MD, BIT(5) | BIT(7))); /* bit 31 never counts as changed */
    now({MD, BIT(31) | BIT(5) | BIT(7)});
    accept(write_register(MD, BIT(31) | BIT(5)));
    now({MD, BIT(31) | BIT(5)});
}

static void locked_timing(void)
{
    begin("locked: BCR1 and BCR2", FRESH);
    accept(write_register(BCR1, 0x3FF));
    now({BCR1, 0x3FF});
    accept(write_register(BCR2, 0x3A5));
    now({BCR2, 0x3A5});
    for (uint32_t other = NORMAL_MODE; other <= SUSPEND; other++) {
        if (other == CONFIGURATION)
            continue;
        given({MODE, other});
        refuse(write_register(BCR1, 1), other == SLEEP ? 3 : 6);
        refuse(write_register(BCR2, 0x25), other == SLEEP ? 3 : 6);
    }
    begin("locked: BCR1 and BCR2 in bus off", BUS_OFF);
    refuse(write_register(BCR1, 0), 6);
    refuse(write_register(BCR2, 0), 6);
}

/* Which words of a mailbox are locked, by its MC, MD, CDR bits and its RFH. */
static const struct lock {
    int mc, md, rfh, cdr;
    const char *locked; /* words 0 to 3 */
} locks[] = {
    {0, 0, 0, 0, "...."}, {0, 0, 0, 1, "...."}, {0, 0, 1, 0, "...."}, {0, 0, 1, 1, "...."},
    {0, 1, 0, 0, "...."}, {0, 1, 0, 1, "...."}, {0, 1, 1, 0, "...."}, {0, 1, 1, 1, "...."},
    {1, 0, 0, 0, "x..."}, {1, 0, 0, 1, "x..."}, {1, 0, 1, 0, "x.xx"}, {1, 0, 1, 1, "x..."},
    {1, 1, 0, 0, "x.xx"}, {1, 1, 0, 1, "x.xx"}, {1, 1, 1, 0, "x.xx"}, {1, 1, 1, 1, "x.xx"},
};

/* All other mailboxes have the opposite bits, so that only this one's can decide. */
static void lock_of(int n, struct lock l)
{
    const uint32_t written[] = {RFH | STANDARD(3), CONTROL(1, 1, 2), 0x33333333, 0x44444444};
    uint32_t bit = BIT(n);

    begin("locked: words of a mailbox", NORMAL);
    for (int other = 0; other < 32; other++)
        given({MAILBOX(other, 0), (other == n) == l.rfh ? RFH : 0});
    given({MC, l.mc ? bit : ~bit}, {MD, (l.md ? bit : ~bit) | BIT(31)},
          {CDR, (l.cdr ? bit : ~bit) & 0x7FFFFFFF});
    for (int k = 3; k >= 0; k--) { /* word 0 last: it holds RFH */
        if (l.locked[k] == 'x') {
            refuse(write_mailbox(n, k, written[k]), 6);
        } else {
            accept(write_mailbox(n, k, written[k]));
            now({MAILBOX(n, k), written[k]});
        }
    }
}

static void locked_words(void)
{
    for (size_t i = 0; i < COUNT(locks); i++) {
        lock_of(0, locks[i]);
        lock_of(17, locks[i]);
        lock_of(30, locks[i]);
        if (locks[i].md && !locks[i].cdr) /* mailbox 31 only receives */
            lock_of(31, locks[i]);
    }
}

/* Changes of mode that are neither to normal nor from it; those that are stand under "modes". */
static void locked_modes(void)
{
    begin("locked: mode, from configuration", FRESH);
    given({BCR2, 0x25});
    refuse(mode(SLEEP), 6);
    refuse(mode(SUSPEND), 6);
    accept(mode(CONFIGURATION));
    begin("locked: mode, from sleep", ASLEEP);
    refuse(mode(CONFIGURATION), 6);
    refuse(mode(SUSPEND), 6);
    accept(mode(SLEEP));
    begin("locked: mode, from suspend", FRESH);
    given({MODE, SUSPEND});
    refuse(mode(CONFIGURATION), 6);
    refuse(mode(SLEEP), 6);
    accept(mode(SUSPEND));
}

/* Leaving configuration: BCR2 has SJW in bits 9 and 8, TSEG2 in 6 to 4, TSEG1 in 3 to 0. */
static const struct {
    uint32_t bcr2;
    int works;
} timings[] = {
    {0x000, 0}, {0x001, 0}, {0x010, 0}, {0x011, 1}, {0x025, 1}, {0x020, 0}, {0x005, 0},
    {0x080, 0}, {0x08F, 0}, {0x0F0, 0}, {0x091, 1}, {0x111, 1}, {0x211, 0}, {0x311, 0},
    {0x121, 1}, {0x221, 1}, {0x321, 0}, {0x331, 1}, {0x3A1, 0}, {0x3B1, 1}, {0x3FF, 1},
    {0x07F, 1}, {0x01F, 1}, {0x071, 1}, {0x300, 0}, {0x100, 0}, {0x110, 0}, {0x101, 0},
    {0x042, 1}, {0x048, 1}, {0x084, 0},
};

static void locked_in_configuration(void)
{
    begin("locked: leaving configuration", FRESH);
    for (size_t i = 0; i < COUNT(timings); i++) {
        accept(write_register(BCR2, timings[i].bcr2));
        now({BCR2, timings[i].bcr2});
        if (!timings[i].works) {
            refuse(mode(NORMAL_MODE), 6);
            continue;
        }
        accept(mode(NORMAL_MODE));
        now({MODE, NORMAL_MODE});
        accept(mode(CONFIGURATION));
        now({MODE, CONFIGURATION});
    }
    begin("BCR2 matters to configuration alone", FRESH);
    given({MODE, SUSPEND});
    accept(mode(NORMAL_MODE));
    now({MODE, NORMAL_MODE});
    accept(mode(SLEEP));
    now({MODE, SLEEP});
    accept(mode(NORMAL_MODE));
    now({MODE, NORMAL_MODE}, {GIF, 0x40});
}

void step_refusals(void)
{
    lengths();
    ask_about_good_images(judge_by_step);
    refusal_1_comes_first();
    refusal_2();
    refusal_2_wins();
    refusal_3();
    refusal_4_wins();
    refusal_5_wins();
    refusal_7();
    for (size_t i = 0; i < COUNT(usages); i++) {
        unused_bytes(usages[i]);
        used_data_bytes(usages[i]);
    }
    unused_bytes_of_outcomes();
    usages_are_accepted();
    frames_not_allowed();
    frames_allowed();
    mailbox_words_not_allowed();
    mailbox_words_allowed();
    register_values();
    other_values_not_allowed();
    busy_slot();
    busy_requests();
    busy_enabling_and_direction();
    locked_words_of_the_ecan();
    locked_direction();
    locked_timing();
    locked_words();
    locked_modes();
    locked_in_configuration();
}
