/* Starts, outcomes, error counters, bus off: section "Sending, errors, modes" of document 01. */
#include "scenario.h"
#include "step.h"

/* ---- what a start takes */

/* Without MTOS the lowest number, whatever the identifiers (manual 3.3.2). */
static void start_by_number(void)
{
    begin("start by number", NORMAL);
    given({MC, BIT(0) | BIT(2) | BIT(5) | BIT(30)}, {MAILBOX(0, 0), STANDARD(0x7FF)},
          {MAILBOX(30, 0), STANDARD(0x000)}, {OPTIONS, 2}); /* WUBA is not MTOS */
    accept(start());
    accept(write_register(TRS, BIT(30) | BIT(5) | BIT(2)));
    now({TRS, BIT(30) | BIT(5) | BIT(2)});
    answers(start(), 2, 0);
    now({SLOT, 2});
    reads(GSR, 0x2400);
    accept(write_register(TRS, BIT(0))); /* while 2 is on its way: its turn is next */
    now({TRS, BIT(30) | BIT(5) | BIT(2) | BIT(0)});
    answers(outcome(ARBITRATION_LOST), 2, 0);
    now({SLOT, EMPTY_SLOT});
    answers(start(), 0, 0);
    now({SLOT, 0});
    reads(GSR, 0x0400);
    answers(outcome(SENT), 0, 0);
    now({SLOT, EMPTY_SLOT}, {TRS, BIT(30) | BIT(5) | BIT(2)}, {TA, BIT(0)});
    answers(start(), 2, 0);
    now({SLOT, 2});
}

static void start_at(const char *name, int n, uint32_t waiting)
{
    begin(name, NORMAL);
    given({TRS, waiting}, {MC, 0xFFFFFFFF});
    answers(start(), n, 0);
    now({SLOT, n});
}

/* Every mailbox can be the lowest, alone or below another; where none waits, none is taken. */
static void start_at_each_mailbox(void)
{
    for (int n = 0; n < 31; n++)
        start_at("start at the only mailbox", n, BIT(n));
    for (int n = 0; n < 30; n++)
        start_at("start at the lower of two mailboxes", n, BIT(n) | BIT(30));
    begin("start at no mailbox", NORMAL);
    given({TRS, 0}, {MC, 0xFFFFFFFF});
    accept(start());
}

/* TRS and MC and not CDR; TRR cannot stand with an empty slot. */
static void who_may_start(void)
{
    begin("who may start", NORMAL);
    given({TRS, BIT(1) | BIT(2) | BIT(3)}, {MC, BIT(0) | BIT(2) | BIT(3) | BIT(31)}, {CDR, BIT(2)});
    given({TA, 0x7FFFFFFF}, {AA, 0x7FFFFFFF}, {MBTIF, 0x7FFFFFFF}); /* what was before does not count */
    given({RMP, 0xFFFFFFFF}, {RML, 0xFFFFFFFF}, {RFP, 0xFFFFFFFF}, {MBRIF, 0xFFFFFFFF});
    answers(start(), 3, 0); /* 1 is disabled, 2 held back */
    now({SLOT, 3});
    begin("nobody may start", NORMAL);
    given({TRS, BIT(1) | BIT(2)}, {MC, BIT(2)}, {CDR, BIT(2)});
    accept(start());
    accept(options(1));
    now({OPTIONS, 1});
    accept(start());
    accept(write_register(CDR, 0));
    now({CDR, 0});
    answers(start(), 2, 0);
    now({SLOT, 2});
}

static void no_start_off_the_bus(void)
{
    static const uint32_t silent[] = {CONFIGURATION, SUSPEND};

    for (size_t i = 0; i < COUNT(silent); i++) {
        begin("start outside normal mode", FRESH);
        given({MODE, silent[i]}, {TRS, 1}, {MC, 1});
        accept(start());
    }
    begin("start in bus off", BUS_OFF);
    given({TRS, 1}, {MC, 1});
    accept(start());
    begin("start with TEC 255", NORMAL);
    given({TEC, 255}, {TRS, 1}, {MC, 1});
    answers(start(), 0, 0);
    now({SLOT, 0});
}

static void asking(int n, uint32_t word_0, uint32_t word_1)
{
    enabled(n, word_0);
    given({MAILBOX(n, 1), word_1}, {TRS, word_of(expected, TRS) | BIT(n)});
}

#define DATA CONTROL(0xABCD, 0, 8)
#define REMOTE CONTROL(0x1234, 1, 0)

/* Two mailboxes ask with MTOS; the first named has the smaller key, and wins from either place. */
static void smaller_key(uint32_t first, uint32_t first_1, uint32_t second, uint32_t second_1)
{
    begin("the smaller key, at the lower number", NORMAL);
    given({OPTIONS, 1});
    asking(4, first, first_1);
    asking(19, second, second_1);
    answers(start(), 4, 0);
    now({SLOT, 4});
    begin("the smaller key, at the higher number", NORMAL);
    given({OPTIONS, 1});
    asking(4, second, second_1);
    asking(19, first, first_1);
    answers(start(), 19, 0);
    now({SLOT, 19});
    begin("the same two without MTOS", NORMAL);
    asking(4, second, second_1);
    asking(19, first, first_1);
    answers(start(), 4, 0);
    now({SLOT, 4});
}

static void start_by_key(void)
{
    /* the marked numbers: 0x24600000, 0x24700000, 0x24780000 */
    smaller_key(STANDARD(0x123), DATA, STANDARD(0x123), REMOTE);
    smaller_key(STANDARD(0x123), REMOTE, EXTENDED(0x123, 0), DATA);
    smaller_key(STANDARD(0x123), DATA, EXTENDED(0x123, 0), DATA);
    /* an extended frame is behind every standard one of its base, before those of the next */
    smaller_key(STANDARD(0x123), REMOTE, EXTENDED(0x123, 0), REMOTE);
    smaller_key(EXTENDED(0x123, 0x3FFFF), REMOTE, STANDARD(0x124), DATA);
    smaller_key(STANDARD(0x122), REMOTE, EXTENDED(0x123, 0), DATA);
    /* among extended ones the low bits count, then RTR */
    smaller_key(EXTENDED(0x123, 0), DATA, EXTENDED(0x123, 0), REMOTE);
    smaller_key(EXTENDED(0x123, 0), REMOTE, EXTENDED(0x123, 1), DATA);
    smaller_key(EXTENDED(0x123, 0x1FFFF), DATA, EXTENDED(0x123, 0x20000), DATA);
    smaller_key(EXTENDED(0x122, 0x3FFFF), DATA, EXTENDED(0x123, 0), DATA);
    /* the ends of the scale */
    smaller_key(STANDARD(0), DATA, STANDARD(0), REMOTE);
    smaller_key(STANDARD(0), DATA, EXTENDED(0, 0), DATA);
    smaller_key(STANDARD(0x3FF), DATA, STANDARD(0x400), DATA);
    smaller_key(STANDARD(0x7FF), REMOTE, EXTENDED(0x7FF, 0), DATA);
    smaller_key(EXTENDED(0x7FF, 0x3FFFF), DATA, EXTENDED(0x7FF, 0x3FFFF), REMOTE);
    /* GAME, RFH, the time stamp, the DLC and the data are no part of a key */
    smaller_key(STANDARD(0x123) | MASKED | RFH, CONTROL(0xFFFF, 0, 15), STANDARD(0x124), CONTROL(0, 0, 0));
    smaller_key(EXTENDED(0x123, 4) | MASKED | RFH, CONTROL(0xFFFF, 0, 15), EXTENDED(0x123, 5),
                CONTROL(0, 0, 0));
    smaller_key(STANDARD(0x123), CONTROL(0, 0, 15), STANDARD(0x123), REMOTE);
    smaller_key(EXTENDED(0x123, 4), CONTROL(0, 0, 15), EXTENDED(0x123, 4), REMOTE);
}

/* Ties go to the lower number; a key of all ones is a key like any other (D46). */
static void equal_keys(void)
{
    begin("equal keys", NORMAL);
    given({OPTIONS, 3});
    asking(30, EXTENDED(0x100, 7), REMOTE);
    asking(11, EXTENDED(0x100, 7), REMOTE);
    asking(12, EXTENDED(0x100, 7), REMOTE);
    asking(2, EXTENDED(0x100, 8), REMOTE);
    answers(start(), 11, 0);
    now({SLOT, 11});
    begin("the largest key", NORMAL);
    given({OPTIONS, 1});
    asking(21, EXTENDED(0x7FF, 0x3FFFF), REMOTE);
    answers(start(), 21, 0);
    now({SLOT, 21});
    begin("the largest key twice", NORMAL);
    given({OPTIONS, 1});
    asking(21, EXTENDED(0x7FF, 0x3FFFF), REMOTE);
    asking(20, EXTENDED(0x7FF, 0x3FFFF), REMOTE);
    answers(start(), 20, 0);
    now({SLOT, 20});
    begin("equal keys of mailboxes that differ in all else", NORMAL);
    given({OPTIONS, 1});
    asking(14, STANDARD(0x2AA) | MASKED | RFH, CONTROL(0xFFFF, 0, 15));
    asking(15, STANDARD(0x2AA), CONTROL(0, 0, 0));
    answers(start(), 14, 0);
    now({SLOT, 14});
}

/* With MTOS too, only the eligible count. */
static void key_of_the_eligible(void)
{
    begin("smaller keys that may not start", NORMAL);
    given({OPTIONS, 1});
    asking(1, STANDARD(1), DATA);
    asking(2, STANDARD(2), DATA);
    asking(3, STANDARD(3), DATA);
    given({CDR, BIT(1)}, {MC, BIT(1) | BIT(3)});
    answers(start(), 3, 0);
    now({SLOT, 3});
}

/* 31 requests whose keys fall as their numbers rise: by key from 30 down, by number from 0 up. Then nothing is left. */
static void every_mailbox_is_sent_once(const char *name, uint32_t mtos)
{
    uint32_t left = 0x7FFFFFFF;

    begin(name, NORMAL);
    given({OPTIONS, mtos});
    for (int n = 0; n < 31; n++)
        asking(n, STANDARD(0x400 - n), CONTROL(0, 0, 1));
    for (int i = 0; i < 31; i++) {
        int n = mtos ? 30 - i : i;

        answers(start(), n, 0);
        now({SLOT, n});
        answers(outcome(SENT), n, 0);
        left &= ~BIT(n);
        now({SLOT, EMPTY_SLOT}, {TRS, left}, {TA, 0x7FFFFFFF & ~left});
    }
    accept(start());
}

/* ---- outcomes */

static void being_sent(const char *name)
{
    begin(name, SENDING);
    given({MAILBOX(3, 0), STANDARD(0x321)}, {MAILBOX(3, 1), CONTROL(0xAAAA, 1, 6)},
          {MAILBOX(3, 2), 0x01020304}, {TRS, BIT(3) | BIT(8)}, {TSC, 0x4711}, {TEC, 20}, {REC, 30});
}

static void sent(void)
{
    being_sent("sent");
    answers(outcome(SENT), 3, 0);
    now({SLOT, EMPTY_SLOT}, {TRS, BIT(8)}, {TA, BIT(3)}, {MAILBOX(3, 1), CONTROL(0x4711, 1, 6)},
        {TEC, 19});
    being_sent("sent, with MBIM");
    given({MBIM, BIT(3)});
    answers(outcome(SENT), 3, 0);
    now({SLOT, EMPTY_SLOT}, {TRS, BIT(8)}, {TA, BIT(3)}, {MBTIF, BIT(3)},
        {MAILBOX(3, 1), CONTROL(0x4711, 1, 6)}, {TEC, 19});
    being_sent("sent, with all of MBIM but this");
    given({MBIM, ~BIT(3)});
    answers(outcome(SENT), 3, 0);
    now({SLOT, EMPTY_SLOT}, {TRS, BIT(8)}, {TA, BIT(3)}, {MAILBOX(3, 1), CONTROL(0x4711, 1, 6)},
        {TEC, 19});
}

/* Word 1 keeps its DLC, also above 8, and its RTR; only the time stamp is new. */
static void sent_with_dlc(uint32_t rtr, uint32_t dlc)
{
    begin("sent with any DLC", NORMAL);
    given({TSC, 0x4711}, {MC, BIT(3)});
    accept(write_mailbox(3, 1, CONTROL(0xAAAA, rtr, dlc)));
    now({MAILBOX(3, 1), CONTROL(0xAAAA, rtr, dlc)});
    accept(write_mailbox(3, 3, 0x88776655));
    now({MAILBOX(3, 3), 0x88776655});
    accept(write_register(TRS, BIT(3)));
    now({TRS, BIT(3)});
    answers(start(), 3, 0);
    now({SLOT, 3});
    answers(outcome(ARBITRATION_LOST), 3, 0);
    now({SLOT, EMPTY_SLOT});
    answers(start(), 3, 0);
    now({SLOT, 3});
    answers(outcome(SENT), 3, 0);
    now({SLOT, EMPTY_SLOT}, {TRS, 0}, {TA, BIT(3)}, {MAILBOX(3, 1), CONTROL(0x4711, rtr, dlc)});
}

/* Not sent and not cancelled: the request stays for the next start. */
static void not_sent(void)
{
    being_sent("arbitration lost");
    given({MBIM, 0xFFFFFFFF});
    answers(outcome(ARBITRATION_LOST), 3, 0);
    now({SLOT, EMPTY_SLOT});
    answers(start(), 3, 0);
    now({SLOT, 3});
    being_sent("error");
    given({MBIM, 0xFFFFFFFF});
    answers(outcome(ERROR), 3, 0);
    now({SLOT, EMPTY_SLOT}, {TEC, 28});
    answers(start(), 3, 0);
    now({SLOT, 3});
    being_sent("no acknowledgement");
    given({MBIM, 0xFFFFFFFF});
    answers(outcome(UNACKNOWLEDGED), 3, 0);
    now({SLOT, EMPTY_SLOT}, {TEC, 28});
    answers(start(), 3, 0);
    now({SLOT, 3});
    being_sent("no acknowledgement, passive");
    given({MBIM, 0xFFFFFFFF}, {TEC, 200});
    answers(outcome(UNACKNOWLEDGED), 3, 0);
    now({SLOT, EMPTY_SLOT});
    answers(start(), 3, 0);
    now({SLOT, 3});
}

/* Aborts: the three cases of the manual's 4.2.8; (a) is under "Writing". */
static void aborts(void)
{
    being_sent("(b) cancelled, arbitration lost");
    accept(write_register(TRR, BIT(3)));
    now({TRR, BIT(3)});
    reads(FROSTSORREL_TRS, BIT(3) | BIT(8));
    reads(FROSTSORREL_AA, 0);
    answers(outcome(ARBITRATION_LOST), 3, 0);
    now({SLOT, EMPTY_SLOT}, {TRR, 0}, {TRS, BIT(8)}, {AA, BIT(3)}, {GIF, 0x10});
    being_sent("(b) cancelled, error");
    accept(write_register(TRR, BIT(3)));
    now({TRR, BIT(3)});
    answers(outcome(ERROR), 3, 0);
    now({SLOT, EMPTY_SLOT}, {TRR, 0}, {TRS, BIT(8)}, {AA, BIT(3)}, {GIF, 0x10}, {TEC, 28});
    being_sent("(b) cancelled, no acknowledgement");
    given({TEC, 120});
    accept(write_register(TRR, BIT(3)));
    now({TRR, BIT(3)});
    answers(outcome(UNACKNOWLEDGED), 3, 0);
    now({SLOT, EMPTY_SLOT}, {TRR, 0}, {TRS, BIT(8)}, {AA, BIT(3)}, {GIF, 0x12}, {TEC, 128});
    being_sent("(b) cancelled, no acknowledgement, passive");
    given({REC, 128});
    accept(write_register(TRR, BIT(3)));
    now({TRR, BIT(3)});
    answers(outcome(UNACKNOWLEDGED), 3, 0);
    now({SLOT, EMPTY_SLOT}, {TRR, 0}, {TRS, BIT(8)}, {AA, BIT(3)}, {GIF, 0x10});
    being_sent("(c) cancelled, but sent");
    given({MBIM, BIT(3)});
    accept(write_register(TRR, BIT(3)));
    now({TRR, BIT(3)});
    answers(outcome(SENT), 3, 0);
    now({SLOT, EMPTY_SLOT}, {TRR, 0}, {TRS, BIT(8)}, {TA, BIT(3)}, {MBTIF, BIT(3)},
        {MAILBOX(3, 1), CONTROL(0x4711, 1, 6)}, {TEC, 19});
}

/* A request asked for again while it is on its way is one request (TRS is one bit). */
static void cancelled_and_asked_again(void)
{
    being_sent("asked again after TRR");
    accept(write_register(TRR, BIT(3)));
    now({TRR, BIT(3)});
    accept(write_register(TRS, BIT(3)));
    answers(outcome(ARBITRATION_LOST), 3, 0);
    now({SLOT, EMPTY_SLOT}, {TRR, 0}, {TRS, BIT(8)}, {AA, BIT(3)}, {GIF, 0x10});
    accept(write_register(TRS, BIT(3)));
    now({TRS, BIT(3) | BIT(8)}); /* and AA stays (D63) */
    answers(start(), 3, 0);
    now({SLOT, 3});
    answers(outcome(SENT), 3, 0);
    now({SLOT, EMPTY_SLOT}, {TRS, BIT(8)}, {TA, BIT(3)}, {MAILBOX(3, 1), CONTROL(0x4711, 1, 6)},
        {TEC, 19});
}

/* Every mailbox that can send, with the bits of all others around it. */
static void outcomes_of_each_mailbox(int n)
{
    uint32_t others = 0x7FFFFFFF & ~BIT(n);

    begin("an outcome at each mailbox", NORMAL);
    given({SLOT, (uint32_t)n}, {TRS, 0x7FFFFFFF}, {MC, 0x7FFFFFFF}, {MBIM, 0xFFFFFFFF}, {TSC, 9});
    answers(outcome(SENT), n, 0);
    now({SLOT, EMPTY_SLOT}, {TRS, others}, {TA, BIT(n)}, {MBTIF, BIT(n)},
        {MAILBOX(n, 1), CONTROL(9, 0, 0)});
    begin("an abort at each mailbox", NORMAL);
    given({SLOT, (uint32_t)n}, {TRS, 0x7FFFFFFF}, {MC, 0x7FFFFFFF}, {MBIM, 0xFFFFFFFF});
    accept(write_register(TRR, BIT(n)));
    now({TRR, BIT(n)});
    answers(outcome(ARBITRATION_LOST), n, 0);
    now({SLOT, EMPTY_SLOT}, {TRR, 0}, {TRS, others}, {AA, BIT(n)}, {GIF, 0x10});
    begin("no acknowledgement at each mailbox", NORMAL);
    given({SLOT, (uint32_t)n}, {TRS, 0x7FFFFFFF}, {MC, 0x7FFFFFFF}, {MBIM, 0xFFFFFFFF}, {TSC, 9});
    answers(outcome(UNACKNOWLEDGED), n, 0);
    now({SLOT, EMPTY_SLOT}, {TEC, 8});
}

/* ---- the send error counter, and GIF bits 2, 1, 0 */

struct count {
    uint32_t before, rec, after, gif;
};

static void counted(const char *name, int how, const struct count *counts, size_t count)
{
    for (size_t i = 0; i < count; i++) {
        begin(name, SENDING);
        given({TEC, counts[i].before}, {REC, counts[i].rec});
        answers(outcome(how), 3, 0);
        now({SLOT, EMPTY_SLOT}, {TEC, counts[i].after}, {GIF, counts[i].gif});
    }
}

static void send_counter(void)
{
    static const struct count errors[] = {
        {0, 0, 8, 0},       {88, 0, 96, 0},     {89, 0, 97, 1},     {90, 0, 98, 1},   {96, 0, 104, 1},
        {97, 0, 105, 0},    {119, 0, 127, 0},   {120, 0, 128, 2},   {127, 0, 135, 2}, {128, 0, 136, 0},
        {246, 0, 254, 0},   {247, 0, 255, 0},   {248, 0, 256, 4},   {249, 0, 256, 4}, {255, 0, 256, 4},
        {90, 97, 98, 0},    {120, 128, 128, 0}, {120, 127, 128, 2}, {90, 96, 98, 1},  {248, 255, 256, 4},
    };

    counted("TEC after an error", ERROR, errors, COUNT(errors));
}

/* Request b) of document 02: passive by either counter, as it was before, keeps TEC. */
static void send_counter_without_acknowledgement(void)
{
    static const struct count unacknowledged[] = {
        {0, 0, 8, 0},       {1, 0, 9, 0},       {88, 0, 96, 0},     {89, 0, 97, 1},     {97, 0, 105, 0},
        {119, 0, 127, 0},   {120, 0, 128, 2},   {126, 0, 134, 2},   {127, 0, 135, 2},   {128, 0, 128, 0},
        {129, 0, 129, 0},   {135, 0, 135, 0},   {136, 0, 136, 0},   {247, 0, 247, 0},   {248, 0, 248, 0},
        {255, 0, 255, 0},   {90, 96, 98, 1},    {90, 97, 98, 0},    {0, 127, 8, 0},     {0, 128, 0, 0},
        {0, 255, 0, 0},     {88, 128, 88, 0},   {119, 127, 127, 0}, {119, 128, 119, 0}, {120, 127, 128, 2},
        {120, 128, 120, 0}, {127, 127, 135, 2}, {127, 128, 127, 0}, {128, 127, 128, 0}, {128, 128, 128, 0},
        {255, 255, 255, 0},
    };

    counted("TEC without an acknowledgement", UNACKNOWLEDGED, unacknowledged, COUNT(unacknowledged));
}

static void send_counter_falls(void)
{
    static const uint32_t before[] = {1, 2, 97, 128, 255};

    for (size_t i = 0; i < COUNT(before); i++) {
        begin("TEC after a sending", SENDING);
        given({TEC, before[i]});
        answers(outcome(SENT), 3, 0);
        now({SLOT, EMPTY_SLOT}, {TRS, 0}, {TA, BIT(3)}, {TEC, before[i] - 1});
    }
    begin("TEC 0 after a sending", SENDING);
    answers(outcome(SENT), 3, 0);
    now({SLOT, EMPTY_SLOT}, {TRS, 0}, {TA, BIT(3)});
    begin("TEC after a lost arbitration", SENDING);
    given({TEC, 100});
    answers(outcome(ARBITRATION_LOST), 3, 0);
    now({SLOT, EMPTY_SLOT});
}

/* A receive error moves REC, and the condition is over both counters (D40). */
static void one_condition_over_both(void)
{
    begin("REC passes a line that TEC has passed", NORMAL);
    given({TEC, 130}, {REC, 90});
    accept(receive_error(8));
    now({REC, 98});
    given({REC, 127});
    accept(receive_error(1));
    now({REC, 128});
    begin("REC passes passive while TEC is at warning", NORMAL);
    given({TEC, 97}, {REC, 127});
    accept(receive_error(8));
    now({REC, 135}, {GIF, 2});
    begin("REC at 255 is no bus off", NORMAL);
    given({REC, 255});
    accept(receive_error(8));
    reads(GSR, 0x1F003);
}

/* A flag that was cleared comes back only when its condition has gone and come again (D40). */
static void flags_rise_once(void)
{
    begin("warning does not rise twice", NORMAL);
    given({REC, 96});
    accept(receive_error(1));
    now({REC, 97}, {GIF, 1});
    reads(GSR, 0x1F001);
    accept(write_register(GIF, 1));
    now({GIF, 0});
    accept(receive_error(8));
    now({REC, 105});
    accept(receive_error(1));
    now({REC, 106});
    given({REC, 97});
    answers(data_frame(STANDARD(1), 0, 0), NOBODY, 0);
    now({REC, 96});
    reads(GSR, 0x1F000);
    accept(receive_error(1));
    now({REC, 97}, {GIF, 1});
    given({REC, 120});
    accept(receive_error(8));
    now({REC, 128}, {GIF, 3});
    accept(write_register(GIF, 3));
    now({GIF, 0});
    answers(data_frame(STANDARD(1), 0, 0), NOBODY, 0);
    now({REC, 127});
    accept(receive_error(8));
    now({REC, 135}, {GIF, 2}); /* passive again; the warning has lasted */
}

/* Errors take a sender to bus off with the 32nd, and past warning and passive on the way. */
static void errors_to_bus_off(void)
{
    begin("32 errors", SENDING);
    for (uint32_t tries = 1; tries <= 32; tries++) {
        answers(outcome(ERROR), 3, 0);
        now({SLOT, EMPTY_SLOT}, {TEC, 8 * tries});
        if (tries == 13)
            now({GIF, 1}); /* 104 */
        if (tries == 16)
            now({GIF, 3}); /* 128 */
        if (tries == 32)
            break;
        answers(start(), 3, 0);
        now({SLOT, 3});
    }
    now({GIF, 7});
    reads(GSR, 0x1F007);
    accept(start());
    refuse(outcome(ERROR), 7);
}

/* A tool that nobody acknowledges is passive from its 16th try on, and stays so; errors count as ever. */
static void alone_on_the_bus(void)
{
    begin("100 tries without an acknowledgement", SENDING);
    for (uint32_t tries = 1; tries <= 100; tries++) {
        answers(outcome(UNACKNOWLEDGED), 3, 0);
        now({SLOT, EMPTY_SLOT}, {TEC, tries < 16 ? 8 * tries : 128});
        if (tries == 13)
            now({GIF, 1}); /* 104 */
        if (tries == 16)
            now({GIF, 3}); /* 128 */
        answers(start(), 3, 0);
        now({SLOT, 3});
    }
    reads(GSR, 0x3403);
    for (uint32_t errors = 1; errors <= 16; errors++) {
        answers(outcome(ERROR), 3, 0);
        now({SLOT, EMPTY_SLOT}, {TEC, 128 + 8 * errors});
        if (errors == 16)
            break;
        answers(start(), 3, 0);
        now({SLOT, 3});
    }
    now({GIF, 7});
    reads(GSR, 0x1F007);
}

/* One acknowledgement makes it error active again, and the next that is missing counts. */
static void acknowledged_once(void)
{
    begin("sent once, and alone again", SENDING);
    given({TEC, 128}, {TRS, BIT(3) | BIT(8)}, {MC, BIT(3) | BIT(8)});
    answers(outcome(SENT), 3, 0);
    now({SLOT, EMPTY_SLOT}, {TRS, BIT(8)}, {TA, BIT(3)}, {TEC, 127});
    reads(GSR, 0x1F001);
    answers(start(), 8, 0);
    now({SLOT, 8});
    answers(outcome(UNACKNOWLEDGED), 8, 0);
    now({SLOT, EMPTY_SLOT}, {TEC, 135}, {GIF, 2});
    reads(GSR, 0x1F003);
    answers(start(), 8, 0);
    now({SLOT, 8});
    answers(outcome(UNACKNOWLEDGED), 8, 0);
    now({SLOT, EMPTY_SLOT});
}

/* Passive by REC alone; a frame that is heard ends it. */
static void passive_as_receiver(void)
{
    begin("passive by REC, then not", SENDING);
    given({REC, 200});
    answers(outcome(UNACKNOWLEDGED), 3, 0);
    now({SLOT, EMPTY_SLOT});
    answers(data_frame(STANDARD(1), 0, 0), NOBODY, 0);
    now({REC, 127});
    answers(start(), 3, 0);
    now({SLOT, 3});
    answers(outcome(UNACKNOWLEDGED), 3, 0);
    now({SLOT, EMPTY_SLOT}, {TEC, 8});
}

/* ---- bus off and the way back */

static void recovery(void)
{
    begin("recovery", BUS_OFF);
    given({REC, 77}, {TRS, BIT(3)}, {MC, BIT(3) | BIT(4)}, {MD, BIT(4) | BIT(31)}, {GIF, 7});
    for (uint32_t elevens = 1; elevens <= 127; elevens++) {
        accept(recessive());
        now({RECOVERY, elevens});
    }
    reads(GSR, 0x1F007);
    accept(start());
    accept(data_frame(STANDARD(0), 0, 0)); /* 4 would match */
    accept(receive_error(8));
    accept(tick());
    now({TSC, 1});
    accept(recessive());
    now({RECOVERY, 0}, {TEC, 0}, {REC, 0}); /* and GIF and TRS stay (D42, D73) */
    reads(GSR, 0x1F000);
    accept(recessive()); /* they count in bus off only */
    answers(start(), 3, 0);
    now({SLOT, 3});
    accept(recessive());
}

static void elevens_elsewhere(void)
{
    static const enum state elsewhere[] = {FRESH, NORMAL, SENDING, ASLEEP};

    for (size_t i = 0; i < COUNT(elsewhere); i++) {
        begin("eleven recessive bits outside bus off", elsewhere[i]);
        for (int k = 0; k < 130; k++)
            accept(recessive());
    }
    begin("eleven recessive bits at TEC 255", NORMAL);
    given({TEC, 255});
    accept(recessive());
}

void step_sending(void)
{
    start_by_number();
    start_at_each_mailbox();
    who_may_start();
    no_start_off_the_bus();
    start_by_key();
    equal_keys();
    key_of_the_eligible();
    every_mailbox_is_sent_once("31 requests in the order of their keys", 1);
    every_mailbox_is_sent_once("31 requests in the order of their numbers", 0);
    sent();
    for (uint32_t dlc = 0; dlc <= 15; dlc++) {
        sent_with_dlc(0, dlc);
        sent_with_dlc(1, dlc);
    }
    not_sent();
    aborts();
    cancelled_and_asked_again();
    for (int n = 0; n < 31; n++)
        outcomes_of_each_mailbox(n);
    send_counter();
    send_counter_without_acknowledgement();
    send_counter_falls();
    one_condition_over_both();
    flags_rise_once();
    errors_to_bus_off();
    alone_on_the_bus();
    acknowledged_once();
    passive_as_receiver();
    recovery();
    elevens_elsewhere();
}
