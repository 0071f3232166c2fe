/*
 * The eCAN: request g) of document 02, with sections 2.7, 2.8 and 3.2.5 of the guide. What it shares with the CAN-B
 * is shown in the other files; here stands what differs, and that mailbox 31 is like the others.
 */
#include "scenario.h"
#include "step.h"

/* Given: this receive mailbox holds a frame that nobody has released; or it is protected as well. */
static void holding(int n)
{
    given({RMP, word_of(expected, RMP) | BIT(n)});
}

static void guarding(int n)
{
    holding(n);
    given({PROTECTION, word_of(expected, PROTECTION) | BIT(n)});
}

/* ---- the order of the search */

/* From 31 downwards; the count has the enabled receive mailboxes from the top to the match. */
static void the_highest_match(void)
{
    begin_ecan("the highest match", NORMAL);
    receiving(0, STANDARD(0x123));
    receiving(1, STANDARD(0x222));
    receiving(9, STANDARD(0x123));
    receiving(10, STANDARD(0x123));
    enabled(12, STANDARD(0x123)); /* a transmit mailbox, which a data frame passes by */
    receiving(20, STANDARD(0x124));
    given({MAILBOX(30, 0), STANDARD(0x123)}, {MD, word_of(expected, MD) | BIT(30)}); /* disabled */
    receiving(31, STANDARD(0x111));
    answers(data_frame(STANDARD(0x123), 0, 0), 10, 3);
    now_stored(10, STANDARD(0x123));
    answers(data_frame(STANDARD(0x124), 0, 0), 20, 2);
    now_stored(20, STANDARD(0x124));
    answers(data_frame(STANDARD(0x111), 0, 0), 31, 1);
    now_stored(31, STANDARD(0x111));
    answers(data_frame(STANDARD(0x222), 0, 0), 1, 5);
    now_stored(1, STANDARD(0x222));
    answers(data_frame(STANDARD(0x333), 0, 0), NOBODY, 6);
    given({MAILBOX(9, 0), 0}, {MAILBOX(10, 0), 0});
    answers(data_frame(STANDARD(0x123), 0, 0), 0, 6);
    now_stored(0, STANDARD(0x123));
}

static void every_mailbox_can_match(void)
{
    begin_ecan("every mailbox receives", NORMAL);
    for (int n = 0; n < 32; n++)
        receiving(n, EXTENDED(0x700, n));
    for (int n = 0; n < 32; n++) {
        answers(data_frame(EXTENDED(0x700, n), 0, 0), n, 32 - n);
        now_stored(n, EXTENDED(0x700, n));
    }
    answers(data_frame(EXTENDED(0x700, 32), 0, 0), NOBODY, 32);
    begin_ecan("every mailbox has the same identifier", NORMAL);
    for (int n = 0; n < 32; n++)
        receiving(n, EXTENDED(0x700, 1));
    for (int n = 31; n >= 0; n--) {
        answers(data_frame(EXTENDED(0x700, 1), 0, 0), n, 1);
        now_stored(n, EXTENDED(0x700, 1));
        accept(write_register(MC, BIT(n) - 1));
        now({MC, BIT(n) - 1});
    }
    begin_ecan("no mailbox is enabled", NORMAL);
    given({MD, 0xFFFFFFFF});
    answers(data_frame(STANDARD(0), 0, 0), NOBODY, 0);
    answers(remote_frame(STANDARD(0), 0), NOBODY, 0);
}

static void remote_frames_meet_everybody(void)
{
    begin_ecan("remote frames are compared with every enabled mailbox", NORMAL);
    enabled(31, STANDARD(0x111) | RFH);
    receiving(8, STANDARD(0x333));
    enabled(5, STANDARD(0x444) | RFH);
    receiving(4, STANDARD(0x444));
    given({MAILBOX(6, 0), STANDARD(0x444) | RFH}); /* disabled: never replies */
    answers(remote_frame(STANDARD(0x333), 4), 8, 2);
    now_stored(8, STANDARD(0x333));
    now({MAILBOX(8, 1), CONTROL(0, 1, 4)}, {RFP, BIT(8)}, {GIF, 0x80});
    answers(remote_frame(STANDARD(0x444), 0), 5, 3);
    now({TRS, BIT(5)});
    answers(data_frame(STANDARD(0x444), 0, 0), 4, 2);
    now_stored(4, STANDARD(0x444));
    answers(remote_frame(STANDARD(0x111), 0), 31, 1); /* mailbox 31 replies like any other */
    now({TRS, BIT(5) | BIT(31)});
    answers(remote_frame(STANDARD(0x555), 0), NOBODY, 4);
    given({MAILBOX(31, 0), STANDARD(0x333)}); /* RFH 0 ends the search, at the top too */
    answers(remote_frame(STANDARD(0x333), 0), NOBODY, 1);
}

/* ---- masks: each mailbox has its own */

static void free_all_others(int n)
{
    for (int other = 0; other < 32; other++)
        given({MASK(other), other == n ? 0 : 0x9FFFFFFF});
    given({LAM, 0x9FFFFFFF}, {GAM, 0x9FFFFFFF});
}

/* The mailbox differs from the frame in one bit; its own mask frees that one, or all others do. */
static void one_bit_apart(int n, uint32_t ide, int bit)
{
    uint32_t all = ide ? 0x1FFFFFFF : 0x1FFC0000;

    begin_ecan("identifiers that differ in one bit", NORMAL);
    receiving(n, ide | MASKED | RFH | BIT(bit));
    free_all_others(n);
    answers(data_frame(ide, 0, 0), NOBODY, 1);
    given({MASK(n), 0x80000000 | (all & ~BIT(bit))});
    answers(data_frame(ide, 0, 0), NOBODY, 1);
    given({MAILBOX(n, 0), ide | BIT(bit)}, {MASK(n), 0x9FFFFFFF}); /* word 0 has no GAME: no mask at all */
    answers(data_frame(ide, 0, 0), NOBODY, 1);
    given({MAILBOX(n, 0), ide | MASKED | RFH | BIT(bit)}, {MASK(n), BIT(bit)}, {LAM, 0}, {GAM, 0});
    answers(data_frame(ide, 0, 0), n, 1);
    now_stored(n, ide | MASKED | RFH);
}

/* Every bit at some mailboxes, and one bit at each. */
static void each_identifier_bit(void)
{
    static const int tried[] = {0, 13, 31};

    for (size_t i = 0; i < COUNT(tried); i++) {
        for (int bit = 0; bit < 29; bit++)
            one_bit_apart(tried[i], 0x80000000, bit);
        for (int bit = 18; bit < 29; bit++)
            one_bit_apart(tried[i], 0, bit);
    }
    for (int n = 0; n < 32; n++)
        one_bit_apart(n, 0x80000000, (n + 7) % 29);
}

static void ide_freed(int n)
{
    begin_ecan("IDE freed: a standard frame", NORMAL);
    given({MASK(n), 0x80000000});
    receiving(n, EXTENDED(0x123, 0x15555) | MASKED);
    answers(data_frame(STANDARD(0x122), 0, 0), NOBODY, 1);
    answers(data_frame(STANDARD(0x123), 0, 0), n, 1);
    now_stored(n, STANDARD(0x123) | MASKED);
    begin_ecan("IDE not freed", NORMAL);
    given({MASK(n), 0x1FFFFFFF});
    receiving(n, STANDARD(0x7FF) | MASKED);
    answers(data_frame(EXTENDED(0, 0), 0, 0), NOBODY, 1);
    answers(data_frame(STANDARD(0), 0, 0), n, 1);
    now_stored(n, STANDARD(0) | MASKED);
}

/* A transmit mailbox facing a remote frame is under its own mask too. */
static void masks_of_transmit_mailboxes(void)
{
    begin_ecan("a reply under the mailbox's own mask", NORMAL);
    given({MASK(6), 0x001C0000}, {GAM, 0x9FFFFFFF}, {LAM, 0x9FFFFFFF});
    enabled(6, STANDARD(0x200) | MASKED | RFH);
    enabled(31, STANDARD(0x300) | MASKED | RFH);
    answers(remote_frame(STANDARD(0x203), 5), 6, 2);
    now({TRS, BIT(6)});
    answers(remote_frame(STANDARD(0x208), 0), NOBODY, 2);
    given({MASK(31), 0x1FFC0000});
    answers(remote_frame(STANDARD(0x208), 0), 31, 1);
    now({TRS, BIT(6) | BIT(31)});
}

/* ---- protection */

/*
 * The guide's 3.2.5: mailboxes 5, 4 and 3 take the same frames, 5 and 4 are protected. The frames fill 5, 4 and 3,
 * the next one overwrites 3 alone, and only its RML rises.
 */
static void overload_of_the_guide(void)
{
    begin_ecan("the guide's overload", NORMAL);
    for (int n = 3; n <= 5; n++)
        receiving(n, STANDARD(0x718));
    accept(write_register(PROTECTION, BIT(5) | BIT(4)));
    now({PROTECTION, BIT(5) | BIT(4)});
    for (int n = 5; n >= 3; n--) {
        answers(data_frame(STANDARD(0x718), 1, (uint64_t)n), n, 6 - n);
        now_stored(n, STANDARD(0x718));
        now({MAILBOX(n, 1), 1}, {MAILBOX(n, 2), (uint32_t)n});
    }
    answers(data_frame(STANDARD(0x718), 1, 0x77), 3, 3);
    now({MAILBOX(3, 2), 0x77}, {RML, BIT(3)}, {GIF, 0x20});
    accept(write_register(RMP, BIT(4))); /* the firmware has read 4: the next frame goes there */
    now({RMP, BIT(5) | BIT(3)});
    answers(data_frame(STANDARD(0x718), 1, 0x78), 4, 2);
    now({MAILBOX(4, 2), 0x78}, {RMP, BIT(5) | BIT(4) | BIT(3)});
}

/* All three protected: the frame is heard, counted, and goes nowhere; no flag tells of it. */
static void passed_over_by_all(void)
{
    begin_ecan("passed over by all", NORMAL);
    for (int n = 3; n <= 5; n++) {
        receiving(n, STANDARD(0x718));
        guarding(n);
        given({MAILBOX(n, 1), CONTROL(7, 0, 2)}, {MAILBOX(n, 2), 0x1122});
    }
    given({REC, 200}, {TSC, 99}, {MBIM, 0xFFFFFFFF});
    answers(data_frame(STANDARD(0x718), 8, 0x8877665544332211), NOBODY, 3);
    now({REC, 127}); /* it was heard */
    answers(remote_frame(STANDARD(0x718), 8), NOBODY, 3);
    now({REC, 126});
    answers(data_frame(STANDARD(0x719), 0, 0), NOBODY, 3); /* an ordinary miss has the same answer */
    now({REC, 125});
    accept(write_register(PROTECTION, BIT(5) | BIT(3)));
    now({PROTECTION, BIT(5) | BIT(3)});
    answers(remote_frame(STANDARD(0x718), 8), 4, 2);
    now({MAILBOX(4, 1), CONTROL(99, 1, 8)}, {RFP, BIT(4)}, {RML, BIT(4)}, {MBRIF, BIT(4)}, {GIF, 0xA0}, {REC, 124});
}

/* Each condition alone does not pass a frame over: protection, RMP, a match, and that the mailbox receives. */
static void who_is_not_passed_over(void)
{
    begin_ecan("protected, but empty", NORMAL);
    receiving(9, STANDARD(1));
    given({PROTECTION, 0xFFFFFFFF}, {RMP, ~BIT(9)});
    answers(data_frame(STANDARD(1), 0, 0), 9, 1);
    now_stored(9, STANDARD(1));

    begin_ecan("held, but not protected", NORMAL);
    receiving(9, STANDARD(1));
    given({PROTECTION, ~BIT(9)}, {RMP, 0xFFFFFFFF});
    answers(data_frame(STANDARD(1), 0, 0), 9, 1);
    now({RML, BIT(9)}, {GIF, 0x20});

    begin_ecan("a transmit mailbox is never passed over", NORMAL);
    enabled(9, STANDARD(1) | RFH);
    receiving(8, STANDARD(1));
    guarding(9);
    answers(remote_frame(STANDARD(1), 0), 9, 1);
    now({TRS, BIT(9)});
    given({MAILBOX(9, 0), STANDARD(1)}); /* RFH 0 */
    answers(remote_frame(STANDARD(1), 0), NOBODY, 1);
}

/* Whom a frame meets behind a mailbox that passed it over. */
static void behind_one_that_passed_over(void)
{
    begin_ecan("then a miss, then a match", NORMAL);
    receiving(31, STANDARD(1));
    receiving(20, STANDARD(2));
    receiving(0, STANDARD(1));
    guarding(31);
    guarding(20);
    answers(data_frame(STANDARD(1), 0, 0), 0, 3);
    now_stored(0, STANDARD(1));

    begin_ecan("then a transmit mailbox that replies", NORMAL);
    receiving(31, STANDARD(1));
    guarding(31);
    enabled(20, STANDARD(1) | RFH);
    answers(data_frame(STANDARD(1), 0, 0), NOBODY, 1);
    answers(remote_frame(STANDARD(1), 0), 20, 2);
    now({TRS, BIT(20)});

    begin_ecan("then a transmit mailbox that keeps silent", NORMAL);
    receiving(31, STANDARD(1));
    guarding(31);
    enabled(20, STANDARD(1));
    receiving(0, STANDARD(1));
    answers(remote_frame(STANDARD(1), 0), NOBODY, 2);
}

/* One protected mailbox that matches under its mask, at each number. */
static void passed_over_at_each_mailbox(int n)
{
    begin_ecan("passed over at each mailbox", NORMAL);
    given({MASK(n), 0x9FFFFFFF});
    receiving(n, STANDARD(0x7FF) | MASKED);
    guarding(n);
    answers(data_frame(EXTENDED(0x123, 9), 2, 0x2211), NOBODY, 1);
    answers(remote_frame(STANDARD(0x100), 2), NOBODY, 1);
    accept(write_register(RMP, BIT(n)));
    now({RMP, 0});
    answers(data_frame(EXTENDED(0x123, 9), 0, 0), n, 1);
    now_stored(n, EXTENDED(0x123, 9) | MASKED);
    answers(data_frame(EXTENDED(0x123, 9), 0, 0), NOBODY, 1);
}

/* RML that stands already stays up, and GIF bit 5 that was cleared stays down. */
static void a_lost_flag_stays(void)
{
    begin_ecan("RML of a mailbox that passes over", NORMAL);
    receiving(7, STANDARD(1));
    guarding(7);
    given({RML, BIT(7)}, {RFP, BIT(7)});
    answers(data_frame(STANDARD(1), 0, 0), NOBODY, 1);
    answers(remote_frame(STANDARD(1), 0), NOBODY, 1);
}

/* ---- registers 64 to 96, LAM and GAM */

/* They take the value in every mode but sleep, whatever is enabled or being sent. */
static void masks_and_protection_are_written(enum state state)
{
    begin_ecan("masks and protection are written", state);
    given({MC, 0xFFFFFFFF}, {RMP, 0xFFFFFFFF});
    for (int n = 0; n < 32; n++) {
        accept(write_register(MASK(n), 0x9FFFFFFF));
        now({MASK(n), 0x9FFFFFFF});
        accept(write_register(MASK(n), BIT(n) & ~MASK_SPARE));
        now({MASK(n), BIT(n) & ~MASK_SPARE});
        accept(write_register(PROTECTION, BIT(n)));
        now({PROTECTION, BIT(n)});
    }
    accept(write_register(PROTECTION, 0xFFFFFFFF));
    now({PROTECTION, 0xFFFFFFFF});
    accept(write_register(PROTECTION, 0));
    now({PROTECTION, 0});
}

static void each_bit_of_each_mask(void)
{
    begin_ecan("each bit of each mask", NORMAL);
    for (int n = 0; n < 32; n++) {
        for (int bit = 0; bit < 32; bit++) {
            if (BIT(bit) & MASK_SPARE) {
                refuse(write_register(MASK(n), BIT(bit)), 4);
                refuse(write_register(MASK(n), 0x9FFFFFFF | BIT(bit)), 4);
            } else {
                accept(write_register(MASK(n), BIT(bit)));
                now({MASK(n), BIT(bit)});
            }
        }
        accept(write_register(MASK(n), 0));
        now({MASK(n), 0});
    }
}

static void refusals_of_these_writes(void)
{
    begin_ecan("no such register", NORMAL);
    for (int number = 20; number <= 255; number++)
        if (number < FROSTSORREL_MASK_0 || number > FROSTSORREL_PROTECTION)
            refuse(plain_event(FROSTSORREL_WRITE_REGISTER, number, 0, 0), 2);
    refuse(with_byte(plain_event(FROSTSORREL_WRITE_REGISTER, 97, 0, 1), 15, 1), 2);

    begin_ecan("asleep", ASLEEP);
    for (int word = MASKS; word <= PROTECTION; word++) {
        refuse(write_register(word, 0), 3);
        refuse(write_register(word, MASK_SPARE), 3); /* and 4 */
        refuse(with_byte(write_register(word, 0), 2, 1), 3);
    }
    refuse(write_register(LAM, 0), 3); /* and 6 */
    refuse(write_register(GAM, MASK_SPARE), 3); /* and 4 and 6 */
    refuse(plain_event(FROSTSORREL_WRITE_REGISTER, 97, 0, 0), 2);

    begin_ecan("unused bytes", NORMAL);
    for (int i = 2; i < EVENT_BYTES; i++) {
        if (i >= 4 && i < 8)
            continue;
        refuse(with_byte(write_register(MASK(0), 0), i, 1), 4);
        refuse(with_byte(write_register(PROTECTION, 0), i, 0x80), 4);
    }

    begin_ecan("LAM and GAM", FRESH);
    for (int word = LAM; word <= GAM; word++) {
        refuse(write_register(word, 0), 6);
        refuse(write_register(word, 0x9FFFFFFF), 6);
        refuse(write_register(word, BIT(29)), 4); /* and 6 */
        refuse(write_register(word, BIT(30)), 4);
        refuse(with_byte(write_register(word, 0), 3, 1), 4);
    }
}

/* What one profile does not write, both read; GSR is the CAN-B's alone. */
static void reading(void)
{
    begin_ecan("reading an eCAN", NORMAL);
    given({LAM, 0x80000001}, {GAM, 0x80000002}, {PROTECTION, 0xDEADBEEF});
    for (int n = 0; n < 32; n++)
        given({MASK(n), 0x80000100u + (uint32_t)n});
    reads(FROSTSORREL_LAM, 0x80000001);
    reads(FROSTSORREL_GAM, 0x80000002);
    for (uint32_t n = 0; n < 32; n++)
        reads(FROSTSORREL_MASK_0 + n, 0x80000100u + n);
    reads(FROSTSORREL_PROTECTION, 0xDEADBEEF);
    cannot_read(GSR);
    cannot_read(63);
    cannot_read(97);
    given({MODE, SLEEP});
    cannot_read(GSR);
    cannot_read(97);
    reads(FROSTSORREL_MASK_0, 0);
    reads(FROSTSORREL_MASK_31, 0);
    reads(FROSTSORREL_PROTECTION, 0);
    reads(FROSTSORREL_GAM, 0);

    begin("reading a CAN-B", NORMAL);
    given({MASK(0), 0x80000100}, {MASK(31), 5}, {PROTECTION, 0xDEADBEEF});
    reads(FROSTSORREL_MASK_0, 0x80000100);
    reads(FROSTSORREL_MASK_31, 5);
    reads(FROSTSORREL_PROTECTION, 0xDEADBEEF);
    reads(GSR, 0x1F000);
    cannot_read(63);
    cannot_read(97);
    given({MODE, SLEEP});
    reads(FROSTSORREL_PROTECTION, 0);
    reads(GSR, 0x1F040);
}

/* ---- mailbox 31 is like the others */

static void direction_of_31(void)
{
    begin_ecan("MD bit 31", NORMAL);
    accept(write_register(MD, 0x80000000));
    now({MD, 0x80000000});
    accept(write_register(MD, 0x7FFFFFFF));
    now({MD, 0x7FFFFFFF});
    accept(write_register(MD, 0));
    now({MD, 0});
    given({MC, BIT(31)});
    refuse(write_register(MD, BIT(31)), 6);
    refuse(write_register(MD, 0xFFFFFFFF), 6);
    accept(write_register(MD, 0x7FFFFFFF));
    now({MD, 0x7FFFFFFF});
    given({TRS, BIT(31)});
    refuse(write_register(MD, 0xFFFFFFFF), 5);
    refuse(write_register(MC, 0), 5);
    refuse(write_register(MC, 0x7FFFFFFF), 5);
    accept(write_register(MC, BIT(31)));
    begin_ecan("MD bit 31 of a mailbox that receives", NORMAL);
    given({MC, BIT(31)}, {MD, BIT(31)});
    refuse(write_register(MD, 0), 6);
    accept(write_register(MC, 0));
    now({MC, 0});
    accept(write_register(MD, 0));
    now({MD, 0});
}

static void requests_of_31(void)
{
    begin_ecan("TRS, TRR and CDR bit 31", NORMAL);
    accept(write_register(CDR, 0xFFFFFFFF));
    now({CDR, 0xFFFFFFFF});
    accept(write_register(TRS, BIT(31)));
    now({TRS, BIT(31)});
    accept(start()); /* disabled, and held back */
    given({MC, BIT(31)});
    accept(start()); /* held back */
    accept(write_mailbox(31, 2, 0x55)); /* CDR: not busy, and it transmits with RFH 0: not locked */
    now({MAILBOX(31, 2), 0x55});
    accept(write_register(CDR, 0x7FFFFFFF));
    now({CDR, 0x7FFFFFFF});
    refuse(write_mailbox(31, 2, 0x66), 5);
    accept(write_register(TRR, BIT(31)));
    now({TRS, 0}, {AA, BIT(31)}, {GIF, 0x10});
    accept(write_register(AA, BIT(31)));
    now({AA, 0});
    given({MD, BIT(31)}, {MC, 0});
    accept(write_register(TRS, 0xFFFFFFFF)); /* not where 31 receives */
    now({TRS, 0x7FFFFFFF});
}

static void locked_words_of_31(void)
{
    begin_ecan("words of mailbox 31", NORMAL);
    enabled(31, STANDARD(5) | RFH);
    refuse(write_mailbox(31, 0, 0), 6);
    refuse(write_mailbox(31, 2, 0), 6);
    accept(write_register(CDR, BIT(31)));
    now({CDR, BIT(31)});
    accept(write_mailbox(31, 3, 7));
    now({MAILBOX(31, 3), 7});
    given({MD, BIT(31)});
    refuse(write_mailbox(31, 3, 8), 6);
}

/* It goes into the slot, is busy there, and comes out in each way. */
static void sending_31(void)
{
    begin_ecan("mailbox 31 is sent", NORMAL);
    given({TEC, 20}, {TSC, 0x4711}, {MBIM, BIT(31)}, {MAILBOX(31, 1), CONTROL(1, 0, 3)});
    enabled(31, STANDARD(0x100));
    receiving(4, STANDARD(0x100));
    accept(write_register(TRS, BIT(31)));
    now({TRS, BIT(31)});
    answers(start(), 31, 0);
    now({SLOT, 31});
    refuse(start(), 5);
    refuse(data_frame(STANDARD(0x100), 0, 0), 5);
    for (int k = 0; k < 4; k++)
        refuse(write_mailbox(31, k, 0), 5);
    accept(write_mailbox(30, 2, 9));
    now({MAILBOX(30, 2), 9});
    answers(outcome(ARBITRATION_LOST), 31, 0);
    now({SLOT, EMPTY_SLOT});
    answers(start(), 31, 0);
    now({SLOT, 31});
    answers(outcome(ERROR), 31, 0);
    now({SLOT, EMPTY_SLOT}, {TEC, 28});
    answers(start(), 31, 0);
    now({SLOT, 31});
    accept(write_register(TRR, BIT(31))); /* in the slot: it ends with the sending */
    now({TRR, BIT(31)});
    answers(outcome(UNACKNOWLEDGED), 31, 0);
    now({SLOT, EMPTY_SLOT}, {TRS, 0}, {TRR, 0}, {AA, BIT(31)}, {GIF, 0x10}, {TEC, 36});
    accept(write_register(TRS, BIT(31)));
    now({TRS, BIT(31)});
    answers(start(), 31, 0);
    now({SLOT, 31});
    accept(mode(SUSPEND)); /* waits for the sending */
    now({WAITING, SUSPEND});
    answers(outcome(SENT), 31, 0);
    now({SLOT, EMPTY_SLOT}, {TRS, 0}, {TA, BIT(31)}, {MBTIF, BIT(31)}, {TEC, 35}, {WAITING, NO_MODE}, {MODE, SUSPEND},
        {MAILBOX(31, 1), CONTROL(0x4711, 0, 3)});
    accept(write_register(TA, BIT(31)));
    now({TA, 0});
    accept(write_register(MBTIF, BIT(31)));
    now({MBTIF, 0});
    refuse(outcome(SENT), 7);
}

/* 32 requests whose keys fall as their numbers rise. Sending keeps its order: by number from 0 up, by key from 31 down. */
static void every_mailbox_is_sent_once(uint32_t mtos)
{
    uint32_t left = 0xFFFFFFFF;

    begin_ecan(mtos ? "32 requests in the order of their keys" : "32 requests in the order of their numbers", NORMAL);
    given({OPTIONS, mtos}, {TRS, left});
    for (int n = 0; n < 32; n++)
        enabled(n, STANDARD(0x400 - n));
    for (int i = 0; i < 32; i++) {
        int n = mtos ? 31 - i : i;

        answers(start(), n, 0);
        now({SLOT, n});
        answers(outcome(SENT), n, 0);
        left &= ~BIT(n);
        now({SLOT, EMPTY_SLOT}, {TRS, left}, {TA, ~left});
    }
    accept(start());
    refuse(outcome(SENT), 7);
}

/* An empty slot is nobody's: neither mailbox 0 nor 31 is busy by it. */
static void an_empty_slot(void)
{
    begin_ecan("an empty slot", NORMAL);
    accept(write_mailbox(0, 2, 1));
    now({MAILBOX(0, 2), 1});
    accept(write_mailbox(31, 2, 1));
    now({MAILBOX(31, 2), 1});
    given({TRS, BIT(0) | BIT(31)});
    accept(write_register(TRR, BIT(0) | BIT(31))); /* neither is in the slot: both end at once */
    now({TRS, 0}, {AA, BIT(0) | BIT(31)}, {GIF, 0x10});
}

/* ---- reset, sleep, and images of before */

/* The words are fresh, but for the profile; masks and protection are 0, and mailbox 31 transmits. */
static void resets(void)
{
    static const enum state before[] = {FRESH, NORMAL, SENDING, BUS_OFF, ASLEEP};

    for (size_t i = 0; i < COUNT(before); i++) {
        begin_ecan("reset of an eCAN", before[i]);
        given({MD, 0x80000000}, {RMP, 0xFFFFFFFF}, {CDR, 0x80000000}, {LAM, 1}, {GAM, 2}, {PROTECTION, 0xFFFFFFFF});
        for (int n = 0; n < 32; n++)
            given({MASK(n), 0x9FFFFFFF}, {MAILBOX(n, 0), EXTENDED(n, n) | MASKED});
        accept(reset());
        for (int word = MC; word < PROFILE; word++)
            now({word, 0});
        now({MODE, CONFIGURATION}, {WAITING, NO_MODE}, {SLOT, EMPTY_SLOT}); /* PROFILE and mailboxes stay */
        cannot_read(GSR);
        accept(reset());
        accept(write_register(PROTECTION, 1)); /* an eCAN still */
        now({PROTECTION, 1});
    }
}

/* Sleep keeps masks and protection, and what is held. */
static void sleep_keeps_the_protection(void)
{
    begin_ecan("sleep", NORMAL);
    receiving(2, STANDARD(1));
    guarding(2);
    given({MASK(2), 0x80000000}, {TRS, BIT(31)}, {OPTIONS, FROSTSORREL_WUBA});
    accept(mode(SLEEP));
    now({MODE, SLEEP}, {TRS, 0});
    accept(data_frame(STANDARD(1), 0, 0)); /* it wakes the model, and is not heard */
    now({MODE, NORMAL_MODE}, {GIF, 0x40});
    answers(data_frame(STANDARD(1), 0, 0), NOBODY, 1);
}

/* Not heard: no search, no count. */
static void not_heard(void)
{
    static const enum state deaf[] = {FRESH, BUS_OFF, ASLEEP};

    for (size_t i = 0; i < COUNT(deaf); i++) {
        begin_ecan("not heard", deaf[i]);
        receiving(2, STANDARD(1));
        guarding(2);
        receiving(1, STANDARD(1));
        accept(data_frame(STANDARD(1), 0, 0));
        accept(remote_frame(STANDARD(1), 0));
    }
}

/* 640 bytes, an empty slot written as 31: what was good before there were profiles is refused, and stays. */
static void an_old_image(void)
{
    uint8_t old[BYTES], before[BYTES];
    struct event e = tick();
    uint64_t answer;

    put_fresh(old);
    put(old, SLOT, 31);
    memcpy(before, old, BYTES);
    answer = frostsorrel_step(old, 640, e.bytes, EVENT_BYTES);
    check(answer == 8193, "an old image: a tick gets %llu", (unsigned long long)answer);
    answer = frostsorrel_step(old, BYTES, e.bytes, EVENT_BYTES); /* nor with zeros behind it */
    check(answer == 8193, "an old image made longer: a tick gets %llu", (unsigned long long)answer);
    check(memcmp(old, before, BYTES) == 0, "an old image: bytes moved");
    answer = frostsorrel_read(old, 640, FROSTSORREL_MC);
    check(answer == (uint64_t)1 << 32, "an old image: a read gets %llu", (unsigned long long)answer);
}

void step_ecan(void)
{
    the_highest_match();
    every_mailbox_can_match();
    remote_frames_meet_everybody();
    each_identifier_bit();
    ide_freed(0);
    ide_freed(17);
    ide_freed(31);
    masks_of_transmit_mailboxes();
    overload_of_the_guide();
    passed_over_by_all();
    who_is_not_passed_over();
    behind_one_that_passed_over();
    for (int n = 0; n < 32; n++)
        passed_over_at_each_mailbox(n);
    a_lost_flag_stays();
    masks_and_protection_are_written(FRESH);
    masks_and_protection_are_written(NORMAL);
    masks_and_protection_are_written(SENDING);
    masks_and_protection_are_written(BUS_OFF);
    each_bit_of_each_mask();
    refusals_of_these_writes();
    reading();
    direction_of_31();
    requests_of_31();
    locked_words_of_31();
    sending_31();
    every_mailbox_is_sent_once(0);
    every_mailbox_is_sent_once(1);
    an_empty_slot();
    resets();
    sleep_keeps_the_protection();
    not_heard();
    an_old_image();
}
