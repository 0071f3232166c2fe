/* Filtering, storing, remote frames, what is heard: section "Receiving" of document 01. */
#include "scenario.h"
#include "step.h"

/* ---- who is compared, and who matches */

static void nobody_is_compared(void)
{
    begin("no mailbox is enabled", NORMAL);
    given({MD, 0xFFFFFFFF});
    for (int n = 0; n < 32; n++)
        given({MAILBOX(n, 0), STANDARD(0x123)});
    answers(data_frame(STANDARD(0x123), 0, 0), NOBODY, 0);
    answers(remote_frame(STANDARD(0x123), 0), NOBODY, 0);
    begin("only transmit mailboxes are enabled", NORMAL);
    for (int n = 0; n < 31; n++)
        enabled(n, STANDARD(0x123));
    answers(data_frame(STANDARD(0x123), 0, 0), NOBODY, 0);
}

/* From 0 upwards, 31 last; the count has the enabled receive mailboxes up to the match. */
static void the_first_match(void)
{
    begin("the first match", NORMAL);
    given({MAILBOX(0, 0), STANDARD(0x123)}); /* disabled */
    receiving(1, STANDARD(0x111));
    enabled(2, STANDARD(0x123)); /* a transmit mailbox, which a data frame passes by */
    receiving(4, STANDARD(0x124));
    receiving(9, STANDARD(0x123));
    receiving(10, STANDARD(0x123));
    receiving(30, STANDARD(0x222));
    receiving(31, STANDARD(0x123));
    answers(data_frame(STANDARD(0x123), 0, 0), 9, 3);
    now_stored(9, STANDARD(0x123));
    answers(data_frame(STANDARD(0x124), 0, 0), 4, 2);
    now_stored(4, STANDARD(0x124));
    answers(data_frame(STANDARD(0x111), 0, 0), 1, 1);
    now_stored(1, STANDARD(0x111));
    answers(data_frame(STANDARD(0x222), 0, 0), 30, 5);
    now_stored(30, STANDARD(0x222));
    answers(data_frame(STANDARD(0x333), 0, 0), NOBODY, 6);
    answers(data_frame(EXTENDED(0x123, 0), 0, 0), NOBODY, 6);
    given({MAILBOX(9, 0), 0}, {MAILBOX(10, 0), 0});
    answers(data_frame(STANDARD(0x123), 0, 0), 31, 6);
    now_stored(31, STANDARD(0x123));
}

static void every_mailbox_can_match(void)
{
    begin("every mailbox receives", NORMAL);
    for (int n = 0; n < 32; n++)
        receiving(n, EXTENDED(0x700, n));
    for (int n = 31; n >= 0; n--) {
        answers(data_frame(EXTENDED(0x700, n), 0, 0), n, n + 1);
        now_stored(n, EXTENDED(0x700, n));
    }
    answers(data_frame(EXTENDED(0x700, 32), 0, 0), NOBODY, 32);
    begin("every mailbox has the same identifier", NORMAL);
    for (int n = 0; n < 32; n++)
        receiving(n, EXTENDED(0x700, 1));
    for (int n = 0; n < 32; n++) {
        answers(data_frame(EXTENDED(0x700, 1), 0, 0), n, 1);
        now_stored(n, EXTENDED(0x700, 1));
        accept(write_register(MC, 0xFFFFFFFFu << n << 1));
        now({MC, 0xFFFFFFFFu << n << 1});
    }
}

/* IDE is compared, and a standard frame by 11 bits, an extended one by 29. */
static void formats(void)
{
    begin("formats", NORMAL);
    receiving(5, STANDARD(0x123));
    receiving(6, EXTENDED(0x123, 0));
    receiving(7, EXTENDED(0x123, 1));
    answers(data_frame(STANDARD(0x123), 0, 0), 5, 1);
    now_stored(5, STANDARD(0x123));
    answers(data_frame(EXTENDED(0x123, 0), 0, 0), 6, 2);
    now_stored(6, EXTENDED(0x123, 0));
    answers(data_frame(EXTENDED(0x123, 1), 0, 0), 7, 3);
    now_stored(7, EXTENDED(0x123, 1));
    answers(data_frame(EXTENDED(0x123, 0x20000), 0, 0), NOBODY, 3);
    answers(data_frame(STANDARD(0x122), 0, 0), NOBODY, 3);
}

/* The mailbox differs from the frame in one bit; a mask frees that one, or all others. */
static void one_bit_apart(int n, uint32_t ide, int bit)
{
    int mask = n == 31 ? LAM : GAM, other_mask = n == 31 ? GAM : LAM;
    uint32_t all = ide ? 0x1FFFFFFF : 0x1FFC0000;

    begin("identifiers that differ in one bit", NORMAL);
    receiving(n, ide | MASKED | RFH | BIT(bit));
    answers(data_frame(ide, 0, 0), NOBODY, 1);
    given({other_mask, 0x9FFFFFFF}); /* the mask of other mailboxes */
    answers(data_frame(ide, 0, 0), NOBODY, 1);
    given({mask, 0x80000000 | (all & ~BIT(bit))});
    answers(data_frame(ide, 0, 0), NOBODY, 1);
    given({MAILBOX(n, 0), ide | BIT(bit)}); /* GAME/LAME clear: no mask at all */
    given({mask, 0x9FFFFFFF});
    answers(data_frame(ide, 0, 0), NOBODY, 1);
    given({MAILBOX(n, 0), ide | MASKED | RFH | BIT(bit)}, {mask, BIT(bit)});
    answers(data_frame(ide, 0, 0), n, 1);
    now_stored(n, ide | MASKED | RFH);
    answers(data_frame(ide | BIT(bit), 0, 0), n, 1);
    now_stored(n, ide | MASKED | RFH | BIT(bit));
    now({RML, BIT(n)}, {GIF, 0x20});
}

static void each_identifier_bit(void)
{
    static const int tried[] = {0, 13, 30, 31};

    for (size_t i = 0; i < COUNT(tried); i++) {
        for (int bit = 0; bit < 29; bit++)
            one_bit_apart(tried[i], 0x80000000, bit);
        for (int bit = 18; bit < 29; bit++)
            one_bit_apart(tried[i], 0, bit);
    }
}

/* Bit 31 of the mask frees IDE; the frame's own format still says how many bits count (D31). */
static void ide_freed(int n, int mask)
{
    begin("IDE freed: a standard frame", NORMAL);
    given({mask, 0x80000000});
    receiving(n, EXTENDED(0x123, 0x15555) | MASKED);
    answers(data_frame(STANDARD(0x122), 0, 0), NOBODY, 1);
    answers(data_frame(STANDARD(0x123), 0, 0), n, 1);
    now_stored(n, STANDARD(0x123) | MASKED); /* the old bits 17 to 0 go */

    begin("IDE freed: an extended frame", NORMAL);
    given({mask, 0x80000000});
    receiving(n, STANDARD(0x123) | MASKED);
    answers(data_frame(EXTENDED(0x123, 1), 0, 0), NOBODY, 1);
    answers(data_frame(EXTENDED(0x123, 0), 0, 0), n, 1);
    now_stored(n, EXTENDED(0x123, 0) | MASKED);

    begin("all bits freed but IDE", NORMAL);
    given({mask, 0x1FFFFFFF});
    receiving(n, STANDARD(0x7FF) | MASKED);
    answers(data_frame(EXTENDED(0, 0), 0, 0), NOBODY, 1);
    answers(data_frame(STANDARD(0), 0, 0), n, 1);
    now_stored(n, STANDARD(0) | MASKED);

    begin("all bits freed", NORMAL);
    given({mask, 0x9FFFFFFF});
    receiving(n, STANDARD(0) | MASKED);
    answers(data_frame(EXTENDED(0x7FF, 0x3FFFF), 0, 0), n, 1);
    now_stored(n, EXTENDED(0x7FF, 0x3FFFF) | MASKED);
    begin("all bits freed, GAME/LAME clear", NORMAL);
    given({mask, 0x9FFFFFFF});
    receiving(n, STANDARD(0));
    answers(data_frame(EXTENDED(0, 0), 0, 0), NOBODY, 1);
    answers(data_frame(STANDARD(1), 0, 0), NOBODY, 1);
}

/* A CAN-B has neither masks of its mailboxes nor a protection, whatever stands in those words. */
static void masks_of_the_other_maker(void)
{
    begin("masks and protection in a CAN-B", NORMAL);
    for (int n = 0; n < 32; n++)
        given({MASK(n), 0x9FFFFFFF});
    given({PROTECTION, 0xFFFFFFFF});
    receiving(3, STANDARD(0x123) | MASKED);
    receiving(5, STANDARD(0x123));
    receiving(31, STANDARD(0x123) | MASKED);
    answers(data_frame(STANDARD(0x122), 0, 0), NOBODY, 3);
    answers(data_frame(STANDARD(0x123), 0, 0), 3, 1);
    now_stored(3, STANDARD(0x123) | MASKED);
    answers(data_frame(STANDARD(0x123), 1, 0x55), 3, 1);
    now({MAILBOX(3, 1), 1}, {MAILBOX(3, 2), 0x55}, {RML, BIT(3)}, {GIF, 0x20});
    answers(remote_frame(STANDARD(0x123), 0), 3, 1);
    now({MAILBOX(3, 1), CONTROL(0, 1, 0)}, {RFP, BIT(3)}, {GIF, 0xA0});
}

/* ---- remote frames (manual 3.3.4, 4.2.25, 5.3) */

static void remote_frames_meet_everybody(void)
{
    begin("remote frames are compared with every enabled mailbox", NORMAL);
    enabled(1, STANDARD(0x111) | RFH);
    receiving(3, STANDARD(0x333));
    enabled(4, STANDARD(0x444) | RFH);
    receiving(5, STANDARD(0x444));
    given({MAILBOX(0, 0), STANDARD(0x444) | RFH}); /* disabled: never replies */
    answers(remote_frame(STANDARD(0x333), 4), 3, 2);
    now_stored(3, STANDARD(0x333));
    now({MAILBOX(3, 1), CONTROL(0, 1, 4)}, {RFP, BIT(3)}, {GIF, 0x80});
    answers(remote_frame(STANDARD(0x444), 0), 4, 3);
    now({TRS, BIT(4)});
    answers(data_frame(STANDARD(0x444), 0, 0), 5, 2); /* a data frame passes 1 and 4 by */
    now_stored(5, STANDARD(0x444));
    answers(remote_frame(STANDARD(0x555), 0), NOBODY, 4);
    answers(remote_frame(EXTENDED(0x111, 0), 0), NOBODY, 4);
}

/* Every mailbox alone, in both directions; CDR, TRS and the flags of others are no hindrance. */
static void remote_frame_at_each_mailbox(int n)
{
    begin("a remote frame at each receive mailbox", NORMAL);
    receiving(n, EXTENDED(0x5A5, 0x2A2A2));
    given({CDR, 0x7FFFFFFF}, {TA, 0x7FFFFFFF}, {AA, 0x7FFFFFFF}, {MBTIF, 0x7FFFFFFF});
    given({TRS, 0x7FFFFFFF & ~BIT(n)});
    answers(remote_frame(EXTENDED(0x5A5, 0x2A2A2), 1), n, 1);
    now_stored(n, EXTENDED(0x5A5, 0x2A2A2));
    now({MAILBOX(n, 1), CONTROL(0, 1, 1)}, {RFP, BIT(n)}, {GIF, 0x80});
    if (n == 31)
        return;
    begin("a remote frame at each transmit mailbox", NORMAL);
    enabled(n, EXTENDED(0x5A5, 0x2A2A2) | RFH);
    given({CDR, 0x7FFFFFFF}, {TA, 0x7FFFFFFF}, {AA, 0x7FFFFFFF}, {MBTIF, 0x7FFFFFFF});
    given({RMP, 0xFFFFFFFF}, {RML, 0xFFFFFFFF}, {RFP, 0xFFFFFFFF}, {MBRIF, 0xFFFFFFFF});
    answers(remote_frame(EXTENDED(0x5A5, 0x2A2A2), 1), n, 1);
    now({TRS, BIT(n)});
    answers(remote_frame(EXTENDED(0x5A5, 0x2A2A3), 1), NOBODY, 1);
}

/* RFH 0: the search ends there all the same, and the frame goes nowhere. */
static void remote_frame_stopped(void)
{
    begin("a remote frame at a transmit mailbox with RFH 0", NORMAL);
    given({REC, 5});
    enabled(2, STANDARD(0x100));
    receiving(7, STANDARD(0x100));
    enabled(8, STANDARD(0x100) | RFH);
    receiving(31, STANDARD(0x100));
    answers(remote_frame(STANDARD(0x100), 8), NOBODY, 1);
    now({REC, 4}); /* it was heard */
    given({MAILBOX(2, 0), STANDARD(0x101)});
    answers(remote_frame(STANDARD(0x100), 8), 7, 2);
    now_stored(7, STANDARD(0x100));
    now({MAILBOX(7, 1), CONTROL(0, 1, 8)}, {RFP, BIT(7)}, {GIF, 0x80}, {REC, 3});
    given({MAILBOX(7, 0), STANDARD(0x101)});
    answers(remote_frame(STANDARD(0x100), 8), 8, 3);
    now({TRS, BIT(8)}, {REC, 2});
    answers(data_frame(STANDARD(0x100), 0, 0), 31, 2);
    now_stored(31, STANDARD(0x100));
    now({REC, 1});
}

/* RFH 1: TRS and nothing else; not GIF bit 7, no time stamp, no byte of the mailbox (D32, D62). */
static void automatic_reply(void)
{
    begin("an automatic reply", NORMAL);
    given({GAM, 0x001C0000}, {TSC, 77}, {MBIM, 0xFFFFFFFF});
    enabled(6, STANDARD(0x200) | MASKED | RFH);
    given({MAILBOX(6, 1), 2}, {MAILBOX(6, 2), 0xCAFE});
    answers(remote_frame(STANDARD(0x203), 5), 6, 1); /* under the mask */
    now({TRS, BIT(6)});
    answers(remote_frame(STANDARD(0x200), 15), 6, 1); /* TRS set already: named all the same */
    answers(remote_frame(STANDARD(0x208), 0), NOBODY, 1);
    answers(start(), 6, 0);
    now({SLOT, 6});
    refuse(remote_frame(STANDARD(0x200), 0), 5);
    answers(outcome(SENT), 6, 0);
    now({SLOT, EMPTY_SLOT}, {TRS, 0}, {TA, BIT(6)}, {MBTIF, BIT(6)},
        {MAILBOX(6, 1), CONTROL(77, 0, 2)});
}

/* The manual's way to change a reply's data (5.3): CDR, write, CDR again. */
static void reply_held_back(void)
{
    begin("a reply held back by CDR", NORMAL);
    enabled(6, STANDARD(0x200) | RFH);
    refuse(write_mailbox(6, 2, 1), 6);
    accept(write_register(CDR, BIT(6)));
    now({CDR, BIT(6)});
    accept(write_mailbox(6, 2, 1));
    now({MAILBOX(6, 2), 1});
    answers(remote_frame(STANDARD(0x200), 0), 6, 1);
    now({TRS, BIT(6)});
    accept(start()); /* not while CDR is set */
    accept(write_mailbox(6, 3, 2));
    now({MAILBOX(6, 3), 2});
    accept(write_register(CDR, 0));
    now({CDR, 0});
    refuse(write_mailbox(6, 3, 3), 5);
    answers(start(), 6, 0);
    now({SLOT, 6});
}

/* Software handles remote frames itself (manual 4.2.1): RFP tells them apart, both ways. */
static void remote_frame_pending(void)
{
    begin("RFP follows the frame that is held", NORMAL);
    receiving(12, STANDARD(0x300) | RFH); /* RFH means nothing in a receive mailbox */
    given({MAILBOX(12, 2), 0x44332211}, {MAILBOX(12, 3), 0x88776655});
    answers(remote_frame(STANDARD(0x300), 8), 12, 1);
    now_stored(12, STANDARD(0x300) | RFH);
    now({MAILBOX(12, 1), CONTROL(0, 1, 8)}); /* the data stay: a remote frame has none (D34) */
    now({RFP, BIT(12)}, {GIF, 0x80});
    answers(data_frame(STANDARD(0x300), 1, 0xAA), 12, 1);
    now({MAILBOX(12, 1), CONTROL(0, 0, 1)}, {MAILBOX(12, 2), 0x443322AA}, {RFP, 0},
        {RML, BIT(12)}); /* the remote frame was lost (D35) */
    now({GIF, 0xA0});
    answers(remote_frame(STANDARD(0x300), 0), 12, 1);
    now({MAILBOX(12, 1), CONTROL(0, 1, 0)}, {RFP, BIT(12)});
    accept(write_register(GIF, 0xFF));
    now({GIF, 0});
    answers(remote_frame(STANDARD(0x300), 3), 12, 1);
    now({MAILBOX(12, 1), CONTROL(0, 1, 3)}, {GIF, 0xA0});
    accept(write_register(RMP, BIT(12)));
    now({RMP, 0}, {RML, 0}, {RFP, 0});
}

/* ---- storing */

/* Everything in the mailbox differs beforehand, so that what stays and what goes can be seen. */
static void stored_bytes(int dlc, uint32_t word_2, uint32_t word_3)
{
    static const uint64_t data = 0x8877665544332211;
    uint64_t carried = dlc >= 8 ? data : data & ((UINT64_C(1) << 8 * dlc) - 1);

    begin("data past DLC stay", NORMAL);
    receiving(20, STANDARD(0x155) | MASKED | RFH);
    given({MAILBOX(20, 1), CONTROL(0xFFFF, 1, 7)}, {MAILBOX(20, 2), 0xB4B3B2B1},
          {MAILBOX(20, 3), 0xB8B7B6B5}, {TSC, 0x1234});
    answers(data_frame(STANDARD(0x155), dlc, carried), 20, 1);
    now_stored(20, STANDARD(0x155) | MASKED | RFH);
    now({MAILBOX(20, 1), CONTROL(0x1234, 0, dlc)}, {MAILBOX(20, 2), word_2}, {MAILBOX(20, 3), word_3});
    answers(remote_frame(STANDARD(0x155), dlc), 20, 1);
    now({MAILBOX(20, 1), CONTROL(0x1234, 1, dlc)}, {RFP, BIT(20)}, {RML, BIT(20)}, {GIF, 0xA0});
}

static void storing(void)
{
    stored_bytes(0, 0xB4B3B2B1, 0xB8B7B6B5);
    stored_bytes(1, 0xB4B3B211, 0xB8B7B6B5);
    stored_bytes(2, 0xB4B32211, 0xB8B7B6B5);
    stored_bytes(3, 0xB4332211, 0xB8B7B6B5);
    stored_bytes(4, 0x44332211, 0xB8B7B6B5);
    stored_bytes(5, 0x44332211, 0xB8B7B655);
    stored_bytes(6, 0x44332211, 0xB8B76655);
    stored_bytes(7, 0x44332211, 0xB8776655);
    for (int dlc = 8; dlc <= 15; dlc++)
        stored_bytes(dlc, 0x44332211, 0x88776655);
}

/* Request c) of document 02: the number is kept as it came, and eight bytes come with it; none goes beyond. */
static void dlc_above_8(int n, int dlc)
{
    begin("a DLC above 8", NORMAL);
    for (int other = 0; other < 32; other++)
        given({MAILBOX(other, 0), 0xFFFFFFFF}, {MAILBOX(other, 1), 0xFFFF0010}, {MAILBOX(other, 2), 0xFFFFFFFF},
              {MAILBOX(other, 3), 0xFFFFFFFF});
    receiving(n, STANDARD(0x718));
    answers(data_frame(STANDARD(0x718), dlc, 0x8877665544332211), n, 1);
    now_stored(n, STANDARD(0x718));
    now({MAILBOX(n, 1), CONTROL(0, 0, dlc)}, {MAILBOX(n, 2), 0x44332211}, {MAILBOX(n, 3), 0x88776655});
    answers(data_frame(STANDARD(0x718), 3, 0x00C3C2C1), n, 1); /* a shorter one over it */
    now({MAILBOX(n, 1), CONTROL(0, 0, 3)}, {MAILBOX(n, 2), 0x44C3C2C1}, {RML, BIT(n)}, {GIF, 0x20});
    answers(remote_frame(STANDARD(0x718), dlc), n, 1); /* which has no data */
    now({MAILBOX(n, 1), CONTROL(0, 1, dlc)}, {RFP, BIT(n)}, {GIF, 0xA0});
    answers(data_frame(STANDARD(0x718), dlc, 0), n, 1); /* eight bytes that are 0 */
    now({MAILBOX(n, 1), CONTROL(0, 0, dlc)}, {MAILBOX(n, 2), 0}, {MAILBOX(n, 3), 0}, {RFP, 0});
    refuse(data_frame(STANDARD(0x718), dlc | 16, 0x8877665544332211), 4);
}

/* A standard frame leaves no bit of an older extended identifier behind it. */
static void low_bits_are_zeroed(void)
{
    begin("a standard frame over an extended one", NORMAL);
    given({GAM, 0x9FFFFFFF});
    receiving(8, EXTENDED(0x7FF, 0x3FFFF) | MASKED | RFH);
    answers(data_frame(STANDARD(0x001), 0, 0), 8, 1);
    now_stored(8, STANDARD(0x001) | MASKED | RFH);
    answers(data_frame(EXTENDED(0x002, 0x2AAAA), 0, 0), 8, 1);
    now({MAILBOX(8, 0), EXTENDED(0x002, 0x2AAAA) | MASKED | RFH}, {RML, BIT(8)}, {GIF, 0x20});
    answers(remote_frame(STANDARD(0x7FE), 0), 8, 1);
    now({MAILBOX(8, 0), STANDARD(0x7FE) | MASKED | RFH}, {MAILBOX(8, 1), CONTROL(0, 1, 0)},
        {RFP, BIT(8)}, {GIF, 0xA0});
}

/* Overwrites: table 4.1 and section 4.2.12 of the manual. */
static void lost_flag(void)
{
    begin("the lost flag", NORMAL);
    receiving(3, STANDARD(0x10));
    receiving(4, STANDARD(0x20));
    receiving(31, STANDARD(0x30));
    answers(data_frame(STANDARD(0x10), 0, 0), 3, 1);
    now({RMP, BIT(3)}); /* RMP 0, RML 0: a store, nothing lost */
    answers(data_frame(STANDARD(0x20), 0, 0), 4, 2);
    now({RMP, BIT(3) | BIT(4)}); /* another mailbox */
    answers(data_frame(STANDARD(0x10), 0, 0), 3, 1);
    now({RML, BIT(3)}); /* RMP 1, RML 0: overwritten */
    now({GIF, 0x20});
    accept(write_register(GIF, 0x20));
    now({GIF, 0});
    answers(data_frame(STANDARD(0x10), 0, 0), 3, 1);
    now({GIF, 0x20}); /* RMP 1, RML 1: once more (D35) */
    accept(write_register(RMP, BIT(3)));
    now({RMP, BIT(4)}, {RML, 0});
    accept(write_register(GIF, 0xFF));
    now({GIF, 0});
    answers(data_frame(STANDARD(0x10), 0, 0), 3, 1);
    now({RMP, BIT(3) | BIT(4)}); /* released before: nothing lost */
    answers(data_frame(STANDARD(0x11), 0, 0), NOBODY, 3); /* no match: nothing moves */
    answers(data_frame(STANDARD(0x30), 0, 0), 31, 3);
    now({RMP, BIT(3) | BIT(4) | BIT(31)});
    answers(data_frame(STANDARD(0x30), 0, 0), 31, 3);
    now({RML, BIT(31)}, {GIF, 0x20});
}

/* What the officer fears: "no" (0x7F) is overwritten by the next answer before it was read. */
static void the_officers_fear(void)
{
    begin("a refusal, and a later frame over it", NORMAL);
    receiving(7, STANDARD(0x7E8));
    given({TSC, 100});
    answers(data_frame(STANDARD(0x7E8), 4, 0x2231117F), 7, 1);
    now({MAILBOX(7, 1), CONTROL(100, 0, 4)}, {MAILBOX(7, 2), 0x2231117F}, {RMP, BIT(7)});
    accept(tick());
    now({TSC, 101});
    answers(data_frame(STANDARD(0x7E8), 2, 0x0171), 7, 1);
    now({MAILBOX(7, 1), CONTROL(101, 0, 2)}, {MAILBOX(7, 2), 0x22310171}, {RML, BIT(7)}, {GIF, 0x20});
    reads(FROSTSORREL_RML, BIT(7));
    refuse(write_register(RML, BIT(7)), 2); /* it cannot be wiped away alone */
    accept(write_register(MBRIF, 0xFFFFFFFF));
    accept(write_register(GIF, 0x20));
    now({GIF, 0});
    reads(FROSTSORREL_RML, BIT(7));
    accept(write_register(RMP, BIT(7)));
    now({RMP, 0}, {RML, 0});
}

/* MBRIF needs MBIM, bit for bit; GIF rises whatever GIM says (D37). */
static void receive_interrupts(void)
{
    begin("MBRIF", NORMAL);
    receiving(1, STANDARD(1));
    receiving(2, STANDARD(2));
    receiving(31, STANDARD(3));
    given({MBIM, BIT(2) | BIT(31)});
    answers(data_frame(STANDARD(1), 0, 0), 1, 1);
    now({RMP, BIT(1)});
    answers(data_frame(STANDARD(2), 0, 0), 2, 2);
    now({RMP, BIT(1) | BIT(2)}, {MBRIF, BIT(2)});
    answers(data_frame(STANDARD(3), 0, 0), 31, 3);
    now({RMP, BIT(1) | BIT(2) | BIT(31)}, {MBRIF, BIT(2) | BIT(31)});
    accept(write_register(MBIM, BIT(1)));
    now({MBIM, BIT(1)}); /* what has risen stays */
    answers(data_frame(STANDARD(1), 0, 0), 1, 1);
    now({RML, BIT(1)}, {MBRIF, BIT(1) | BIT(2) | BIT(31)}, {GIF, 0x20});
}

/* ---- what is heard, and the receive error counter */

/* Mode 0 with TEC below 256; otherwise a frame does nothing and counts nobody. */
static void not_heard(void)
{
    static const uint32_t deaf[] = {CONFIGURATION, SLEEP, SUSPEND};

    for (size_t i = 0; i < COUNT(deaf); i++) {
        begin("a frame that is not heard", FRESH);
        given({MODE, deaf[i]}, {REC, deaf[i] == SLEEP ? 0 : 50});
        receiving(0, STANDARD(0x123));
        enabled(1, STANDARD(0x124) | RFH);
        accept(data_frame(STANDARD(0x123), 0, 0));
        accept(remote_frame(STANDARD(0x124), 0));
        accept(receive_error(8));
        accept(receive_error(1));
    }
    begin("a frame in bus off", BUS_OFF);
    given({REC, 50});
    receiving(0, STANDARD(0x123));
    enabled(1, STANDARD(0x124) | RFH);
    given({OPTIONS, 2});
    accept(data_frame(STANDARD(0x123), 0, 0));
    accept(remote_frame(STANDARD(0x124), 0));
    accept(receive_error(8));
    begin("a frame with TEC 255", NORMAL);
    given({TEC, 255});
    receiving(0, STANDARD(0x123));
    answers(data_frame(STANDARD(0x123), 0, 0), 0, 1);
    now_stored(0, STANDARD(0x123));
}

/* 0 stays, 1 to 127 fall by 1, above becomes 127, whoever wanted the frame (D30). */
static void receive_counter_falls(void)
{
    static const struct {
        uint32_t before, after;
    } falls[] = {{0, 0}, {1, 0}, {2, 1}, {97, 96}, {126, 125}, {127, 126}, {128, 127}, {129, 127},
                 {200, 127}, {255, 127}};

    for (size_t i = 0; i < COUNT(falls); i++) {
        begin("REC after a frame that nobody wants", NORMAL);
        given({REC, falls[i].before});
        answers(data_frame(STANDARD(1), 0, 0), NOBODY, 0);
        now({REC, falls[i].after});
        begin("REC after a stored frame", NORMAL);
        given({REC, falls[i].before});
        receiving(9, STANDARD(1));
        answers(data_frame(STANDARD(1), 0, 0), 9, 1);
        now_stored(9, STANDARD(1));
        now({REC, falls[i].after});
        begin("REC after a frame to reply to", NORMAL);
        given({REC, falls[i].before});
        enabled(9, STANDARD(1) | RFH);
        answers(remote_frame(STANDARD(1), 0), 9, 1);
        now({TRS, BIT(9)}, {REC, falls[i].after});
    }
}

static void receive_counter_rises(void)
{
    static const struct {
        uint32_t before, rise, after, gif;
    } rises[] = {
        {0, 1, 1, 0},     {0, 8, 8, 0},       {88, 8, 96, 0},     {89, 8, 97, 1},   {95, 1, 96, 0},
        {96, 1, 97, 1},   {97, 1, 98, 0},     {119, 8, 127, 0},   {120, 8, 128, 2}, {126, 1, 127, 0},
        {127, 1, 128, 2}, {128, 8, 136, 0},   {246, 8, 254, 0},   {247, 8, 255, 0}, {248, 8, 255, 0},
        {254, 1, 255, 0}, {254, 8, 255, 0},   {255, 1, 255, 0},   {255, 8, 255, 0}, {127, 8, 135, 2},
    };

    for (size_t i = 0; i < COUNT(rises); i++) {
        begin("REC after a receive error", NORMAL);
        given({REC, rises[i].before});
        accept(receive_error(rises[i].rise));
        now({REC, rises[i].after}, {GIF, rises[i].gif});
    }
}

void step_receiving(void)
{
    nobody_is_compared();
    the_first_match();
    every_mailbox_can_match();
    formats();
    each_identifier_bit();
    ide_freed(13, GAM);
    ide_freed(31, LAM);
    masks_of_the_other_maker();
    remote_frames_meet_everybody();
    for (int n = 0; n < 32; n++)
        remote_frame_at_each_mailbox(n);
    remote_frame_stopped();
    automatic_reply();
    reply_held_back();
    remote_frame_pending();
    storing();
    for (int n = 0; n < 32; n++)
        for (int dlc = 9; dlc <= 15; dlc++)
            dlc_above_8(n, dlc);
    low_bits_are_zeroed();
    lost_flag();
    the_officers_fear();
    receive_interrupts();
    not_heard();
    receive_counter_falls();
    receive_counter_rises();
}
