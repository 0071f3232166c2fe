/* Modes, waking, ticks, resets: section "Sending, errors, modes" of document 01. */
#include "scenario.h"
#include "step.h"

/* ---- modes */

static void modes_at_once(void)
{
    begin("modes taken at once", FRESH);
    given({BCR2, 0x11}, {REC, 9}, {TEC, 11}, {TSC, 13}, {TRS, BIT(6)}, {TA, BIT(7)}, {GIF, 0x80});
    accept(mode(CONFIGURATION));
    accept(mode(NORMAL_MODE));
    now({MODE, NORMAL_MODE});
    accept(mode(NORMAL_MODE));
    accept(mode(SUSPEND));
    now({MODE, SUSPEND});
    reads(GSR, 0x1F100);
    accept(mode(SUSPEND));
    accept(mode(NORMAL_MODE));
    now({MODE, NORMAL_MODE});
    accept(mode(CONFIGURATION)); /* clears nothing (D59) */
    now({MODE, CONFIGURATION});
    reads(GSR, 0x1F080);
    accept(mode(NORMAL_MODE));
    now({MODE, NORMAL_MODE});
    accept(mode(SLEEP));
    now({MODE, SLEEP}, {TEC, 0}, {REC, 0}, {TRS, 0});
    reads(GSR, 0x1F040);
    reads(FROSTSORREL_TSC, 0); /* asleep everything else reads 0 */
    accept(mode(NORMAL_MODE));
    now({MODE, NORMAL_MODE}, {GIF, 0xC0});
    reads(FROSTSORREL_TSC, 13); /* but it is all there (D44) */
}

/* What sleep keeps: everything but TEC, REC, TRS, TRR (D44). */
static void what_sleep_keeps(void)
{
    begin("what sleep keeps", NORMAL);
    given({MC, 0xFFFFFFFF}, {MD, 0x80000055}, {TRS, 0x7FFFFFAA}, {TA, 0x00F0F0F0}, {AA, 0x0F0F0F0F},
          {RMP, 0xF0000055}, {RML, 0x80000050}, {LAM, 0x81234567}, {GAM, 0x07654321}, {RFP, 0x40000005},
          {CDR, 0x000000AA}, {MBTIF, 0x11111111}, {MBRIF, 0x22222222}, {MBIM, 0x33333333}, {GIF, 0x2F},
          {GIM, 0x5A}, {BCR1, 0x155}, {BCR2, 0x2AA}, {TSC, 0x7777}, {TEC, 255}, {REC, 254},
          {OPTIONS, 1}, {TSO, 1});
    accept(mode(SLEEP));
    now({MODE, SLEEP}, {TEC, 0}, {REC, 0}, {TRS, 0});
    accept(tick()); /* asleep it does nothing */
    accept(mode(SLEEP));
    accept(mode(NORMAL_MODE));
    now({MODE, NORMAL_MODE}, {GIF, 0x6F});
}

/* A frame wakes a model that has WUBA, and does nothing more (D38). */
static void woken_by_a_frame(void)
{
    begin("a frame without WUBA", ASLEEP);
    given({OPTIONS, 1});
    receiving(0, STANDARD(0x123));
    accept(data_frame(STANDARD(0x123), 1, 0xAA));
    begin("a frame with WUBA", ASLEEP);
    given({OPTIONS, 2});
    receiving(0, STANDARD(0x123));
    enabled(1, STANDARD(0x124) | RFH);
    accept(receive_error(8)); /* wakes nobody */
    accept(start());
    accept(recessive());
    refuse(data_frame(STANDARD(0x123), 1, 0xAA00), 4);
    refuse(data_frame(STANDARD(0x123), 16, 0), 4);
    accept(data_frame(STANDARD(0x123), 1, 0xAA));
    now({MODE, NORMAL_MODE}, {GIF, 0x40});
    answers(data_frame(STANDARD(0x123), 1, 0xAA), 0, 1);
    now_stored(0, STANDARD(0x123));
    now({MAILBOX(0, 1), 1}, {MAILBOX(0, 2), 0xAA});
    begin("a remote frame with WUBA", ASLEEP);
    given({OPTIONS, 3});
    enabled(1, STANDARD(0x124) | RFH);
    accept(remote_frame(STANDARD(0x124), 15));
    now({MODE, NORMAL_MODE}, {GIF, 0x40}); /* and no reply */
    begin("WUBA in suspend", FRESH);
    given({MODE, SUSPEND}, {OPTIONS, 2});
    accept(data_frame(STANDARD(1), 0, 0));
    begin("WUBA in configuration", FRESH);
    given({OPTIONS, 2});
    accept(data_frame(STANDARD(1), 0, 0));
}

/* With a filled slot a mode waits, replaces an earlier one, or is cancelled. */
static void waiting_modes(void)
{
    begin("a waiting mode replaced and cancelled", SENDING);
    accept(mode(SLEEP));
    now({WAITING, SLEEP});
    reads(GSR, 0x3400);
    accept(mode(SUSPEND));
    now({WAITING, SUSPEND});
    accept(mode(CONFIGURATION));
    now({WAITING, CONFIGURATION});
    accept(mode(SLEEP));
    now({WAITING, SLEEP});
    accept(mode(SLEEP));
    refuse(mode(4), 4);
    accept(mode(NORMAL_MODE)); /* the present mode: it only cancels */
    now({WAITING, NO_MODE});
    accept(mode(NORMAL_MODE));
    answers(outcome(ARBITRATION_LOST), 3, 0);
    now({SLOT, EMPTY_SLOT});

    begin("suspend waits for the outcome", SENDING);
    accept(mode(SUSPEND));
    now({WAITING, SUSPEND});
    accept(tick());
    now({TSC, 1});
    answers(outcome(ARBITRATION_LOST), 3, 0);
    now({SLOT, EMPTY_SLOT}, {WAITING, NO_MODE}, {MODE, SUSPEND}); /* the request waits on */
    accept(start());
    begin("configuration waits for the outcome", SENDING);
    given({TEC, 5});
    accept(mode(CONFIGURATION));
    now({WAITING, CONFIGURATION});
    answers(outcome(SENT), 3, 0);
    now({SLOT, EMPTY_SLOT}, {TRS, 0}, {TA, BIT(3)}, {TEC, 4}, {WAITING, NO_MODE},
        {MODE, CONFIGURATION});
}

/* Sleep entered late ends every request, also the one that has just lost: no AA for it (D43). */
static void late_sleep(void)
{
    begin("late sleep after a lost arbitration", SENDING);
    given({TRS, BIT(3) | BIT(9)}, {TEC, 50}, {REC, 60});
    accept(mode(SLEEP));
    now({WAITING, SLEEP});
    answers(outcome(ARBITRATION_LOST), 3, 0);
    now({SLOT, EMPTY_SLOT}, {WAITING, NO_MODE}, {MODE, SLEEP}, {TRS, 0}, {TEC, 0}, {REC, 0});

    begin("late sleep, cancelled before", SENDING);
    given({TRS, BIT(3) | BIT(9)});
    accept(mode(SLEEP));
    now({WAITING, SLEEP});
    accept(write_register(TRR, BIT(3)));
    now({TRR, BIT(3)});
    answers(outcome(ARBITRATION_LOST), 3, 0);
    now({SLOT, EMPTY_SLOT}, {WAITING, NO_MODE}, {MODE, SLEEP}, {TRS, 0}, {TRR, 0}, {AA, BIT(3)},
        {GIF, 0x10});

    begin("late sleep after a sending", SENDING);
    given({TRS, BIT(3) | BIT(9)}, {TSC, 5});
    accept(mode(SLEEP));
    now({WAITING, SLEEP});
    answers(outcome(SENT), 3, 0);
    now({SLOT, EMPTY_SLOT}, {WAITING, NO_MODE}, {MODE, SLEEP}, {TRS, 0}, {TA, BIT(3)},
        {MAILBOX(3, 1), CONTROL(5, 0, 0)});

    /* the counter crosses the line before sleep clears it (D39) */
    begin("late sleep after an error", SENDING);
    given({TEC, 90});
    accept(mode(SLEEP));
    now({WAITING, SLEEP});
    answers(outcome(ERROR), 3, 0);
    now({SLOT, EMPTY_SLOT}, {WAITING, NO_MODE}, {MODE, SLEEP}, {TRS, 0}, {TEC, 0}, {GIF, 1});
    begin("late sleep after an error that just stays on the bus", SENDING);
    given({TEC, 247});
    accept(mode(SLEEP));
    now({WAITING, SLEEP});
    answers(outcome(ERROR), 3, 0);
    now({SLOT, EMPTY_SLOT}, {WAITING, NO_MODE}, {MODE, SLEEP}, {TRS, 0}, {TEC, 0});

    begin("late sleep, cancelled before, without acknowledgement", SENDING);
    given({TRS, BIT(3) | BIT(9)}, {TEC, 120}, {REC, 60});
    accept(mode(SLEEP));
    now({WAITING, SLEEP});
    accept(write_register(TRR, BIT(3)));
    now({TRR, BIT(3)});
    answers(outcome(UNACKNOWLEDGED), 3, 0);
    now({SLOT, EMPTY_SLOT}, {WAITING, NO_MODE}, {MODE, SLEEP}, {TRS, 0}, {TRR, 0}, {AA, BIT(3)},
        {TEC, 0}, {REC, 0}, {GIF, 0x12});
}

/* A missing acknowledgement never ends in bus off: what waits is taken, from passive at 255 too. */
static void modes_of_a_lone_tool(void)
{
    static const uint32_t waiting[] = {CONFIGURATION, SLEEP, SUSPEND};
    static const struct {
        uint32_t before, after, gif;
    } counts[] = {{127, 135, 2}, {128, 128, 0}, {255, 255, 0}};

    for (size_t i = 0; i < COUNT(waiting) * COUNT(counts); i++) {
        uint32_t taken = waiting[i % COUNT(waiting)];
        size_t k = i / COUNT(waiting);

        begin("a mode waits, and nobody acknowledges", SENDING);
        given({TEC, counts[k].before}, {REC, 12});
        accept(mode(taken));
        now({WAITING, taken});
        answers(outcome(UNACKNOWLEDGED), 3, 0);
        now({SLOT, EMPTY_SLOT}, {WAITING, NO_MODE}, {MODE, taken}, {TEC, counts[k].after},
            {GIF, counts[k].gif});
        if (taken == SLEEP)
            now({TEC, 0}, {REC, 0}, {TRS, 0});
    }
}

/* An error to bus off keeps the mode waiting; the 128th eleven takes it (D42). */
static void modes_wait_in_bus_off(void)
{
    static const uint32_t waiting[] = {CONFIGURATION, SLEEP, SUSPEND};

    for (size_t i = 0; i < COUNT(waiting); i++) {
        begin("a mode waits through bus off", SENDING);
        given({TEC, 250}, {REC, 12});
        accept(mode(waiting[i]));
        now({WAITING, waiting[i]});
        answers(outcome(ERROR), 3, 0);
        now({SLOT, EMPTY_SLOT}, {TEC, 256}, {GIF, 4});
        for (uint32_t elevens = 1; elevens <= 127; elevens++) {
            accept(recessive());
            now({RECOVERY, elevens});
        }
        accept(recessive());
        now({RECOVERY, 0}, {TEC, 0}, {REC, 0}, {WAITING, NO_MODE}, {MODE, waiting[i]});
        if (waiting[i] == SLEEP)
            now({TRS, 0});
    }
    begin("a mode asked for, replaced and cancelled in bus off", BUS_OFF);
    accept(mode(SUSPEND));
    now({WAITING, SUSPEND});
    accept(mode(SLEEP));
    now({WAITING, SLEEP});
    accept(mode(NORMAL_MODE));
    now({WAITING, NO_MODE});
    given({RECOVERY, 127});
    accept(recessive());
    now({RECOVERY, 0}, {TEC, 0});
}

/* ---- ticks */

static void ticks(void)
{
    static const uint32_t ticking[] = {NORMAL_MODE, CONFIGURATION, SUSPEND};

    for (size_t i = 0; i < COUNT(ticking); i++) {
        begin("ticks", FRESH);
        given({MODE, ticking[i]});
        accept(tick());
        now({TSC, 1});
        accept(tick());
        now({TSC, 2});
        given({TSC, 0xFF});
        accept(tick());
        now({TSC, 0x100});
        given({TSC, 65534});
        accept(tick());
        now({TSC, 65535});
        accept(tick());
        now({TSC, 0}, {TSO, 1}, {GIF, 0x08});
        accept(tick());
        now({TSC, 1});
        accept(write_register(GIF, 0x08));
        now({GIF, 0}, {TSO, 0});
        given({TSC, 65535});
        accept(tick());
        now({TSC, 0}, {TSO, 1}, {GIF, 0x08});
    }
    begin("a tick in bus off", BUS_OFF);
    accept(tick());
    now({TSC, 1});
    begin("a tick asleep", ASLEEP);
    given({TSC, 65535});
    accept(tick());
    begin("a tick while sending", SENDING);
    given({TSC, 65535});
    accept(tick());
    now({TSC, 0}, {TSO, 1}, {GIF, 0x08});
    reads(GSR, 0x3408);
}

/* ---- reset: the words are fresh, the mailbox bytes stay */

static void filled_mailboxes(void)
{
    for (int n = 0; n < 32; n++)
        given({MAILBOX(n, 0), EXTENDED(n, n) | MASKED | RFH}, {MAILBOX(n, 1), CONTROL(0xF00D, 1, 8)},
              {MAILBOX(n, 2), 0xFFFFFFFF}, {MAILBOX(n, 3), (uint32_t)n << 24});
}

static void now_fresh_words(void)
{
    for (int word = MC; word < WORDS; word++)
        now({word, 0});
    now({MD, 0x80000000}, {MODE, CONFIGURATION}, {WAITING, NO_MODE}, {SLOT, EMPTY_SLOT});
}

static void resets(void)
{
    static const enum state before[] = {FRESH, NORMAL, SENDING, BUS_OFF, ASLEEP};

    for (size_t i = 0; i < COUNT(before); i++) {
        begin("reset", before[i]);
        filled_mailboxes();
        for (int word = TA; word <= TSC; word++)
            given({word, 1});
        given({MD, 0xF0000000}, {OPTIONS, 3}, {TSO, 1}, {MASK(0), 1}, {MASK(31), 0x9FFFFFFF}, {PROTECTION, ~0u});
        if (before[i] == SENDING)
            given({WAITING, SLEEP}, {TRR, BIT(3)}, {TEC, 128}, {REC, 97});
        if (before[i] == BUS_OFF)
            given({WAITING, SUSPEND}, {RECOVERY, 5}, {REC, 255});
        accept(reset());
        now_fresh_words(); /* GIF is 0: leaving sleep by reset is no waking (D44) */
        reads(GSR, 0x1F080);
        accept(reset());
    }
}

void step_modes(void)
{
    modes_at_once();
    what_sleep_keeps();
    woken_by_a_frame();
    waiting_modes();
    late_sleep();
    modes_of_a_lone_tool();
    modes_wait_in_bus_off();
    ticks();
    resets();
}
