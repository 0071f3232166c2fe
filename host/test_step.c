/*
 * Feeds events to frostsorrel_step and compares answers and images with what documents 01 and 02 and the
 * makers' papers say, worked out by hand; then random runs, compared with the reference. The scenarios stand
 * here and in the files step_*.c.
 *
 * In all of them "manual" is source document 000, "guide" is 002, and D1 and the like are docs/DECISIONS.md.
 */
#include "generate.h"
#include "reference.h"
#include "scenario.h"
#include "step.h"

/* ---- the worked example of section "The trace program" */

static void worked_example(void)
{
    begin("the worked example", FRESH);
    accept(write_mailbox(3, 0, 0x048C0000));
    now({MAILBOX(3, 0), 0x048C0000});
    accept(write_register(BCR2, 0x25));
    now({BCR2, 0x25});
    accept(write_register(MD, 0x80000008));
    now({MD, 0x80000008});
    accept(write_register(MC, 8));
    now({MC, 8});
    reads(GSR, 0x1F080);
    accept(mode(NORMAL_MODE));
    now({MODE, NORMAL_MODE});
    reads(GSR, 0x1F000);
    answers(data_frame(STANDARD(0x123), 2, 0x2211), 3, 1);
    now({MAILBOX(3, 1), 2}, {MAILBOX(3, 2), 0x2211}, {RMP, 8});
    answers(data_frame(STANDARD(0x123), 2, 0x4433), 3, 1);
    now({MAILBOX(3, 2), 0x4433}, {RML, 8}, {GIF, 0x20});
    accept(write_register(RMP, 8));
    now({RMP, 0}, {RML, 0});
    answers(data_frame(STANDARD(0x124), 2, 0x6655), NOBODY, 1);
}

/* ---- the manual's flows */

/* Section 5.2: send, see TA and the interrupt, clear both. */
static void transmit_flow(void)
{
    begin("the transmit flow", FRESH);
    accept(write_register(BCR1, 1));
    now({BCR1, 1});
    accept(write_register(BCR2, 0x336));
    now({BCR2, 0x336});
    accept(write_mailbox(2, 0, STANDARD(0x7DF)));
    now({MAILBOX(2, 0), STANDARD(0x7DF)});
    accept(write_mailbox(2, 1, 8));
    now({MAILBOX(2, 1), 8});
    accept(write_mailbox(2, 2, 0x55550102));
    now({MAILBOX(2, 2), 0x55550102});
    accept(write_mailbox(2, 3, 0x55555555));
    now({MAILBOX(2, 3), 0x55555555});
    accept(write_register(MBIM, BIT(2)));
    now({MBIM, BIT(2)});
    accept(write_register(MC, BIT(2)));
    now({MC, BIT(2)});
    accept(start()); /* still in configuration, and nothing asked for */
    accept(mode(NORMAL_MODE));
    now({MODE, NORMAL_MODE});
    accept(start());
    accept(write_register(TRS, BIT(2)));
    now({TRS, BIT(2)});
    answers(start(), 2, 0);
    now({SLOT, 2});
    accept(tick());
    now({TSC, 1});
    answers(outcome(SENT), 2, 0);
    now({SLOT, EMPTY_SLOT}, {TRS, 0}, {TA, BIT(2)}, {MBTIF, BIT(2)}, {MAILBOX(2, 1), CONTROL(1, 0, 8)});
    accept(write_register(MBTIF, BIT(2)));
    now({MBTIF, 0});
    accept(write_register(TA, BIT(2)));
    now({TA, 0});
    accept(write_mailbox(2, 2, 0)); /* RFH 0: the data may change while it is enabled */
    now({MAILBOX(2, 2), 0});
    refuse(write_mailbox(2, 0, STANDARD(0x7E0)), 6);
}

/* Section 5.1: receive, see RMP and the interrupt, read, clear both; RML is looked at. */
static void receive_flow(void)
{
    begin("the receive flow", NORMAL);
    given({LAM, 0x9FFFFFFF});
    receiving(0, STANDARD(0x7E8));
    receiving(31, STANDARD(0) | MASKED); /* takes what nobody else wants */
    given({MBIM, 0xFFFFFFFF});
    answers(data_frame(STANDARD(0x7E8), 3, 0x004101), 0, 1);
    now_stored(0, STANDARD(0x7E8));
    now({MAILBOX(0, 1), 3}, {MAILBOX(0, 2), 0x4101}, {MBRIF, BIT(0)});
    answers(data_frame(EXTENDED(0x6AB, 0x0F1F2), 1, 0xEE), 31, 2);
    now_stored(31, EXTENDED(0x6AB, 0x0F1F2) | MASKED);
    now({MAILBOX(31, 1), 1}, {MAILBOX(31, 2), 0xEE}, {MBRIF, BIT(0) | BIT(31)});
    accept(write_register(MBRIF, BIT(0)));
    now({MBRIF, BIT(31)});
    accept(write_register(RMP, BIT(0)));
    now({RMP, BIT(31)});
    answers(data_frame(STANDARD(0x7E8), 0, 0), 0, 1);
    now({RMP, BIT(0) | BIT(31)}, {MBRIF, BIT(0) | BIT(31)},
        {MAILBOX(0, 1), 0}); /* DLC 0: the old bytes stay */
    answers(data_frame(STANDARD(0x7E7), 0, 0), 31, 2);
    now({MAILBOX(31, 0), STANDARD(0x7E7) | MASKED}, {MAILBOX(31, 1), 0}, {RML, BIT(31)}, {GIF, 0x20});
}

/* ---- a random run, compared with the reference after every event */

static void random_run(uint32_t profile, uint64_t seed, int steps)
{
    uint8_t ours[BYTES], theirs[BYTES];
    uint8_t event[LONGEST_EVENT];

    seed_generator(seed);
    frostsorrel_fresh(ours, BYTES, profile);
    reference_fresh(theirs, BYTES, profile);
    for (int i = 0; i < steps; i++) {
        size_t len = likely_event(event, theirs);
        uint64_t ours_says = frostsorrel_step(ours, BYTES, event, len);
        uint64_t theirs_says = reference_step(theirs, BYTES, event, len);

        check(ours_says == theirs_says, "random run %lu, step %d: answer %llX, not %llX",
              (unsigned long)seed, i, (unsigned long long)ours_says, (unsigned long long)theirs_says);
        check(memcmp(ours, theirs, BYTES) == 0, "random run %lu, step %d: %s differs",
              (unsigned long)seed, i, word_name(first_difference(ours, theirs) % WORDS));
        memcpy(ours, theirs, BYTES);
    }
}

/* An argument is the name that the sum is printed with. */
int main(int argc, char **argv)
{
    worked_example();
    step_refusals();
    step_writing();
    step_receiving();
    step_sending();
    step_modes();
    transmit_flow();
    receive_flow();
    step_ecan();
    end();
    for (uint64_t seed = 1; seed <= 4; seed++) {
        random_run(CAN_B, seed, 2000);
        random_run(ECAN, seed, 2000);
    }
    return report(argc > 1 ? argv[1] : "host step");
}
