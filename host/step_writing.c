/* What an accepted register write does: section "Writing" of document 01. */
#include "scenario.h"
#include "step.h"

/* ---- registers */

static void registers_that_take_the_value(void)
{
    static const struct {
        int word;
        uint32_t first, second;
    } taking[] = {
        {MC, 0xA5A5A5A5, 0x0F0F0F0F},   {LAM, 0x9FFFFFFF, 0x80000001}, {GAM, 0x15555555, 0x8AAAAAAA},
        {CDR, 0x7FFFFFFF, 0x12345678},  {MBIM, 0xFFFFFFFF, 0x80000001}, {GIM, 0xFF, 0x5A},
        {BCR1, 0x3FF, 0x155},           {BCR2, 0x3FF, 0x2AA},
    };

    begin("registers that take the value", FRESH);
    for (size_t i = 0; i < COUNT(taking); i++) {
        accept(write_register(taking[i].word, taking[i].first));
        now({taking[i].word, taking[i].first});
        accept(write_register(taking[i].word, taking[i].second));
        now({taking[i].word, taking[i].second});
        accept(write_register(taking[i].word, 0));
        now({taking[i].word, 0});
    }
    accept(write_register(MD, 0x7FFFFFFF));
    now({MD, 0xFFFFFFFF});
    accept(write_register(MD, 0x00FF00FF));
    now({MD, 0x80FF00FF});
    accept(write_register(MD, 0));
    now({MD, 0x80000000});
}

/* TSC takes 0, and leaves TSO and GIF bit 3 (D23). */
static void time_stamp_counter_is_zeroed(void)
{
    begin("TSC", NORMAL);
    given({TSC, 0xBEEF}, {TSO, 1}, {GIF, 0x08});
    refuse(write_register(TSC, 0xBEEF), 4);
    accept(write_register(TSC, 0));
    now({TSC, 0});
    reads(FROSTSORREL_TSC, 0);
    reads(GSR, 0x1F008);
}

/* TRS sets 1-bits of transmit mailboxes, enabled or not, and nothing else (D21, D63). */
static void writing_trs(void)
{
    begin("TRS", NORMAL);
    given({MD, 0x8000FF00}, {MC, 0x00FF0FF0}, {TA, 0x7FFFFFFF}, {AA, 0x7FFFFFFF}, {MBTIF, 0x7FFFFFFF});
    accept(write_register(TRS, 0x00000001));
    now({TRS, 0x00000001});
    accept(write_register(TRS, 0x00000F02)); /* 8 to 11 receive */
    now({TRS, 0x00000003});
    accept(write_register(TRS, 0));
    accept(write_register(TRS, 0x00000003)); /* set already */
    accept(write_register(TRS, 0xFFFFFFFF));
    now({TRS, 0x7FFF00FF});
    begin("TRS in configuration", FRESH);
    accept(write_register(TRS, 0x80000004));
    now({TRS, 4});
    begin("TRS in suspend", FRESH);
    given({MODE, SUSPEND});
    accept(write_register(TRS, 0x40000000));
    now({TRS, 0x40000000});
    begin("TRS in bus off", BUS_OFF);
    accept(write_register(TRS, 0x40000001));
    now({TRS, 0x40000001});
}

/* TRR: without TRS nothing, at the slot TRR, elsewhere the request ends at once (manual 4.2.8). */
static void writing_trr(void)
{
    begin("TRR with an empty slot", NORMAL);
    given({TRS, BIT(1) | BIT(2) | BIT(30)}, {MD, BIT(31) | BIT(7)});
    accept(write_register(TRR, 0));
    accept(write_register(TRR, BIT(0) | BIT(7) | BIT(31))); /* nobody asks there */
    accept(write_register(TRR, BIT(0) | BIT(1)));
    now({TRS, BIT(2) | BIT(30)}, {AA, BIT(1)}, {GIF, 0x10});
    accept(write_register(TRR, BIT(1)));
    accept(write_register(GIF, 0x10));
    now({GIF, 0});
    accept(write_register(TRR, BIT(1))); /* ended already: GIF bit 4 stays down */
    accept(write_register(TRR, 0xFFFFFFFF));
    now({TRS, 0}, {AA, BIT(1) | BIT(2) | BIT(30)}, {GIF, 0x10});
}

static void writing_trr_at_the_slot(void)
{
    begin("TRR at the slot", SENDING);
    given({TRS, BIT(3) | BIT(4) | BIT(5)});
    accept(write_register(TRR, BIT(3)));
    now({TRR, BIT(3)}); /* and TRS, AA and GIF stay: the frame is on its way */
    accept(write_register(TRR, BIT(3)));
    accept(write_register(TRR, BIT(3) | BIT(4))); /* each bit by its own rule (D22) */
    now({TRS, BIT(3) | BIT(5)}, {AA, BIT(4)}, {GIF, 0x10});
    begin("TRR at the slot and elsewhere at once", SENDING);
    given({TRS, BIT(3) | BIT(4)});
    accept(write_register(TRR, 0xFFFFFFFF));
    now({TRR, BIT(3)}, {TRS, BIT(3)}, {AA, BIT(4)}, {GIF, 0x10});
}

/* TA, AA, MBTIF, MBRIF and GIF: a 1 clears, at every mailbox; nothing else moves (D24). */
static void clearing_flags(void)
{
    static const int flags[] = {TA, AA, MBTIF, MBRIF};

    for (size_t i = 0; i < COUNT(flags); i++) {
        int word = flags[i];

        begin("flags that a 1 clears", NORMAL);
        for (size_t k = 0; k < COUNT(flags); k++)
            given({flags[k], 0x7FFFFFFF});
        given({RMP, 0xFFFFFFFF}, {RML, 0xFFFFFFFF}, {RFP, 0xFFFFFFFF}, {GIF, 0xFF}, {MD, 0x8000FFFF});
        accept(write_register(word, 0));
        accept(write_register(word, 0x00000003));
        now({word, 0x7FFFFFFC});
        accept(write_register(word, 0x00000003));
        accept(write_register(word, 0x40008004));
        now({word, 0x3FFF7FF8});
        accept(write_register(word, 0xFFFFFFFF));
        now({word, 0});
    }
    begin("MBRIF bit 31", NORMAL);
    given({MBRIF, BIT(31) | 1});
    accept(write_register(MBRIF, BIT(31)));
    now({MBRIF, 1});
}

/* RMP: a 1 clears RMP, RML and RFP there, and leaves MBRIF and GIF (D24). */
static void writing_rmp(void)
{
    begin("RMP", NORMAL);
    given({RMP, 0x8000000F}, {RML, 0x80000003}, {RFP, 0x80000005}, {MBRIF, 0xFFFFFFFF}, {GIF, 0xFF});
    accept(write_register(RMP, 0));
    accept(write_register(RMP, 0x10));
    accept(write_register(RMP, 1));
    now({RMP, 0x8000000E}, {RML, 0x80000002}, {RFP, 0x80000004});
    accept(write_register(RMP, 0x80000000));
    now({RMP, 0x0000000E}, {RML, 0x00000002}, {RFP, 0x00000004});
    accept(write_register(RMP, 0x00000006));
    now({RMP, 0x00000008}, {RML, 0}, {RFP, 0});
    accept(write_register(RMP, 0xFFFFFFFF));
    now({RMP, 0});
}

/* GIF: a 1 clears; bit 3 takes TSO with it, also when GIF bit 3 is 0 already (D23). */
static void writing_gif(void)
{
    begin("GIF", NORMAL);
    given({GIF, 0xFF}, {TSO, 1});
    accept(write_register(GIF, 0));
    accept(write_register(GIF, 0xF7));
    now({GIF, 0x08});
    reads(GSR, 0x1F008);
    accept(write_register(GIF, 0x08));
    now({GIF, 0}, {TSO, 0});
    reads(GSR, 0x1F000);
    begin("GIF bit 3 written, though not set", NORMAL);
    given({GIF, 0x04}, {TSO, 1});
    accept(write_register(GIF, 0x09));
    now({TSO, 0});
}

/* A mailbox that is turned round keeps what it holds (D25). */
static void turning_a_mailbox_round(void)
{
    begin("turning a mailbox round", NORMAL);
    given({MD, BIT(31) | BIT(6)}, {RMP, BIT(6)}, {RML, BIT(6)}, {MAILBOX(6, 2), 0x12345678});
    accept(write_register(MD, BIT(31)));
    now({MD, BIT(31)});
    accept(write_register(TRS, BIT(6)));
    now({TRS, BIT(6)});
    accept(write_register(RMP, BIT(6)));
    now({RMP, 0}, {RML, 0});
}

void step_writing(void)
{
    registers_that_take_the_value();
    time_stamp_counter_is_zeroed();
    writing_trs();
    writing_trr();
    writing_trr_at_the_slot();
    clearing_flags();
    writing_rmp();
    writing_gif();
    turning_a_mailbox_round();
}
