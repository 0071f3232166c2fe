/*
 * Good and bad images: the rule of documents 01 and 02, clause by clause, as hand-made images with the verdict,
 * each in both profiles. A test hands in the way to ask, so that every call that judges an image can be put to
 * them.
 */
#ifndef CLAUSES_H
#define CLAUSES_H

#include "states.h"

/* Asks the library whether an image is good, and checks the verdict. */
typedef void judge(const char *what, const uint8_t *image, int good);

/* ---- good image: each clause broken alone, and its nearest neighbours that are good.
 *
 * Some clauses of document 01 follow from others and cannot be broken alone. Of a CAN-B: bit 31 of TRS (MD has
 * it, and they share no bit), TRR's bit 31, and that the slot is not 31 (it would need that bit of TRS). Of
 * both: TRR "within TRS" and "zero asleep" (a filled slot is normal mode and has its TRS bit). Their lines break
 * those too. */

/* A bit for each profile in which the image is good. */
enum verdict { BAD = 0, GOOD_CAN_B = 1 << CAN_B, GOOD_ECAN = 1 << ECAN, GOOD = GOOD_CAN_B | GOOD_ECAN };

static const struct clause {
    const char *what;
    enum state state;
    struct edit edits[EDITS];
    enum verdict good;
} clauses[] = {
    /* MD bit 31 */
    {"MD without bit 31", FRESH, {SET(MD, 0x7FFFFFFF)}, GOOD_ECAN},
    {"MD zero", FRESH, {SET(MD, 0)}, GOOD_ECAN},
    {"MD bit 31 alone", FRESH, {SET(MD, 0x80000000)}, GOOD},
    {"MD all", FRESH, {SET(MD, 0xFFFFFFFF)}, GOOD},
    /* bit 31 clear */
    {"TRS bit 31", NORMAL, {SET(TRS, 0x80000000)}, GOOD_ECAN},
    {"TRS and MD bit 31", NORMAL, {SET(TRS, 0x80000000), SET(MD, 0x80000000)}, BAD},
    {"TRS bit 31, MD all others", NORMAL, {SET(TRS, 0x80000000), SET(MD, 0x7FFFFFFF)}, GOOD_ECAN},
    {"TRS all below 31", NORMAL, {SET(TRS, 0x7FFFFFFF)}, GOOD},
    {"TRR bit 31", NORMAL, {SET(TRR, 0x80000000)}, BAD},
    {"TRR bit 31, sending", SENDING, {SET(TRR, 0x80000000)}, BAD},
    {"TA bit 31", NORMAL, {SET(TA, 0x80000000)}, GOOD_ECAN},
    {"TA all below 31", NORMAL, {SET(TA, 0x7FFFFFFF)}, GOOD},
    {"AA bit 31", NORMAL, {SET(AA, 0x80000000)}, GOOD_ECAN},
    {"AA all below 31", NORMAL, {SET(AA, 0x7FFFFFFF)}, GOOD},
    {"CDR bit 31", NORMAL, {SET(CDR, 0x80000000)}, GOOD_ECAN},
    {"CDR all below 31", NORMAL, {SET(CDR, 0x7FFFFFFF)}, GOOD},
    {"MBTIF bit 31", NORMAL, {SET(MBTIF, 0x80000000)}, GOOD_ECAN},
    {"MBTIF all below 31", NORMAL, {SET(MBTIF, 0x7FFFFFFF)}, GOOD},
    /* TRS and MD share no bit */
    {"TRS at a receive mailbox", NORMAL, {SET(TRS, 1), SET(MD, 0x80000001)}, BAD},
    {"TRS beside a receive mailbox", NORMAL, {SET(TRS, 1), SET(MD, 0xFFFFFFFE)}, GOOD},
    /* TRR */
    {"TRR at the slot", SENDING, {SET(TRR, 8)}, GOOD},
    {"TRR beside the slot", SENDING, {SET(TRR, 16), SET(TRS, 8 + 16)}, BAD},
    {"TRR at the slot and beside it", SENDING, {SET(TRR, 8 + 16), SET(TRS, 8 + 16)}, BAD},
    {"TRR with an empty slot", NORMAL, {SET(TRR, 8), SET(TRS, 8), SET(MC, 8)}, BAD},
    {"TRR without TRS", SENDING, {SET(TRR, 8), SET(TRS, 0)}, BAD},
    /* RML and RFP within RMP */
    {"RML without RMP", NORMAL, {SET(RML, 1)}, BAD},
    {"RML beside RMP", NORMAL, {SET(RML, 3), SET(RMP, 1)}, BAD},
    {"RML as RMP", NORMAL, {SET(RML, 0xFFFFFFFF), SET(RMP, 0xFFFFFFFF)}, GOOD},
    {"RML bit 31 without RMP", NORMAL, {SET(RML, 0xFFFFFFFF), SET(RMP, 0x7FFFFFFF)}, BAD},
    {"RFP without RMP", NORMAL, {SET(RFP, 1)}, BAD},
    {"RFP beside RMP", NORMAL, {SET(RFP, 3), SET(RMP, 1)}, BAD},
    {"RFP as RMP", NORMAL, {SET(RFP, 0xFFFFFFFF), SET(RMP, 0xFFFFFFFF)}, GOOD},
    {"RFP bit 31 without RMP", NORMAL, {SET(RFP, 0xFFFFFFFF), SET(RMP, 0x7FFFFFFF)}, BAD},
    {"RMP alone", NORMAL, {SET(RMP, 0xFFFFFFFF)}, GOOD},
    /* LAM and GAM bits 30 and 29 */
    {"LAM bit 29", NORMAL, {SET(LAM, 1u << 29)}, BAD},
    {"LAM bit 30", NORMAL, {SET(LAM, 1u << 30)}, BAD},
    {"LAM all others", NORMAL, {SET(LAM, 0x9FFFFFFF)}, GOOD},
    {"GAM bit 29", NORMAL, {SET(GAM, 1u << 29)}, BAD},
    {"GAM bit 30", NORMAL, {SET(GAM, 1u << 30)}, BAD},
    {"GAM all others", NORMAL, {SET(GAM, 0x9FFFFFFF)}, GOOD},
    /* a filled slot */
    {"slot filled", SENDING, {{0, 0, 0}}, GOOD},
    {"slot filled in configuration", SENDING, {SET(MODE, CONFIGURATION)}, BAD},
    {"slot filled in suspend", SENDING, {SET(MODE, SUSPEND)}, BAD},
    {"slot filled, TEC 255", SENDING, {SET(TEC, 255)}, GOOD},
    {"slot filled, TEC 256", SENDING, {SET(TEC, 256)}, BAD},
    {"slot filled without its TRS", SENDING, {SET(TRS, 0xFFFFFFF7 & 0x7FFFFFFF)}, BAD},
    {"slot filled without its MC", SENDING, {SET(MC, 0xFFFFFFF7)}, BAD},
    {"slot 30", SENDING, {SET(SLOT, 30), SET(TRS, 1u << 30), SET(MC, 1u << 30)}, GOOD},
    {"slot 0", SENDING, {SET(SLOT, 0), SET(TRS, 1), SET(MC, 1)}, GOOD},
    {"slot 0 without its bits", SENDING, {SET(SLOT, 0)}, BAD},
    {"slot 31", SENDING, {SET(SLOT, 31), SET(TRS, 1u << 31), SET(MC, 1u << 31)}, GOOD_ECAN},
    {"slot 31, as a CAN-B has MD", SENDING,
     {SET(SLOT, 31), SET(TRS, 1u << 31), SET(MC, 1u << 31), SET(MD, 1u << 31)}, BAD},
    {"slot 31, mailbox 31 receives", SENDING, {SET(SLOT, 31), SET(MC, 0xFFFFFFFF), SET(MD, 1u << 31)}, BAD},
    {"slot 31 with an empty slot's words", NORMAL, {SET(SLOT, 31)}, BAD},
    {"slot 31 in configuration", FRESH, {SET(SLOT, 31)}, BAD},
    {"slot 31 without its MC", SENDING, {SET(SLOT, 31), SET(TRS, 1u << 31), SET(MC, 0x7FFFFFFF)}, BAD},
    {"slot 32 is empty", SENDING, {SET(SLOT, 32), SET(TRS, 0x7FFFFFFF), SET(MC, 0xFFFFFFFF)}, GOOD},
    {"slot 32 is not slot 0", SENDING, {SET(SLOT, 32), SET(TRS, 1), SET(MC, 1), SET(TRR, 1)}, BAD},
    {"slot 32, and a TRR left", SENDING, {SET(SLOT, 32), SET(TRR, 8)}, BAD},
    {"slot 33", SENDING, {SET(SLOT, 33), SET(TRS, 0x7FFFFFFF), SET(MC, 0xFFFFFFFF)}, BAD},
    {"slot 35 is not slot 3", SENDING, {SET(SLOT, 35)}, BAD},
    {"empty slot, requests wait", NORMAL, {SET(TRS, 8), SET(MC, 8)}, GOOD},
    /* TEC 256 and the recovery count */
    {"TEC 256", NORMAL, {SET(TEC, 256)}, GOOD},
    {"TEC 256 in configuration", FRESH, {SET(TEC, 256)}, BAD},
    {"TEC 256 in suspend", FRESH, {SET(MODE, SUSPEND), SET(TEC, 256)}, BAD},
    {"TEC 255 in suspend", FRESH, {SET(MODE, SUSPEND), SET(TEC, 255)}, GOOD},
    {"recovery 1 in bus off", BUS_OFF, {SET(RECOVERY, 1)}, GOOD},
    {"recovery 1, TEC 255", NORMAL, {SET(RECOVERY, 1), SET(TEC, 255)}, BAD},
    /* waiting mode */
    {"waiting 0, sending", SENDING, {SET(WAITING, 0)}, BAD},
    {"waiting 1, sending", SENDING, {SET(WAITING, 1)}, GOOD},
    {"waiting 2, sending", SENDING, {SET(WAITING, 2)}, GOOD},
    {"waiting 3, sending", SENDING, {SET(WAITING, 3)}, GOOD},
    {"waiting 0, bus off", BUS_OFF, {SET(WAITING, 0)}, BAD},
    {"waiting 1, bus off", BUS_OFF, {SET(WAITING, 1)}, GOOD},
    {"waiting 2, bus off", BUS_OFF, {SET(WAITING, 2)}, GOOD},
    {"waiting 3, bus off", BUS_OFF, {SET(WAITING, 3)}, GOOD},
    {"waiting 0 for nothing", NORMAL, {SET(WAITING, 0)}, BAD},
    {"waiting 1 for nothing", NORMAL, {SET(WAITING, 1)}, BAD},
    {"waiting 2 for nothing", NORMAL, {SET(WAITING, 2)}, BAD},
    {"waiting 3 for nothing", NORMAL, {SET(WAITING, 3)}, BAD},
    {"waiting 3, TEC 255", NORMAL, {SET(WAITING, 3), SET(TEC, 255)}, BAD},
    {"waiting 1 in configuration", FRESH, {SET(WAITING, 1)}, BAD},
    /* sleep */
    {"asleep", ASLEEP, {{0, 0, 0}}, GOOD},
    {"asleep, TEC 1", ASLEEP, {SET(TEC, 1)}, BAD},
    {"asleep, REC 1", ASLEEP, {SET(REC, 1)}, BAD},
    {"asleep, TRS", ASLEEP, {SET(TRS, 1)}, BAD},
    {"asleep, TRR", ASLEEP, {SET(TRR, 1)}, BAD},
    {"asleep, frames held", ASLEEP, {SET(RMP, 7), SET(RML, 3), SET(MC, 7), SET(TA, 8)}, GOOD},
    /* two clauses broken alike: one must not make up for the other */
    {"TA and AA bit 31", NORMAL, {SET(TA, 0x80000000), SET(AA, 0x80000000)}, GOOD_ECAN},
    {"CDR and MBTIF bit 31", NORMAL, {SET(CDR, 0x80000000), SET(MBTIF, 0x80000000)}, GOOD_ECAN},
    {"AA and CDR bit 31", NORMAL, {SET(AA, 0x80000000), SET(CDR, 0x80000000)}, GOOD_ECAN},
    {"MBTIF bit 31 and MD not", NORMAL, {SET(MBTIF, 0x80000000), SET(MD, 0)}, GOOD_ECAN},
    {"LAM and GAM bit 30", NORMAL, {SET(LAM, 1u << 30), SET(GAM, 1u << 30)}, BAD},
    {"masks 0 and 1 bit 30", NORMAL, {SET(MASK(0), 1u << 30), SET(MASK(1), 1u << 30)}, BAD},
    {"masks 6 and 8 bit 29", NORMAL, {SET(MASK(6), 1u << 29), SET(MASK(8), 1u << 29)}, BAD},
    {"mask 31 and GAM bit 29", NORMAL, {SET(MASK(31), 1u << 29), SET(GAM, 1u << 29)}, BAD},
    {"masks 3 and 4, one bit each", NORMAL, {SET(MASK(3), 1u << 29), SET(MASK(4), 1u << 30)}, BAD},
    {"profile 2 and TSO 2", NORMAL, {SET(PROFILE, 2), SET(TSO, 2)}, BAD},
    {"GIF and GIM 256", NORMAL, {SET(GIF, 256), SET(GIM, 256)}, BAD},
    {"GIM and REC 256", NORMAL, {SET(GIM, 256), SET(REC, 256)}, BAD},
    {"BCR1 and BCR2 1024", NORMAL, {SET(BCR1, 1024), SET(BCR2, 1024)}, BAD},
    {"TSC 65536 and options 65536", NORMAL, {SET(TSC, 65536), SET(OPTIONS, 65536)}, BAD},
    {"mode 4 and options 4", NORMAL, {SET(MODE, 4), SET(OPTIONS, 4)}, BAD},
    {"recovery 128 and TSO 128", BUS_OFF, {SET(RECOVERY, 128), SET(TSO, 128)}, BAD},
    {"words 28 and 29", NORMAL, {SET(SPARE, 7), SET(SPARE + 1, 7)}, BAD},
    {"words 29 and 30", NORMAL, {SET(SPARE + 1, 7), SET(SPARE + 2, 7)}, BAD},
    {"words 30 and 31", NORMAL, {SET(SPARE + 2, 7), SET(SPARE + 3, 7)}, BAD},
    {"RML and RFP without RMP", NORMAL, {SET(RML, 4), SET(RFP, 4)}, BAD},
    {"asleep, TEC and REC 1", ASLEEP, {SET(TEC, 1), SET(REC, 1)}, BAD},
    {"asleep, REC and TRS 1", ASLEEP, {SET(REC, 1), SET(TRS, 1)}, BAD},
    {"words 0 and 1 of a mailbox", NORMAL, {SET(MAILBOX(9, 0), 32), SET(MAILBOX(9, 1), 32)}, BAD},
    {"word 0 of two mailboxes", NORMAL, {SET(MAILBOX(8, 0), 1), SET(MAILBOX(9, 0), 1)}, BAD},
    {"word 1 of two mailboxes", NORMAL, {SET(MAILBOX(8, 1), 32), SET(MAILBOX(9, 1), 32)}, BAD},
    {"a mailbox and a register", NORMAL, {SET(MAILBOX(9, 1), 256), SET(GIF, 256)}, BAD},
    /* what no clause ties together */
    {"RMP, RFP, MBRIF at transmit mailboxes", NORMAL, {SET(RMP, 1), SET(RFP, 1), SET(MBRIF, 1)}, GOOD},
    {"TA, AA, CDR, MBTIF at receive mailboxes", NORMAL,
     {SET(MD, 0xFFFFFFFF), SET(TA, 1), SET(AA, 1), SET(CDR, 1), SET(MBTIF, 1)}, GOOD},
    {"TA and AA at once", NORMAL, {SET(TA, 1), SET(AA, 1)}, GOOD},
    {"TRS at a disabled mailbox", NORMAL, {SET(TRS, 1), SET(MC, 0)}, GOOD},
    {"TSO without GIF bit 3", NORMAL, {SET(TSO, 1)}, GOOD},
    {"GIF without its causes", NORMAL, {SET(GIF, 255)}, GOOD},
    {"interrupts that MBIM does not let through", NORMAL, {SET(MBRIF, 1), SET(MBTIF, 2)}, GOOD},
    {"all of MC, MBRIF, MBIM", FRESH,
     {SET(MC, 0xFFFFFFFF), SET(MBRIF, 0xFFFFFFFF), SET(MBIM, 0xFFFFFFFF)}, GOOD},
    {"all of the protection", FRESH, {SET(PROTECTION, 0xFFFFFFFF)}, GOOD},
    {"protection of what is held, and of what is not", NORMAL, {SET(PROTECTION, 6), SET(RMP, 2)}, GOOD},
    {"protection of a transmit mailbox", SENDING, {SET(PROTECTION, 8)}, GOOD},
    {"protection asleep", ASLEEP, {SET(PROTECTION, 0x80000001), SET(MASK(31), 0x9FFFFFFF)}, GOOD},
    {"LAM, GAM and masks at once", NORMAL,
     {SET(LAM, 0x9FFFFFFF), SET(GAM, 0x9FFFFFFF), SET(MASK(0), 0x9FFFFFFF), SET(MASK(31), 0x9FFFFFFF)}, GOOD},
    /* the profile of the other one */
    {"the words of this profile, as an eCAN's", NORMAL, {SET(PROFILE, ECAN)}, GOOD},
    {"the words of this profile, as a CAN-B's", NORMAL, {SET(PROFILE, CAN_B)}, GOOD_CAN_B}, /* MD bit 31 */
    {"the words of a CAN-B, as an eCAN's", NORMAL, {SET(MD, 0x80000000), SET(PROFILE, ECAN)}, GOOD},
    {"the words of a CAN-B", NORMAL, {SET(MD, 0x80000000), SET(PROFILE, CAN_B)}, GOOD},
};

/* Who is asked, and the profile that the images start from. */
struct asked {
    judge *ask;
    uint32_t profile;
};

/* The profile that the image starts from decides, whatever the edits make of it. */
static inline int good_in(enum verdict good, uint32_t profile)
{
    return good >> profile & 1;
}

static inline void ask_clauses(struct asked by)
{
    uint8_t image[BYTES];

    for (size_t i = 0; i < COUNT(clauses); i++) {
        make_of(image, by.profile, clauses[i].state, clauses[i].edits);
        by.ask(clauses[i].what, image, good_in(clauses[i].good, by.profile));
    }
}

/* Words with a largest value: it is good, the next one and every higher single bit is not. */
static const struct limit {
    const char *what;
    enum state state;
    int word;
    uint32_t most;
} limits[] = {
    {"GIF", NORMAL, GIF, 255},          {"GIM", NORMAL, GIM, 255},
    {"BCR1", NORMAL, BCR1, 1023},       {"BCR2", NORMAL, BCR2, 1023},
    {"TSC", NORMAL, TSC, 65535},        {"TEC", NORMAL, TEC, 256},
    {"REC", NORMAL, REC, 255},          {"mode", FRESH, MODE, 3},
    {"waiting mode", SENDING, WAITING, 4}, {"slot", NORMAL, SLOT, 32},
    {"recovery", BUS_OFF, RECOVERY, 127},  {"options", NORMAL, OPTIONS, 3},
    {"TSO", NORMAL, TSO, 1},            {"word 28", NORMAL, SPARE, 0},
    {"word 29", NORMAL, SPARE + 1, 0},  {"word 30", NORMAL, SPARE + 2, 0},
    {"word 31", NORMAL, SPARE + 3, 0},  {"profile", NORMAL, PROFILE, 1},
};

static inline void ask_limit(struct asked by, struct limit l)
{
    uint8_t image[BYTES];

    make_with_of(image, by.profile, l.state, l.word, l.most);
    by.ask(l.what, image, 1);
    make_with_of(image, by.profile, l.state, l.word, l.most + 1);
    by.ask(l.what, image, 0);
    for (int bit = 31; bit >= 0 && 1u << bit > l.most; bit--) {
        make_with_of(image, by.profile, l.state, l.word, 1u << bit);
        by.ask(l.what, image, 0);
    }
}

static inline void ask_limits(struct asked by)
{
    for (size_t i = 0; i < COUNT(limits); i++)
        ask_limit(by, limits[i]);
}

/* Clauses over two words, at every mailbox: with exactly its bit, and with all bits but that. */
static inline void ask_each_bit(struct asked by, uint32_t n)
{
    uint8_t image[BYTES];
    uint32_t bit = 1u << n;
    const struct edit lost[EDITS] = {SET(RML, bit), SET(RMP, ~bit)};
    const struct edit remote[EDITS] = {SET(RFP, bit), SET(RMP, ~bit)};
    const struct edit both[EDITS] = {SET(RML, bit), SET(RFP, bit), SET(RMP, bit)};
    const struct edit shared[EDITS] = {SET(TRS, bit), SET(MD, bit | 0x80000000)};
    const struct edit apart[EDITS] = {SET(TRS, bit), SET(MD, ~bit)};

    make_of(image, by.profile, NORMAL, lost);
    by.ask("RML at each mailbox", image, 0);
    make_of(image, by.profile, NORMAL, remote);
    by.ask("RFP at each mailbox", image, 0);
    make_of(image, by.profile, NORMAL, both);
    by.ask("RML and RFP at each mailbox", image, 1);
    make_of(image, by.profile, NORMAL, shared);
    by.ask("TRS and MD at each mailbox", image, 0);
    make_of(image, by.profile, NORMAL, apart);
    by.ask("TRS apart from MD at each mailbox", image, n < 31 || by.profile == ECAN);
}

/* A filled slot at mailbox n: TRR there alone, TRS and MC needed there. Mailbox 31 of a CAN-B is in no slot. */
static inline void ask_each_slot(struct asked by, uint32_t n)
{
    uint8_t image[BYTES];
    uint32_t bit = 1u << n, all = by.profile == ECAN ? 0xFFFFFFFF : 0x7FFFFFFF | bit, others = all & ~bit;
    const struct edit full[EDITS] = {SET(SLOT, n), SET(TRS, all), SET(MC, bit)};
    const struct edit trr[EDITS] = {SET(SLOT, n), SET(TRS, bit), SET(MC, bit), SET(TRR, bit)};
    const struct edit no_trs[EDITS] = {SET(SLOT, n), SET(TRS, others), SET(MC, bit)};
    const struct edit no_mc[EDITS] = {SET(SLOT, n), SET(TRS, all), SET(MC, ~bit)};
    int sends = n < 31 || by.profile == ECAN;

    make_of(image, by.profile, NORMAL, full);
    by.ask("each slot", image, sends);
    put(image, TRR, others);
    by.ask("TRR beside each slot", image, 0);
    make_of(image, by.profile, NORMAL, trr);
    by.ask("TRR at each slot", image, sends);
    make_of(image, by.profile, NORMAL, no_trs);
    by.ask("each slot without TRS", image, 0);
    make_of(image, by.profile, NORMAL, no_mc);
    by.ask("each slot without MC", image, 0);
}

/* ---- the layout of each mailbox */

static inline void ask_word(struct asked by, const char *what, int word, uint32_t value, int good)
{
    uint8_t image[BYTES];

    make_with_of(image, by.profile, FRESH, word, value);
    by.ask(what, image, good);
}

static inline void ask_layout(struct asked by, int n)
{
    for (int bit = 0; bit < 31; bit++) {
        ask_word(by, "standard identifier, each bit", MAILBOX(n, 0), 1u << bit, bit >= 18);
        ask_word(by, "extended identifier, each bit", MAILBOX(n, 0), 1u << 31 | 1u << bit, 1);
    }
    ask_word(by, "standard, all that it may have", MAILBOX(n, 0), 0x7FFC0000, 1);
    ask_word(by, "extended, all bits", MAILBOX(n, 0), 0xFFFFFFFF, 1);
    for (int bit = 0; bit < 32; bit++)
        ask_word(by, "word 1, each bit", MAILBOX(n, 1), 1u << bit, bit <= 4 || bit >= 16);
    for (uint32_t dlc = 0; dlc < 16; dlc++)
        ask_word(by, "DLC", MAILBOX(n, 1), dlc, 1);
    ask_word(by, "word 1, all that it may have", MAILBOX(n, 1), 0xFFFF001F, 1);
    ask_word(by, "data bytes 0 to 3", MAILBOX(n, 2), 0xFFFFFFFF, 1);
    ask_word(by, "data bytes 4 to 7", MAILBOX(n, 3), 0xFFFFFFFF, 1);
}

/* Masks have no bits 30 and 29; the protection has any. */
static inline void ask_masks(struct asked by, int n)
{
    for (int bit = 0; bit < 32; bit++)
        ask_word(by, "each bit of each mask", MASK(n), 1u << bit, bit != 30 && bit != 29);
    ask_word(by, "each mask, all that it may have", MASK(n), 0x9FFFFFFF, 1);
    ask_word(by, "each mask, all and bit 29", MASK(n), 0xBFFFFFFF, 0);
    ask_word(by, "each mask, all and bit 30", MASK(n), 0xDFFFFFFF, 0);
    ask_word(by, "each bit of the protection", PROTECTION, 1u << n, 1);
    ask_word(by, "all bits of the protection but one", PROTECTION, ~(1u << n), 1);
}

/* One word of every mailbox, so far apart, has all that it may; one of them has one of the stray bits as well. */
static inline void ask_full_words(struct asked by, const char *what, int first, int apart, uint32_t full,
                                  uint32_t stray)
{
    uint8_t image[BYTES];

    put_fresh_of(image, by.profile);
    for (int n = 0; n < 32; n++)
        put(image, first + apart * n, full);
    by.ask(what, image, 1);
    for (int n = 0; n < 32; n++) {
        for (int bit = 0; bit < 32; bit++) {
            if (!(stray >> bit & 1))
                continue;
            put(image, first + apart * n, full | 1u << bit);
            by.ask(what, image, 0);
        }
        put(image, first + apart * n, full);
    }
}

/* All of them, of one by.profile. */
static inline void ask_about_profile(judge *ask, uint32_t profile)
{
    const struct asked by = {ask, profile};

    ask_clauses(by);
    ask_limits(by);
    for (uint32_t n = 0; n < 32; n++) {
        ask_each_bit(by, n);
        ask_each_slot(by, n);
        ask_layout(by, (int)n);
        ask_masks(by, (int)n);
    }
    ask_full_words(by, "DLC 15 in every mailbox, and one of bits 15 to 5 in one", MAILBOX(0, 1), 4, 0xFFFF001F, 0xFFE0);
    ask_full_words(by, "every mask full, and bit 30 or 29 in one", MASK(0), 1, 0x9FFFFFFF, MASK_SPARE);
}

static inline void ask_about_good_images(judge *ask)
{
    ask_about_profile(ask, CAN_B);
    ask_about_profile(ask, ECAN);
}

#endif
