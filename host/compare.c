/*
 * Holds the library against the reference: compare [STEPS [SEED]].
 *
 * Each step draws an image and an event, hands both to both, and compares the answers and every byte,
 * those around the image too. The images: what a run from fresh has reached; good ones built word by
 * word, and what a few events make of them; either with one clause broken; eCANs that hold and protect much; any bytes;
 * other lengths.
 * Registers are read and models made fresh along the way, and pairs of images compared: equal ones, such
 * that differ in one word or in nearly all, two of a run, bad ones on either side, with too little room for
 * the list, just enough, and more. Frames are explained, most of them such that a mailbox matches or just misses,
 * in rooms of the same kinds; each explanation is held against what a step makes of the frame. Traces go through
 * streams, cut anywhere (compare_streams.c).
 *
 * A line before the sum says how often outcome 3 was taken, and how often by a model that was passive before it,
 * since the two count TEC differently, and how often only REC made it so. Another says how many frames with a DLC of
 * 9 to 15 were stored, data and remote ones, and how many were refused for nothing but a DLC above 15. A third says how
 * many starts without MTOS took a mailbox of the lower and of the upper half, and how many found nothing to send. Then
 * come those of the eCAN: where its frames landed, what mailbox 31 did, which registers were refused in which profile, and
 * that both profiles were made fresh, reset, read and compared. The last ones say what the explanations and the streams
 * have met.
 */
#include <stdlib.h>

#include "check.h"
#include "compare.h"
#include "events.h"
#include "generate.h"
#include "image.h"
#include "reference.h"

#define LONGEST_IMAGE (2 * BYTES)
#define ARENA (LONGEST_IMAGE + 2 * GUARD)
#define LONGEST_LIST (2 * FROSTSORREL_DIFFERENCE_BYTES)
#define LIST_ARENA (LONGEST_LIST + 2 * GUARD)
#define MOST_WORDS 20 /* of an image, in a disagreement that is shown */

struct trial {
    uint8_t image[LONGEST_IMAGE], event[LONGEST_EVENT];
    size_t image_len, event_len;
};

/* What one of the two made of a trial. */
struct result {
    uint8_t arena[ARENA];
    uint64_t answer;
};

typedef uint64_t step_function(uint8_t *, size_t, const uint8_t *, size_t);

static struct result result_of(const struct trial *t, step_function *step)
{
    struct result r;

    memset(r.arena, 0xA5, ARENA);
    memcpy(r.arena + GUARD, t->image, t->image_len);
    r.answer = step(r.arena + GUARD, t->image_len, t->event, t->event_len);
    return r;
}

static int equal(const struct result *a, const struct result *b)
{
    return a->answer == b->answer && memcmp(a->arena, b->arena, ARENA) == 0;
}

static int disagreement(const struct trial *t)
{
    struct result ours = result_of(t, frostsorrel_step), theirs = result_of(t, reference_step);

    return !equal(&ours, &theirs);
}

/* ---- a disagreement is made as small as it can be, and printed */

/* Takes a change back where the two would agree after it. Answers whether it was kept. */
static int try_change(struct trial *t, uint8_t *at, const uint8_t *simpler, size_t len)
{
    uint8_t old[4];

    if (memcmp(at, simpler, len) == 0)
        return 0;
    memcpy(old, at, len);
    memcpy(at, simpler, len);
    if (disagreement(t))
        return 1;
    memcpy(at, old, len);
    return 0;
}

/* A word of the image as a fresh one has it, or with fewer bits beyond those. */
static int try_simpler_word(struct trial *t, size_t at, const uint8_t *fresh)
{
    int changed = try_change(t, t->image + at, fresh + at, 4);

    for (int bit = 0; bit < 32; bit++) {
        uint8_t simpler = (uint8_t)~(1u << bit % 8) | fresh[at + bit / 8];

        simpler &= t->image[at + bit / 8];
        changed |= try_change(t, t->image + at + bit / 8, &simpler, 1);
    }
    return changed;
}

/* What is shown of an image is beside a fresh one of its profile. */
static void put_fresh_like(uint8_t *fresh, const uint8_t *image, size_t image_len)
{
    put_fresh_of(fresh, image_len == BYTES && word_of(image, PROFILE) == ECAN ? ECAN : CAN_B);
}

static void shrink(struct trial *t)
{
    static const uint8_t zero;
    uint8_t fresh[BYTES];
    int changed = 1;

    put_fresh_like(fresh, t->image, t->image_len);
    while (changed) {
        changed = 0;
        for (size_t i = 0; t->image_len == BYTES && i < BYTES; i += 4)
            changed |= try_simpler_word(t, i, fresh);
        for (size_t i = 0; i < t->event_len; i++)
            changed |= try_change(t, t->event + i, &zero, 1);
    }
}

static void print_words(const char *what, const uint8_t *first, const uint8_t *second)
{
    int differ = 0;

    for (int word = 0; word < WORDS; word++)
        if (word_of(first, word) != word_of(second, word) && ++differ <= MOST_WORDS)
            printf("    %s: %s 0x%08lX, 0x%08lX\n", what, word_name(word),
                   (unsigned long)word_of(first, word), (unsigned long)word_of(second, word));
    if (differ > MOST_WORDS)
        printf("    %s: and %d words more\n", what, differ - MOST_WORDS);
}

static void print_trial(const uint8_t *image, size_t image_len, const uint8_t *event, size_t event_len)
{
    uint8_t fresh[BYTES];

    printf("    image of %lu bytes, event of %lu:", (unsigned long)image_len, (unsigned long)event_len);
    for (size_t i = 0; i < event_len; i++)
        printf(" %02X", event[i]);
    printf("\n");
    put_fresh_like(fresh, image, image_len);
    if (image_len == BYTES)
        print_words("image, and fresh", image, fresh);
    if (image_len == BYTES)
        printf("    profile %lu\n", (unsigned long)word_of(image, PROFILE));
}

static void show(struct trial t)
{
    struct result ours, theirs;

    shrink(&t);
    ours = result_of(&t, frostsorrel_step);
    theirs = result_of(&t, reference_step);
    print_trial(t.image, t.image_len, t.event, t.event_len);
    print_answer("library", ours.answer);
    print_answer("reference", theirs.answer);
    if (t.image_len == BYTES)
        print_words("library, and reference", ours.arena + GUARD, theirs.arena + GUARD);
}

/* ---- outcome 3, as it was taken by models that were error active before it, passive by TEC, and by REC alone */

static unsigned long by_active, by_tec, by_rec_alone;

static int is_passive_count(uint32_t counter)
{
    return counter > FROSTSORREL_PASSIVE_ABOVE;
}

static void count_unacknowledged(const struct trial *t, uint64_t answer)
{
    if (t->event[0] != FROSTSORREL_OUTCOME || t->event[1] != UNACKNOWLEDGED ||
        frostsorrel_answer_refusal(answer) != FROSTSORREL_ACCEPTED)
        return;
    if (is_passive_count(word_of(t->image, TEC)))
        by_tec++;
    else if (is_passive_count(word_of(t->image, REC)))
        by_rec_alone++;
    else
        by_active++;
}

static void check_unacknowledged(unsigned long steps)
{
    unsigned long passive = by_tec + by_rec_alone;

    printf("outcome 3: %lu accepted, of them %lu passive, %lu by REC alone\n", by_active + passive, passive,
           by_rec_alone);
    check(steps < LONG_ENOUGH || (by_active > 0 && by_tec > 0 && by_rec_alone > 0),
          "outcome 3 was not met error active, passive by TEC and passive by REC alone");
}

/* ---- DLC 9 to 15, as frames had them that were stored; and those above, which are refused for that alone */

static unsigned long data_stored, remote_stored, dlc_refused;

static int is_stored(const struct trial *t, uint64_t answer)
{
    uint32_t n = frostsorrel_answer_mailbox(answer);

    return frostsorrel_answer_refusal(answer) == FROSTSORREL_ACCEPTED && n < FROSTSORREL_MAILBOXES &&
           word_of(t->image, MD) >> n & 1;
}

/* With the highest that is allowed in its place, refusal 4 would have no reason. */
static int is_refused_for_its_dlc(struct trial t, uint64_t answer)
{
    if (t.event[1] <= FROSTSORREL_HIGHEST_DLC || frostsorrel_answer_refusal(answer) != FROSTSORREL_NOT_ALLOWED)
        return 0;
    t.event[1] = FROSTSORREL_HIGHEST_DLC;
    return frostsorrel_answer_refusal(result_of(&t, reference_step).answer) != FROSTSORREL_NOT_ALLOWED;
}

static void count_dlc(const struct trial *t, uint64_t answer)
{
    if (t->event[0] != FROSTSORREL_FRAME || t->event[1] <= FROSTSORREL_MOST_DATA_BYTES)
        return;
    if (is_refused_for_its_dlc(*t, answer))
        dlc_refused++;
    else if (is_stored(t, answer) && frostsorrel_event_value(t->event) & FROSTSORREL_FRAME_RTR)
        remote_stored++;
    else if (is_stored(t, answer))
        data_stored++;
}

static void check_dlc(unsigned long steps)
{
    printf("DLC 9 to 15: %lu frames stored, of them %lu remote; above 15: %lu refused\n",
           data_stored + remote_stored, remote_stored, dlc_refused);
    check(steps < LONG_ENOUGH || (data_stored > 0 && remote_stored > 0 && dlc_refused > 0),
          "a data frame of DLC 9 to 15 stored, such a remote frame, and a DLC above 15 were not all met");
}

/* ---- starts without MTOS: what they took */

enum { TOOK_LOW, TOOK_HIGH, TOOK_NONE };

static struct tally starts[] = {
    [TOOK_LOW] = {"without MTOS", "took one of mailboxes 0 to 15", 0},
    [TOOK_HIGH] = {"without MTOS", "took one of 16 to 31", 0},
    [TOOK_NONE] = {"without MTOS", "found nothing", 0},
};
#define STARTS (sizeof starts / sizeof starts[0])

static int is_on_bus(const uint8_t *image)
{
    return word_of(image, MODE) == NORMAL_MODE && word_of(image, TEC) != BUS_OFF_TEC;
}

static void count_start(const struct trial *t, uint64_t answer)
{
    uint32_t n = frostsorrel_answer_mailbox(answer);

    if (t->event[0] != FROSTSORREL_START || frostsorrel_answer_refusal(answer) != FROSTSORREL_ACCEPTED ||
        !is_on_bus(t->image) || word_of(t->image, OPTIONS) & FROSTSORREL_MTOS)
        return;
    starts[n == FROSTSORREL_NO_MAILBOX ? TOOK_NONE : n < FROSTSORREL_MAILBOXES / 2 ? TOOK_LOW : TOOK_HIGH].times++;
}

/* ---- the eCAN, and what the CAN-B does not take of it */

enum own_met {
    PASSED_BY_ALL, PASSED_REMOTE, PASSED_THEN_LOWER, PASSED_THEN_OVERWROTE, PASSED_THEN_REPLY, PASSED_THEN_SILENT,
    NOT_PASSED_EMPTY, NOT_PASSED_OPEN, NOT_PASSED_TRANSMITS, NOT_PASSED_IN_CAN_B,
    STORED_BY_OWN_MASK, STORED_AT_31, STORED_AT_0,
    STARTED_31, SENT_31, FAILED_31, ABORTED_31, REPLIED_31, BUSY_31, CDR_31, TRS_31, MD_31,
    WROTE_MASK, WROTE_PROTECTION, MASK_BITS, OWN_IN_CAN_B, SHARED_IN_ECAN, OWN_ASLEEP, UNKNOWN_97,
    RESET_ECAN, RESET_CLEARED,
    OLD_IMAGE, BAD_PROFILE, BAD_MASK, SLOT_31_IN_CAN_B, SLOT_33
};

static struct tally own_tallies[] = {
    [PASSED_BY_ALL] = {"frames passed over", "by all that match", 0},
    [PASSED_REMOTE] = {"frames passed over", "of these remote", 0},
    [PASSED_THEN_LOWER] = {"frames passed over", "and stored lower", 0},
    [PASSED_THEN_OVERWROTE] = {"frames passed over", "and stored lower over another", 0},
    [PASSED_THEN_REPLY] = {"frames passed over", "and asked for a reply lower", 0},
    [PASSED_THEN_SILENT] = {"frames passed over", "and stopped at RFH 0 lower", 0},
    [NOT_PASSED_EMPTY] = {"frames not passed over", "protected, but nothing held", 0},
    [NOT_PASSED_OPEN] = {"frames not passed over", "held, but not protected", 0},
    [NOT_PASSED_TRANSMITS] = {"frames not passed over", "transmits, all bits up", 0},
    [NOT_PASSED_IN_CAN_B] = {"frames not passed over", "all bits up in a CAN-B", 0},
    [STORED_BY_OWN_MASK] = {"stored in an eCAN", "under the own mask alone", 0},
    [STORED_AT_31] = {"stored in an eCAN", "in mailbox 31", 0},
    [STORED_AT_0] = {"stored in an eCAN", "in mailbox 0", 0},
    [STARTED_31] = {"mailbox 31 of an eCAN", "starts", 0},
    [SENT_31] = {"mailbox 31 of an eCAN", "sent", 0},
    [FAILED_31] = {"mailbox 31 of an eCAN", "other outcomes", 0},
    [ABORTED_31] = {"mailbox 31 of an eCAN", "requests cancelled", 0},
    [REPLIED_31] = {"mailbox 31 of an eCAN", "replies", 0},
    [BUSY_31] = {"mailbox 31 of an eCAN", "busy while it was sent", 0},
    [CDR_31] = {"mailbox 31 of an eCAN", "CDR set", 0},
    [TRS_31] = {"mailbox 31 of an eCAN", "TRS set", 0},
    [MD_31] = {"mailbox 31 of an eCAN", "turned round", 0},
    [WROTE_MASK] = {"registers 64 to 96", "masks written", 0},
    [WROTE_PROTECTION] = {"registers 64 to 96", "protections written", 0},
    [MASK_BITS] = {"registers 64 to 96", "masks refused for bits 30, 29", 0},
    [OWN_IN_CAN_B] = {"registers 64 to 96", "refused in a CAN-B", 0},
    [SHARED_IN_ECAN] = {"registers 64 to 96", "LAM and GAM refused in an eCAN", 0},
    [OWN_ASLEEP] = {"registers 64 to 96", "refused asleep", 0},
    [UNKNOWN_97] = {"registers 64 to 96", "63 and 97 unknown", 0},
    [RESET_ECAN] = {"resets of an eCAN", "taken", 0},
    [RESET_CLEARED] = {"resets of an eCAN", "that cleared masks and protection", 0},
    [OLD_IMAGE] = {"images refused", "of 640 bytes", 0},
    [BAD_PROFILE] = {"images refused", "for the profile", 0},
    [BAD_MASK] = {"images refused", "for a mask", 0},
    [SLOT_31_IN_CAN_B] = {"images refused", "slot 31 in a CAN-B", 0},
    [SLOT_33] = {"images refused", "slot 33 or above", 0},
};
#define OWN_TALLIES (sizeof own_tallies / sizeof own_tallies[0])

static void own_met(enum own_met what, int holds)
{
    own_tallies[what].times += holds != 0;
}

static int is_ecan(const uint8_t *image)
{
    return word_of(image, PROFILE) == ECAN;
}

static int has(const uint8_t *image, int word, uint32_t n)
{
    return n < FROSTSORREL_MAILBOXES && word_of(image, word) >> n & 1;
}

/* Could protection pass a frame over at this mailbox, but that it transmits, or that this is a CAN-B? */
static int has_guard(const uint8_t *image, uint32_t n)
{
    return has(image, PROTECTION, n) && has(image, RMP, n);
}

/* The explanation of the frame by the reference: whether a line says protected, and where the search ended. */
static int is_passed_over(const struct trial *t, uint32_t *stop)
{
    uint8_t list[FROSTSORREL_EXPLANATION_BYTES];
    uint64_t answer = reference_explain(t->image, t->image_len, t->event, t->event_len, list, sizeof list);
    int passed = 0;

    *stop = FROSTSORREL_NO_MAILBOX;
    for (size_t i = 0; i < frostsorrel_answer_count(answer); i++) {
        passed |= frostsorrel_line_reason(list, i) == FROSTSORREL_PROTECTED;
        if (frostsorrel_line_reason(list, i) == FROSTSORREL_MATCHED)
            *stop = frostsorrel_line_mailbox(list, i);
    }
    return passed;
}

static void count_passed_over(const struct trial *t, uint32_t stop)
{
    int stores = has(t->image, MD, stop), nowhere = stop == FROSTSORREL_NO_MAILBOX;
    int replies = !nowhere && !stores && word_of(t->image, MAILBOX((int)stop, 0)) & RFH;

    own_met(PASSED_BY_ALL, nowhere);
    own_met(PASSED_REMOTE, nowhere && frostsorrel_event_value(t->event) & FROSTSORREL_FRAME_RTR);
    own_met(PASSED_THEN_LOWER, stores);
    own_met(PASSED_THEN_OVERWROTE, stores && has(t->image, RMP, stop));
    own_met(PASSED_THEN_REPLY, replies);
    own_met(PASSED_THEN_SILENT, !nowhere && !stores && !replies);
}

/* Of a frame that stopped at this mailbox. */
static void count_stop(const struct trial *t, uint32_t n)
{
    uint32_t own = word_of(t->image, MAILBOX((int)n, 0)), frame = frostsorrel_event_value(t->event);
    int stores = has(t->image, MD, n), ecan = is_ecan(t->image);

    own_met(NOT_PASSED_EMPTY, ecan && stores && has(t->image, PROTECTION, n) && !has(t->image, RMP, n));
    own_met(NOT_PASSED_OPEN, ecan && stores && !has(t->image, PROTECTION, n) && has(t->image, RMP, n));
    own_met(NOT_PASSED_TRANSMITS, ecan && !stores && has_guard(t->image, n));
    own_met(NOT_PASSED_IN_CAN_B, !ecan && stores && has_guard(t->image, n));
    own_met(STORED_BY_OWN_MASK, ecan && stores && own & MASKED && (own ^ frame) & FROSTSORREL_IDE);
    own_met(STORED_AT_31, ecan && stores && n == 31);
    own_met(STORED_AT_0, ecan && stores && n == 0);
    own_met(REPLIED_31, !stores && n == 31 && own & RFH);
}

static void count_frame(const struct trial *t)
{
    uint32_t stop;
    int passed = is_passed_over(t, &stop);

    if (passed)
        count_passed_over(t, stop);
    if (stop < FROSTSORREL_MAILBOXES)
        count_stop(t, stop);
}

/* Register writes that were taken, in an eCAN. */
static void count_write(const struct trial *t)
{
    uint32_t number = t->event[1], value = frostsorrel_event_value(t->event);
    int is_31 = value >> 31 != 0;

    own_met(WROTE_MASK, number >= FROSTSORREL_MASK_0 && number <= FROSTSORREL_MASK_31);
    own_met(WROTE_PROTECTION, number == FROSTSORREL_PROTECTION);
    own_met(CDR_31, number == FROSTSORREL_CDR && is_31);
    own_met(TRS_31, number == FROSTSORREL_TRS && is_31 && !has(t->image, MD, 31) && !has(t->image, TRS, 31));
    own_met(ABORTED_31, number == FROSTSORREL_TRR && is_31 && has(t->image, TRS, 31));
    own_met(MD_31, number == FROSTSORREL_MD && is_31 != has(t->image, MD, 31));
}

static int has_words_of_ecan(const uint8_t *image)
{
    static const uint8_t zeros[4 * FROSTSORREL_MAILBOXES + 4];

    return memcmp(image + 4 * MASKS, zeros, sizeof zeros) != 0;
}

static void count_taken_by_ecan(const struct trial *t, uint64_t answer)
{
    uint32_t n = frostsorrel_answer_mailbox(answer);

    switch (t->event[0]) {
    case FROSTSORREL_WRITE_REGISTER: count_write(t); break;
    case FROSTSORREL_START: own_met(STARTED_31, n == 31); break;
    case FROSTSORREL_OUTCOME: own_met(t->event[1] == SENT ? SENT_31 : FAILED_31, n == 31); break;
    case FROSTSORREL_RESET:
        own_met(RESET_ECAN, 1);
        own_met(RESET_CLEARED, has_words_of_ecan(t->image));
        break;
    default: break;
    }
}

static void count_refused_write(const struct trial *t, uint32_t refusal)
{
    uint32_t number = t->event[1], stray = frostsorrel_event_value(t->event) & MASK_SPARE;
    int own = number >= FROSTSORREL_MASK_0 && number <= FROSTSORREL_PROTECTION;
    int locked = refusal == FROSTSORREL_LOCKED;

    own_met(MASK_BITS, own && number < FROSTSORREL_PROTECTION && refusal == FROSTSORREL_NOT_ALLOWED && stray);
    own_met(OWN_IN_CAN_B, own && locked);
    own_met(SHARED_IN_ECAN, (number == FROSTSORREL_LAM || number == FROSTSORREL_GAM) && locked);
    own_met(OWN_ASLEEP, own && refusal == FROSTSORREL_ASLEEP);
    own_met(UNKNOWN_97, refusal == FROSTSORREL_UNKNOWN && (number == 63 || number == 97));
}

/* With the word as it would be in a good image, refusal 1 would have no reason. */
static int is_refused_for(struct trial t, int word, uint32_t better)
{
    put(t.image, word, better);
    return frostsorrel_answer_refusal(result_of(&t, reference_step).answer) != FROSTSORREL_BAD_IMAGE;
}

static void count_bad_image(const struct trial *t)
{
    uint32_t slot, profile;

    own_met(OLD_IMAGE, t->image_len == 640);
    if (t->image_len != BYTES)
        return;
    slot = word_of(t->image, SLOT);
    profile = word_of(t->image, PROFILE);
    own_met(BAD_PROFILE, profile > ECAN && is_refused_for(*t, PROFILE, ECAN));
    own_met(SLOT_31_IN_CAN_B, slot == 31 && profile == CAN_B && is_refused_for(*t, SLOT, EMPTY_SLOT));
    own_met(SLOT_33, slot > EMPTY_SLOT && is_refused_for(*t, SLOT, EMPTY_SLOT));
    for (int n = 0; n < FROSTSORREL_MAILBOXES; n++)
        own_met(BAD_MASK, word_of(t->image, MASK(n)) & MASK_SPARE && is_refused_for(*t, MASK(n), 0));
}

static void count_ecan(const struct trial *t, uint64_t answer)
{
    uint32_t refusal = frostsorrel_answer_refusal(answer);

    if (refusal == FROSTSORREL_BAD_IMAGE) {
        count_bad_image(t);
        return;
    }
    if (t->event_len != EVENT_BYTES)
        return;
    own_met(BUSY_31, refusal == FROSTSORREL_BUSY && word_of(t->image, SLOT) == 31);
    if (refusal == FROSTSORREL_ACCEPTED && is_ecan(t->image))
        count_taken_by_ecan(t, answer);
    if (refusal == FROSTSORREL_ACCEPTED && t->event[0] == FROSTSORREL_FRAME)
        count_frame(t);
    if (refusal != FROSTSORREL_ACCEPTED && t->event[0] == FROSTSORREL_WRITE_REGISTER)
        count_refused_write(t, refusal);
}

/* ---- what is tried */

static uint8_t reached[BYTES]; /* by a run from a fresh model, of one profile after the other */
static uint8_t built[BYTES];   /* word by word, then some events */

enum source { REACHED, BUILT, REACHED_SPOILED, BUILT_SPOILED, OVERLOADED, ANY_BYTES, OTHER_LENGTH };

static enum source draw_source(void)
{
    uint32_t n = draw(100);

    return n < 32 ? REACHED : n < 67 ? BUILT : n < 74 ? REACHED_SPOILED : n < 82 ? BUILT_SPOILED
           : n < 94 ? OVERLOADED : n < 97 ? ANY_BYTES : OTHER_LENGTH;
}

static size_t other_length(void)
{
    static const size_t lengths[] = {0, 1, 4, 512, 640, BYTES - 4, BYTES - 1, BYTES + 1, LONGEST_IMAGE};

    return draw(2) ? draw(LONGEST_IMAGE + 1) : lengths[draw(sizeof lengths / sizeof lengths[0])];
}

static void draw_image(uint8_t *image, enum source source)
{
    switch (source) {
    case ANY_BYTES: break;
    case OVERLOADED: overloaded_image(image); break;
    case BUILT: case BUILT_SPOILED: memcpy(image, built, BYTES); break;
    default: memcpy(image, reached, BYTES);
    }
}

static size_t draw_event_for(uint8_t *event, const uint8_t *image, enum source source)
{
    if (source == OVERLOADED && draw(2))
        return frame_near_a_mailbox(event, image);
    return (source == REACHED ? likely_event : varied_event)(event, image);
}

static void draw_trial(struct trial *t, enum source source)
{
    draw_bytes(t->image, LONGEST_IMAGE);
    t->image_len = source == OTHER_LENGTH ? other_length() : BYTES;
    draw_image(t->image, source);
    t->event_len = draw_event_for(t->event, t->image, source);
    if (source == REACHED_SPOILED || source == BUILT_SPOILED)
        spoil(t->image);
}

/* One image goes on from fresh for long, the other is built anew again and again. */
static void renew(void)
{
    if (draw(1500) == 0)
        put_fresh_of(reached, draw(PROFILES));
    if (draw(6) == 0)
        good_image(built);
}

static void compare_step(unsigned long number)
{
    static int shown;
    enum source source = draw_source();
    struct trial t;
    struct result ours, theirs;

    draw_trial(&t, source);
    ours = result_of(&t, frostsorrel_step);
    theirs = result_of(&t, reference_step);
    check(equal(&ours, &theirs), "step %lu: library and reference disagree", number);
    if (!equal(&ours, &theirs) && shown++ < MOST_SHOWN)
        show(t);
    count_unacknowledged(&t, ours.answer);
    count_dlc(&t, ours.answer);
    count_start(&t, ours.answer);
    count_ecan(&t, ours.answer);
    if (source == REACHED)
        memcpy(reached, theirs.arena + GUARD, BYTES);
    if (source == BUILT)
        memcpy(built, theirs.arena + GUARD, BYTES);
}

/* ---- reads, and fresh models */

enum read_met { READ_GSR, GSR_IN_ECAN, GSR_ASLEEP, OWN_OF_CAN_B, OWN_OF_ECAN, OWN_READ_ASLEEP, MADE_CAN_B, MADE_ECAN, NOT_MADE };

static struct tally read_tallies[] = {
    [READ_GSR] = {"read", "GSR of a CAN-B", 0},
    [GSR_IN_ECAN] = {"read", "GSR of an eCAN, refused", 0},
    [GSR_ASLEEP] = {"read", "of these asleep", 0},
    [OWN_OF_CAN_B] = {"read", "64 to 96 of a CAN-B", 0},
    [OWN_OF_ECAN] = {"read", "64 to 96 of an eCAN", 0},
    [OWN_READ_ASLEEP] = {"read", "of these asleep", 0},
    [MADE_CAN_B] = {"fresh", "CAN-Bs", 0},
    [MADE_ECAN] = {"fresh", "eCANs", 0},
    [NOT_MADE] = {"fresh", "refused for the profile", 0},
};
#define READ_TALLIES (sizeof read_tallies / sizeof read_tallies[0])

static void read_met(enum read_met what, int holds)
{
    read_tallies[what].times += holds != 0;
}

/* Of an image that is good: refusal 2 at 22 says so. */
static void count_read(const struct trial *t, uint32_t name)
{
    int own = name >= FROSTSORREL_MASK_0 && name <= FROSTSORREL_PROTECTION, gsr = name == FROSTSORREL_GSR, asleep;

    if (frostsorrel_read_refusal(reference_read(t->image, t->image_len, 22)) != FROSTSORREL_UNKNOWN)
        return;
    asleep = word_of(t->image, MODE) == SLEEP;
    read_met(READ_GSR, gsr && !is_ecan(t->image));
    read_met(GSR_IN_ECAN, gsr && is_ecan(t->image));
    read_met(GSR_ASLEEP, gsr && is_ecan(t->image) && asleep);
    read_met(OWN_OF_CAN_B, own && !is_ecan(t->image));
    read_met(OWN_OF_ECAN, own && is_ecan(t->image));
    read_met(OWN_READ_ASLEEP, own && asleep);
}

/* A register, one beside those that are there, or any number. */
static uint32_t draw_number(void)
{
    switch (draw(8)) {
    case 0: return draw(0xFFFFFFFF);
    case 1: return FROSTSORREL_GSR;
    case 2: case 3: return FROSTSORREL_MASK_0 - 2 + draw(37);
    default: return draw(34);
    }
}

static void compare_read(unsigned long number)
{
    struct trial t;
    uint32_t name = draw_number();
    uint64_t ours, theirs;

    draw_trial(&t, draw_source());
    ours = frostsorrel_read(t.image, t.image_len, name);
    theirs = reference_read(t.image, t.image_len, name);
    check(ours == theirs, "step %lu: register %lu reads 0x%llX, in the reference 0x%llX", number,
          (unsigned long)name, (unsigned long long)ours, (unsigned long long)theirs);
    count_read(&t, name);
}

static void compare_fresh(unsigned long number)
{
    struct result ours, theirs;
    size_t len = draw(4) ? BYTES : other_length();
    uint32_t profile = draw(4) ? draw(PROFILES + 1) : draw(0xFFFFFFFF);

    draw_bytes(ours.arena, ARENA);
    memcpy(theirs.arena, ours.arena, ARENA);
    ours.answer = frostsorrel_fresh(ours.arena + GUARD, len, profile);
    theirs.answer = reference_fresh(theirs.arena + GUARD, len, profile);
    check(equal(&ours, &theirs), "step %lu: fresh of %lu bytes, profile %lu", number, (unsigned long)len,
          (unsigned long)profile);
    read_met(MADE_CAN_B, len == BYTES && profile == CAN_B);
    read_met(MADE_ECAN, len == BYTES && profile == ECAN);
    read_met(NOT_MADE, len == BYTES && profile > ECAN);
}

/* ---- calls that are lent two things to read, and bytes for a list */

struct pair {
    uint8_t first[LONGEST_IMAGE], second[LONGEST_IMAGE];
    uint8_t list[LIST_ARENA]; /* what stands there before the call */
    size_t first_len, second_len, list_len;
    int one_image; /* two equal images are one, handed over twice */
};

/* What one of the two made of a pair. */
struct effect {
    uint8_t first[ARENA], second[ARENA], list[LIST_ARENA];
    uint64_t answer;
};

/* What both do, each by a call of its own. */
struct twins {
    const char *what;
    list_function *ours, *theirs;
    size_t part, most; /* the bytes of an entry or a line, and the room for any list */
    int shown;         /* disagreements */
};

static struct twins comparing = {"compare two images", frostsorrel_compare, reference_compare,
                                 FROSTSORREL_ENTRY_BYTES, FROSTSORREL_DIFFERENCE_BYTES, 0};
static struct twins explaining = {"explain a frame", frostsorrel_explain, reference_explain,
                                  FROSTSORREL_LINE_BYTES, FROSTSORREL_EXPLANATION_BYTES, 0};

static struct effect effect_of(const struct pair *p, list_function *function)
{
    struct effect e;

    memset(e.first, 0xA5, ARENA);
    memset(e.second, 0xA5, ARENA);
    memcpy(e.first + GUARD, p->first, p->first_len);
    memcpy(e.second + GUARD, p->second, p->second_len);
    memcpy(e.list, p->list, LIST_ARENA);
    e.answer = function(e.first + GUARD, p->first_len, (p->one_image ? e.first : e.second) + GUARD,
                        p->second_len, e.list + GUARD, p->list_len);
    return e;
}

static int equal_effects(const struct effect *a, const struct effect *b)
{
    return a->answer == b->answer && memcmp(a->list, b->list, LIST_ARENA) == 0 &&
           memcmp(a->first, b->first, ARENA) == 0 && memcmp(a->second, b->second, ARENA) == 0;
}

static int differ(const struct pair *p, const struct twins *call)
{
    struct effect ours = effect_of(p, call->ours), theirs = effect_of(p, call->theirs);

    return !equal_effects(&ours, &theirs);
}

/* A change stays where the two still disagree, in as much room or in that of one part less. Answers whether. */
static int kept(struct pair *p, const struct pair *old, const struct twins *call)
{
    if (differ(p, call))
        return 1;
    p->list_len -= p->list_len < call->part ? 0 : call->part;
    if (differ(p, call))
        return 1;
    *p = *old;
    return 0;
}

/* One byte all over the list: what was written there can then be told from what stood there. */
static void try_plain_list(struct pair *p, const struct twins *call)
{
    struct pair old = *p;

    memset(p->list, 0xA5, LIST_ARENA);
    if (!differ(p, call))
        *p = old;
}

static void print_effects(const struct pair *p, const struct twins *call)
{
    struct effect ours = effect_of(p, call->ours), theirs = effect_of(p, call->theirs);

    printf("    a list of %lu bytes\n", (unsigned long)p->list_len);
    print_answer("library", ours.answer);
    print_answer("reference", theirs.answer);
    print_first_byte("list", ours.list, theirs.list, LIST_ARENA);
    print_first_byte("lent first", ours.first, theirs.first, ARENA);
    print_first_byte("lent second", ours.second, theirs.second, ARENA);
}

typedef void show_function(struct pair p);

/* Makes both calls, and answers what the library's did. */
static struct effect effect_of_both(unsigned long number, const struct pair *p, struct twins *call,
                                    show_function *show)
{
    struct effect ours = effect_of(p, call->ours), theirs = effect_of(p, call->theirs);
    int same = equal_effects(&ours, &theirs);

    check(same, "step %lu: library and reference %s differently", number, call->what);
    if (!same && call->shown++ < MOST_SHOWN)
        show(*p);
    return ours;
}

/* Where the whole list has this many bytes: none, too few, just enough, more, and more than any list has. */
static size_t draw_room(size_t whole, const struct twins *call)
{
    switch (draw(8)) {
    case 0: return 0;
    case 1: return draw((uint32_t)whole + 1);
    case 2: return whole - (whole > 0);
    case 3: return whole;
    case 4: return whole + draw(2);
    case 5: return whole + 1 + draw(2 * (uint32_t)call->part);
    case 6: return call->most;
    default: return LONGEST_LIST;
    }
}

/* ---- two images compared */

static int try_word(struct pair *p, int word, uint32_t first, uint32_t second)
{
    struct pair old = *p;

    if (word_of(p->first, word) == first && word_of(p->second, word) == second)
        return 0;
    put(p->first, word, first);
    put(p->second, word, second);
    return kept(p, &old, &comparing);
}

/* Words as a fresh image has them in both, or else equal in both. */
static void shrink_pair(struct pair *p)
{
    uint8_t fresh[BYTES];
    int changed = p->first_len == BYTES && p->second_len == BYTES;

    try_plain_list(p, &comparing);
    put_fresh(fresh);
    while (changed) {
        changed = 0;
        for (int word = 0; word < WORDS; word++) {
            uint32_t usual = word_of(fresh, word), first = word_of(p->first, word);

            changed |= try_word(p, word, usual, usual) || try_word(p, word, first, first);
        }
    }
}

static void show_pair(struct pair p)
{
    uint8_t fresh[BYTES];

    shrink_pair(&p);
    printf("    %s of %lu and %lu bytes\n", p.one_image ? "one image twice," : "images",
           (unsigned long)p.first_len, (unsigned long)p.second_len);
    put_fresh(fresh);
    if (p.first_len == BYTES)
        print_words("first, and fresh", p.first, fresh);
    if (p.first_len == BYTES && p.second_len == BYTES)
        print_words("first, and second", p.first, p.second);
    print_effects(&p, &comparing);
}

static int is_good(const uint8_t *image)
{
    return frostsorrel_read_refusal(reference_read(image, BYTES, FROSTSORREL_MC)) == 0;
}

/* Another content of a word of a good image, if one of those tried leaves it good. */
static void vary(uint8_t *image, int word)
{
    uint32_t old = word_of(image, word);

    for (int tries = 0; tries < 8; tries++) {
        put(image, word, old ^ 1u << draw(32));
        if (is_good(image))
            return;
    }
    put(image, word, old);
}

static void vary_some(uint8_t *image, uint32_t count)
{
    for (; count > 0; count--)
        vary(image, (int)draw(WORDS));
}

/*
 * As unlike as can be, or nearly. Two good images never differ in all 194 words, and 189 are the most: words
 * 28 to 31 are always 0, and TRR, mode and recovery count cannot all differ. TRR needs a filled slot, a
 * recovery count needs bus off; no image has both, and each of them is in normal mode.
 */
static void vary_equal(uint8_t *image, const uint8_t *other)
{
    for (int word = 0; word < WORDS; word++)
        if (word_of(image, word) == word_of(other, word))
            vary(image, word);
}

static void draw_good_pair(uint8_t *first, uint8_t *second)
{
    uint8_t event[LONGEST_EVENT];
    uint32_t kind = draw(7);
    size_t len;

    memcpy(first, draw(2) ? reached : built, BYTES);
    memcpy(second, first, BYTES);
    switch (kind) {
    case 0: break; /* equal */
    case 1: vary_some(second, 1); break;
    case 2: vary_some(second, 2 + draw(8)); break;
    case 3: vary_some(second, draw(2 * WORDS)); break;
    case 4: /* the next one of a run */
        len = likely_event(event, first);
        reference_step(second, BYTES, event, len);
        break;
    case 5: good_image(second); break;
    default:
        good_image(second);
        vary_equal(second, first);
    }
}

/* Answers the image's length. */
static size_t make_bad(uint8_t *image)
{
    switch (draw(4)) {
    case 0: draw_bytes(image, BYTES); return BYTES;
    case 1: return other_length();
    default: spoil(image); return BYTES;
    }
}

/* One pair in three: its first image, its second, both, or both alike. */
static void spoil_pair(struct pair *p)
{
    switch (draw(12)) {
    case 0: p->first_len = make_bad(p->first); break;
    case 1: p->second_len = make_bad(p->second); break;
    case 2:
        p->first_len = make_bad(p->first);
        p->second_len = make_bad(p->second);
        break;
    case 3:
        p->first_len = p->second_len = make_bad(p->first);
        memcpy(p->second, p->first, LONGEST_IMAGE);
        break;
    default: break;
    }
}

static size_t list_bytes(const struct pair *p)
{
    size_t bytes = 0;

    for (int word = 0; word < WORDS; word++)
        if (word_of(p->first, word) != word_of(p->second, word))
            bytes += FROSTSORREL_ENTRY_BYTES;
    return bytes;
}

static void draw_pair(struct pair *p)
{
    draw_bytes(p->first, LONGEST_IMAGE);
    draw_bytes(p->second, LONGEST_IMAGE);
    draw_bytes(p->list, LIST_ARENA);
    draw_good_pair(p->first, p->second);
    p->first_len = p->second_len = BYTES;
    spoil_pair(p);
    p->list_len = draw_room(list_bytes(p), &comparing);
    p->one_image = p->first_len == p->second_len && memcmp(p->first, p->second, p->first_len) == 0 && draw(2);
}

/* The numbers rise, nothing equal is listed, and the entries make the second image of the first. */
static int leads_over(const struct pair *p, const uint8_t *list, uint64_t count)
{
    uint8_t image[BYTES];
    uint32_t lowest = 0;

    if (count > p->list_len / FROSTSORREL_ENTRY_BYTES)
        return 0;
    memcpy(image, p->first, BYTES);
    for (size_t i = 0; i < count; i++) {
        uint32_t word = frostsorrel_entry_number(list, i), first = frostsorrel_entry_first(list, i);
        uint32_t second = frostsorrel_entry_second(list, i);

        if (word < lowest || word >= WORDS || first == second || first != word_of(image, (int)word))
            return 0;
        put(image, (int)word, second);
        lowest = word + 1;
    }
    return memcmp(image, p->second, BYTES) == 0;
}

static void compare_images(unsigned long number)
{
    struct pair p;
    struct effect ours;

    draw_pair(&p);
    ours = effect_of_both(number, &p, &comparing, show_pair);
    if (frostsorrel_answer_refusal(ours.answer) == FROSTSORREL_ACCEPTED)
        check(leads_over(&p, ours.list + GUARD, frostsorrel_answer_count(ours.answer)),
              "step %lu: the list does not make the second image of the first", number);
}

/* ---- a frame explained: the first of a pair is the image, the second the event */

/* What the whole explanation has, whatever the room; 0 where there is none. */
static size_t line_bytes(const struct pair *p)
{
    uint8_t list[FROSTSORREL_EXPLANATION_BYTES];
    uint64_t answer = reference_explain(p->first, p->first_len, p->second, p->second_len, list, sizeof list);

    return FROSTSORREL_LINE_BYTES * (size_t)frostsorrel_answer_count(answer);
}

/* Answers the event's length. */
static size_t draw_event(uint8_t *event, const uint8_t *image)
{
    size_t len = (draw(16) ? frame_near_a_mailbox : varied_event)(event, image);

    return draw(16) ? len : draw(LONGEST_EVENT + 1);
}

static void draw_question(struct pair *p)
{
    draw_bytes(p->first, LONGEST_IMAGE);
    draw_bytes(p->second, LONGEST_IMAGE);
    draw_bytes(p->list, LIST_ARENA);
    switch (draw(4)) {
    case 0: memcpy(p->first, reached, BYTES); break;
    case 1: memcpy(p->first, built, BYTES); break;
    default: good_image(p->first);
    }
    p->second_len = draw_event(p->second, p->first);
    p->first_len = draw(12) ? BYTES : make_bad(p->first);
    p->list_len = draw_room(line_bytes(p), &explaining);
    p->one_image = 0;
}

static int try_bytes(struct pair *p, uint8_t *at, const uint8_t *simpler, size_t len)
{
    struct pair old = *p;

    if (memcmp(at, simpler, len) == 0)
        return 0;
    memcpy(at, simpler, len);
    return kept(p, &old, &explaining);
}

/* Words as a fresh image has them, and zeros in the event. */
static void shrink_question(struct pair *p)
{
    static const uint8_t zero;
    uint8_t fresh[BYTES];
    int changed = 1;

    try_plain_list(p, &explaining);
    put_fresh(fresh);
    while (changed) {
        changed = 0;
        for (size_t i = 0; p->first_len == BYTES && i < BYTES; i += 4)
            changed |= try_bytes(p, p->first + i, fresh + i, 4);
        for (size_t i = 0; i < p->second_len; i++)
            changed |= try_bytes(p, p->second + i, &zero, 1);
    }
}

static void show_question(struct pair p)
{
    shrink_question(&p);
    print_trial(p.first, p.first_len, p.second, p.second_len);
    print_effects(&p, &explaining);
}

/* ---- what a step makes of an explained frame */

/* The mailbox of the line that says matched, 32 where none does. */
static uint32_t matched_mailbox(const uint8_t *list, uint64_t count)
{
    for (size_t i = 0; i < count; i++)
        if (frostsorrel_line_reason(list, i) == FROSTSORREL_MATCHED)
            return frostsorrel_line_mailbox(list, i);
    return FROSTSORREL_NO_MAILBOX;
}

/* How many lines are of mailboxes that a step counts. */
static uint64_t compared_lines(const uint8_t *list, uint64_t count)
{
    uint64_t compared = 0;

    for (size_t i = 0; i < count; i++) {
        uint32_t reason = frostsorrel_line_reason(list, i);

        compared += reason == FROSTSORREL_IDE_DIFFERS || reason == FROSTSORREL_BIT_DIFFERS ||
                    reason == FROSTSORREL_MATCHED || reason == FROSTSORREL_PROTECTED;
    }
    return compared;
}

/* Nothing in the slot, so that the step is not busy. */
static void empty_slot(uint8_t *image)
{
    put(image, SLOT, EMPTY_SLOT);
    put(image, TRR, 0);
    put(image, WAITING, NO_MODE);
}

/* Every mailbox that matches is named then. */
static void let_all_reply(uint8_t *image)
{
    for (int n = 0; n < FROSTSORREL_MAILBOXES; n++)
        put(image, MAILBOX(n, 0), word_of(image, MAILBOX(n, 0)) | RFH);
}

static int is_silent(const uint8_t *image, uint32_t n)
{
    return n < FROSTSORREL_MAILBOXES && !(word_of(image, MD) >> n & 1) &&
           !(word_of(image, MAILBOX((int)n, 0)) & RFH);
}

static uint64_t packed(uint32_t mailbox, uint64_t count)
{
    return 256 * (uint64_t)mailbox + 65536 * count;
}

/*
 * The lines of a heard frame against two steps. Where all reply, a step names the mailbox in which the search
 * stops; with the mailboxes as they are, it does not name a transmit mailbox with RFH 0.
 */
static int agrees_with_step(const struct pair *p, const uint8_t *list, uint64_t count)
{
    uint8_t image[BYTES], replying[BYTES];
    uint32_t stop, named;
    uint64_t compared;

    if (count > p->list_len / FROSTSORREL_LINE_BYTES)
        return 0;
    memcpy(image, p->first, BYTES);
    empty_slot(image);
    memcpy(replying, image, BYTES);
    let_all_reply(replying);
    stop = matched_mailbox(list, count);
    named = is_silent(image, stop) ? FROSTSORREL_NO_MAILBOX : stop;
    compared = compared_lines(list, count);
    return frostsorrel_step(image, BYTES, p->second, EVENT_BYTES) == packed(named, compared) &&
           frostsorrel_step(replying, BYTES, p->second, EVENT_BYTES) == packed(stop, compared);
}

/* ---- what explanations have met: all of it, in a long run */

enum met {
    A_DISABLED, A_TRANSMITS, AN_IDE, A_BIT, A_MATCHED, A_NOT_HEARD, A_PROTECTED, /* in the order of the reasons */
    IN_CONFIGURATION, IN_SLEEP, IN_SLEEP_WUBA, IN_SUSPEND, IN_BUS_OFF,
    STANDARD_DATA, STANDARD_REMOTE, EXTENDED_DATA, EXTENDED_REMOTE, SLOT_FILLED,
    RECEIVES, REPLIES, SILENT, NOWHERE,
    FREED_IDE, FREED_BIT, FREED_BY_LAM, FREED_BY_OWN, LOW_NOT_COMPARED, BELOW_FREED, LOWER_TOO,
    FIRST_OF_1_2, FIRST_OF_2_3, FIRST_OF_3_4, FIRST_OF_4_7,
    HEARD_BY_ECAN, PAST_PROTECTED, ALL_PROTECTED,
    FITS, BYTE_MORE, BYTE_SHORT, NO_BYTE,
    REFUSED_LENGTH, REFUSED_IMAGE, REFUSED_BOTH, REFUSED_EVENT_LENGTH, REFUSED_OPERATION, REFUSED_FRAME
};

static struct tally tallies[] = {
    [A_DISABLED] = {"lines", "disabled", 0},
    [A_TRANSMITS] = {"lines", "transmits", 0},
    [AN_IDE] = {"lines", "IDE differs", 0},
    [A_BIT] = {"lines", "bit differs", 0},
    [A_MATCHED] = {"lines", "matched", 0},
    [A_NOT_HEARD] = {"lines", "not heard", 0},
    [A_PROTECTED] = {"lines", "protected", 0},
    [IN_CONFIGURATION] = {"not heard", "in configuration", 0},
    [IN_SLEEP] = {"not heard", "asleep", 0},
    [IN_SLEEP_WUBA] = {"not heard", "asleep with WUBA", 0},
    [IN_SUSPEND] = {"not heard", "in suspend", 0},
    [IN_BUS_OFF] = {"not heard", "in bus off", 0},
    [STANDARD_DATA] = {"heard", "standard data", 0},
    [STANDARD_REMOTE] = {"heard", "standard remote", 0},
    [EXTENDED_DATA] = {"heard", "extended data", 0},
    [EXTENDED_REMOTE] = {"heard", "extended remote", 0},
    [SLOT_FILLED] = {"heard", "with a filled slot", 0},
    [RECEIVES] = {"matched", "that receive", 0},
    [REPLIES] = {"matched", "that reply", 0},
    [SILENT] = {"matched", "with RFH 0", 0},
    [NOWHERE] = {"matched", "times none", 0},
    [FREED_IDE] = {"matched by a mask", "IDE differs", 0},
    [FREED_BIT] = {"matched by a mask", "bits differ", 0},
    [FREED_BY_LAM] = {"matched by a mask", "in mailbox 31 of a CAN-B", 0},
    [FREED_BY_OWN] = {"matched by a mask", "in an eCAN", 0},
    [LOW_NOT_COMPARED] = {"matched by a mask", "have low bits that a standard frame has not", 0},
    [BELOW_FREED] = {"bits", "below one that is freed", 0},
    [LOWER_TOO] = {"bits", "above another", 0},
    [FIRST_OF_1_2] = {"first reasons", "disabled, and transmits", 0},
    [FIRST_OF_2_3] = {"first reasons", "transmits, and IDE differs", 0},
    [FIRST_OF_3_4] = {"first reasons", "IDE differs, and a bit", 0},
    [FIRST_OF_4_7] = {"first reasons", "a bit, and protected", 0},
    [HEARD_BY_ECAN] = {"eCANs", "that hear it", 0},
    [PAST_PROTECTED] = {"eCANs", "matched past a protected mailbox", 0},
    [ALL_PROTECTED] = {"eCANs", "all that match protected", 0},
    [FITS] = {"room", "just enough", 0},
    [BYTE_MORE] = {"room", "a byte more", 0},
    [BYTE_SHORT] = {"room", "a byte short", 0},
    [NO_BYTE] = {"room", "none", 0},
    [REFUSED_LENGTH] = {"refused", "for the image's length", 0},
    [REFUSED_IMAGE] = {"refused", "for its words", 0},
    [REFUSED_BOTH] = {"refused", "of these with no frame either", 0},
    [REFUSED_EVENT_LENGTH] = {"refused", "for the event's length", 0},
    [REFUSED_OPERATION] = {"refused", "for its operation", 0},
    [REFUSED_FRAME] = {"refused", "for the frame", 0},
};
#define TALLIES (sizeof tallies / sizeof tallies[0])

static void met(enum met what, int holds)
{
    tallies[what].times += holds != 0;
}

static void count_silence(const uint8_t *image)
{
    uint32_t mode = word_of(image, MODE), wuba = word_of(image, OPTIONS) & FROSTSORREL_WUBA;

    met(IN_CONFIGURATION, mode == CONFIGURATION);
    met(IN_SLEEP, mode == SLEEP && !wuba);
    met(IN_SLEEP_WUBA, mode == SLEEP && wuba);
    met(IN_SUSPEND, mode == SUSPEND);
    met(IN_BUS_OFF, mode == NORMAL_MODE);
}

/* Of a mailbox: what differs by the frame's own measure, before any mask. */
static void count_line(const uint8_t *image, uint32_t frame, const uint8_t *list, size_t i)
{
    uint32_t n = frostsorrel_line_mailbox(list, i), reason = frostsorrel_line_reason(list, i);
    uint32_t own = word_of(image, MAILBOX((int)n, 0)), ide = (own ^ frame) & FROSTSORREL_IDE;
    uint32_t low = frame & FROSTSORREL_IDE ? 0 : 0x3FFFF;
    uint32_t bits = (own ^ frame) & FROSTSORREL_IDENTIFIER_BITS & ~low, bit = 1u << frostsorrel_line_bit(list, i);
    int faces_data = !(word_of(image, MD) >> n & 1) && !(frame & FROSTSORREL_FRAME_RTR);
    int matched = reason == FROSTSORREL_MATCHED, differs = reason == FROSTSORREL_BIT_DIFFERS;

    met(FREED_IDE, matched && ide);
    met(FREED_BIT, matched && bits);
    met(FREED_BY_LAM, matched && (ide | bits) && n == 31 && !is_ecan(image));
    met(FREED_BY_OWN, matched && (ide | bits) && is_ecan(image));
    met(LOW_NOT_COMPARED, matched && own & low);
    met(BELOW_FREED, differs && bits > 2 * bit - 1);
    met(LOWER_TOO, differs && bits & (bit - 1));
    met(FIRST_OF_1_2, reason == FROSTSORREL_DISABLED && faces_data);
    met(FIRST_OF_2_3, reason == FROSTSORREL_TRANSMITS && ide);
    met(FIRST_OF_3_4, reason == FROSTSORREL_IDE_DIFFERS && bits);
    met(FIRST_OF_4_7, differs && is_ecan(image) && has(image, MD, n) && has_guard(image, n));
}

static int is_any_protected(const uint8_t *list, uint64_t count)
{
    for (size_t i = 0; i < count; i++)
        if (frostsorrel_line_reason(list, i) == FROSTSORREL_PROTECTED)
            return 1;
    return 0;
}

static void count_search(const uint8_t *image, uint32_t frame, const uint8_t *list, uint64_t count)
{
    uint32_t stop = matched_mailbox(list, count);
    int matched = stop < FROSTSORREL_MAILBOXES, receives = matched && word_of(image, MD) >> stop & 1;

    met(frame & FROSTSORREL_IDE ? EXTENDED_DATA : STANDARD_DATA, !(frame & FROSTSORREL_FRAME_RTR));
    met(frame & FROSTSORREL_IDE ? EXTENDED_REMOTE : STANDARD_REMOTE, (frame & FROSTSORREL_FRAME_RTR) != 0);
    met(SLOT_FILLED, word_of(image, SLOT) != EMPTY_SLOT);
    met(RECEIVES, receives);
    met(REPLIES, matched && !receives && !is_silent(image, stop));
    met(SILENT, is_silent(image, stop));
    met(NOWHERE, !matched);
    met(HEARD_BY_ECAN, is_ecan(image));
    met(PAST_PROTECTED, matched && is_any_protected(list, count));
    met(ALL_PROTECTED, !matched && is_any_protected(list, count));
    for (size_t i = 0; i < count; i++)
        count_line(image, frame, list, i);
}

static void count_rooms(const struct pair *p, uint32_t refusal)
{
    size_t whole = line_bytes(p);

    met(FITS, refusal == FROSTSORREL_ACCEPTED && p->list_len == whole);
    met(BYTE_MORE, refusal == FROSTSORREL_ACCEPTED && p->list_len == whole + 1);
    met(BYTE_SHORT, refusal == FROSTSORREL_NO_ROOM && p->list_len == whole - 1);
    met(NO_BYTE, refusal == FROSTSORREL_NO_ROOM && p->list_len == 0);
}

static int is_frame(const struct pair *p)
{
    return p->second_len == EVENT_BYTES && p->second[0] == FROSTSORREL_FRAME;
}

static void count_refusals(const struct pair *p, uint32_t refusal)
{
    met(REFUSED_LENGTH, refusal == FROSTSORREL_BAD_IMAGE && p->first_len != BYTES);
    met(REFUSED_IMAGE, refusal == FROSTSORREL_BAD_IMAGE && p->first_len == BYTES);
    met(REFUSED_BOTH, refusal == FROSTSORREL_BAD_IMAGE && !is_frame(p));
    met(REFUSED_EVENT_LENGTH, refusal == FROSTSORREL_UNKNOWN && p->second_len != EVENT_BYTES);
    met(REFUSED_OPERATION, refusal == FROSTSORREL_UNKNOWN && p->second_len == EVENT_BYTES);
    met(REFUSED_FRAME, refusal == FROSTSORREL_NOT_ALLOWED);
}

/* By the lines of the reference, which have no other reasons. */
static void count_explanation(const struct pair *p)
{
    struct effect e = effect_of(p, reference_explain);
    uint64_t count = frostsorrel_answer_count(e.answer);
    uint32_t refusal = frostsorrel_answer_refusal(e.answer);
    const uint8_t *list = e.list + GUARD;

    count_rooms(p, refusal);
    count_refusals(p, refusal);
    for (size_t i = 0; i < count; i++)
        tallies[A_DISABLED + frostsorrel_line_reason(list, i) - FROSTSORREL_DISABLED].times++;
    if (refusal != FROSTSORREL_ACCEPTED)
        return;
    if (is_on_bus(p->first))
        count_search(p->first, frostsorrel_event_value(p->second), list, count);
    else
        count_silence(p->first);
}

static void explain_frame(unsigned long number)
{
    struct pair p;
    struct effect ours;

    draw_question(&p);
    ours = effect_of_both(number, &p, &explaining, show_question);
    if (frostsorrel_answer_refusal(ours.answer) == FROSTSORREL_ACCEPTED && is_on_bus(p.first))
        check(agrees_with_step(&p, ours.list + GUARD, frostsorrel_answer_count(ours.answer)),
              "step %lu: explanation and step of a frame do not agree", number);
    count_explanation(&p);
}

static unsigned long argument(int argc, char **argv, int at, unsigned long usual)
{
    return at < argc ? strtoul(argv[at], NULL, 10) : usual;
}

int main(int argc, char **argv)
{
    unsigned long steps = argument(argc, argv, 1, 20000), seed = argument(argc, argv, 2, 1);
    char name[60];

    seed_generator(seed);
    put_fresh(reached);
    good_image(built);
    for (unsigned long number = 1; number <= steps; number++) {
        renew();
        compare_step(number);
        if (draw(4) == 0)
            compare_read(number);
        if (draw(100) == 0)
            compare_fresh(number);
        if (draw(4) == 0)
            compare_images(number);
        if (draw(2) == 0)
            explain_frame(number);
        if (draw(8) == 0)
            compare_stream(number);
    }
    check_unacknowledged(steps);
    check_dlc(steps);
    check_tallies("start", starts, STARTS, steps);
    check_tallies("eCAN", own_tallies, OWN_TALLIES, steps);
    check_tallies("both profiles", read_tallies, READ_TALLIES, steps);
    check_tallies("explain", tallies, TALLIES, steps);
    check_streams(steps);
    snprintf(name, sizeof name, "host compare, %lu steps, seed %lu", steps, seed);
    return report(name);
}
