/* The image as documents 01 and 02 lay it out, for tests: words by number from the image's first byte. */
#ifndef IMAGE_H
#define IMAGE_H

#include <stdint.h>
#include <stdio.h>
#include <string.h>

#include "frostsorrel.h"

#define BYTES FROSTSORREL_IMAGE_BYTES
#define WORDS (BYTES / 4)

/* Word k of mailbox n. */
#define MAILBOX(n, k) (4 * (n) + (k))

/* The register words stand behind the words of the mailboxes; then what an eCAN has of its own, and the profile. */
enum {
    MC = MAILBOX(FROSTSORREL_MAILBOXES, 0), MD, TRS, TRR, TA, AA, RMP, RML, LAM, GAM, RFP, CDR, MBTIF,
    MBRIF, MBIM, GIF, GIM, BCR1, BCR2, TSC, TEC, REC, MODE, WAITING, SLOT, RECOVERY, OPTIONS, TSO, SPARE,
    MASKS = MC + 32, PROTECTION = MASKS + FROSTSORREL_MAILBOXES, PROFILE
};
#define MASK(n) (MASKS + (n))

enum { CAN_B = FROSTSORREL_CAN_B, ECAN = FROSTSORREL_ECAN, PROFILES };

enum {
    NORMAL_MODE = FROSTSORREL_NORMAL,
    CONFIGURATION = FROSTSORREL_CONFIGURATION,
    SLEEP = FROSTSORREL_SLEEP,
    SUSPEND = FROSTSORREL_SUSPEND,
    NO_MODE = FROSTSORREL_NO_MODE
};
enum { EMPTY_SLOT = FROSTSORREL_EMPTY_SLOT, BUS_OFF_TEC = FROSTSORREL_BUS_OFF_TEC };

/* Word 0 of a mailbox, and the same places in the value of a frame event. */
#define STANDARD(identifier) frostsorrel_standard((uint32_t)(identifier))
#define EXTENDED(base, low) (FROSTSORREL_IDE | STANDARD(base) | (uint32_t)(low))
#define MASKED FROSTSORREL_GAME
#define RFH FROSTSORREL_RFH

/* Bits that no mask has, LAM and GAM among them. */
#define MASK_SPARE 0x60000000u

/* Word 1 of a mailbox. */
#define CONTROL(stamp, rtr, dlc) ((uint32_t)(stamp) << 16 | (uint32_t)(rtr) << 4 | (uint32_t)(dlc))

static inline void put(uint8_t *image, int word, uint32_t value)
{
    for (int i = 0; i < 4; i++)
        image[4 * word + i] = (uint8_t)(value >> 8 * i);
}

static inline uint32_t word_of(const uint8_t *image, int word)
{
    return frostsorrel_word(image + 4 * word);
}

/* The fresh image of a profile, written by hand, so that the tests do not rest on frostsorrel_fresh. */
static inline void put_fresh_of(uint8_t *image, uint32_t profile)
{
    memset(image, 0, BYTES);
    put(image, MD, profile == ECAN ? 0 : 0x80000000);
    put(image, MODE, CONFIGURATION);
    put(image, WAITING, NO_MODE);
    put(image, SLOT, EMPTY_SLOT);
    put(image, PROFILE, profile);
}

/* That of a CAN-B, in which every trace starts. */
static inline void put_fresh(uint8_t *image)
{
    put_fresh_of(image, CAN_B);
}

/* The first word in which two images differ, WORDS if they are equal. */
static inline int first_difference(const uint8_t *a, const uint8_t *b)
{
    int word = 0;

    while (word < WORDS && memcmp(a + 4 * word, b + 4 * word, 4) == 0)
        word++;
    return word;
}

/* A word's name, for messages. The next call overwrites it. */
static inline const char *word_name(int word)
{
    static char name[40];

    if (word == PROFILE)
        return "profile";
    if (word >= MASKS)
        return frostsorrel_register_name((uint32_t)(word - MASKS + FROSTSORREL_MASK_0));
    if (word >= MC)
        return frostsorrel_register_name((uint32_t)(word - MC));
    snprintf(name, sizeof name, "mailbox %d word %d", word / 4, word % 4);
    return name;
}

#endif
