/*
 * Images and events drawn at random, the same for the same seed: mostly valid ones, with identifiers
 * and masks from small pools so that frames find mailboxes, and damaged ones among them.
 */
#ifndef GENERATE_H
#define GENERATE_H

#include <stddef.h>
#include <stdint.h>

#define LONGEST_EVENT 24

void seed_generator(uint64_t seed);

/* A number below this one, which is not 0. */
uint32_t draw(uint32_t below);

/* Any bytes. */
void draw_bytes(uint8_t *bytes, size_t len);

/* An event for a run, which the image most likely accepts; one in ten is damaged. Answers its length. */
size_t likely_event(uint8_t *event, const uint8_t *image);

/*
 * An event of any operation, whatever the state, though outcomes come oftener where the slot is filled. Some
 * have a value, a DLC or a data byte that is just not allowed, and one in ten is damaged. Answers its length.
 */
size_t varied_event(uint8_t *event, const uint8_t *image);

/*
 * A frame that a mailbox of the image matches or just misses: IDE and identifier are as the mailbox has them, or
 * with a bit, some bits, IDE or what the mask may free turned round. Some are not allowed, and one in ten is
 * damaged. Answers its length.
 */
size_t frame_near_a_mailbox(uint8_t *event, const uint8_t *image);

/* A good image, built word by word: of either profile, or of this one. Protection is often up, and masks overlap. */
void good_image(uint8_t *image);
void good_image_of(uint8_t *image, uint32_t profile);

/* One of an eCAN that hears frames: much of it is held and protected. In some, mailbox 31 alone is to be sent. */
void overloaded_image(uint8_t *image);

/* Breaks one clause of the rule for good images, most of the time. */
void spoil(uint8_t *image);

#endif
