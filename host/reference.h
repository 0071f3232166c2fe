/*
 * A second implementation of document 01 and of requests a) to e) and g) of document 02, in plain C, apart from
 * the proved one: it was written from these, frostsorrel.h and docs/DECISIONS.md alone. The tests hold the two
 * against each other.
 *
 * The first eight functions have the signatures and the answers of those in frostsorrel.h.
 */
#ifndef REFERENCE_H
#define REFERENCE_H

#include <stddef.h>
#include <stdint.h>

uint64_t reference_fresh(uint8_t *image, size_t image_len, uint32_t profile);
uint64_t reference_step(uint8_t *image, size_t image_len, const uint8_t *event, size_t event_len);
uint64_t reference_read(const uint8_t *image, size_t image_len, uint32_t number);
uint64_t reference_compare(const uint8_t *first, size_t first_len, const uint8_t *second,
                           size_t second_len, uint8_t *list, size_t list_len);
uint64_t reference_explain(const uint8_t *image, size_t image_len, const uint8_t *event, size_t event_len,
                           uint8_t *list, size_t list_len);
uint64_t reference_stream_open(uint8_t *image, size_t image_len, uint8_t *state, size_t state_len,
                               uint8_t *text, size_t text_len);
uint64_t reference_stream_feed(uint8_t *image, size_t image_len, uint8_t *state, size_t state_len,
                               const uint8_t *part, size_t part_len, uint8_t *text, size_t text_len);
uint64_t reference_stream_close(uint8_t *image, size_t image_len, uint8_t *state, size_t state_len,
                                uint8_t *text, size_t text_len);

/* The three calls of a stream, as one side makes them. */
struct stream_calls {
    uint64_t (*open)(uint8_t *, size_t, uint8_t *, size_t, uint8_t *, size_t);
    uint64_t (*feed)(uint8_t *, size_t, uint8_t *, size_t, const uint8_t *, size_t, uint8_t *, size_t);
    uint64_t (*close)(uint8_t *, size_t, uint8_t *, size_t, uint8_t *, size_t);
};

/* The signature of comparing and explaining: two things to read are lent, and bytes for a list. */
typedef uint64_t list_function(const uint8_t *, size_t, const uint8_t *, size_t, uint8_t *, size_t);

#define LISTING_ROOM 39034 /* room for any listing (D80), and the 0 that C puts behind it */

/* What the trace program prints for such a file, into a buffer of LISTING_ROOM. Answers its length. */
size_t reference_list(char *listing, const uint8_t *file, size_t file_len);

#endif
