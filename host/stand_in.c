/*
 * The calls of frostsorrel.h, made by the reference: for tests that run on the machine's own processor, under
 * the compiler's sanitizers. The archive is x86-64 code, and is not what they look at.
 */
#include <string.h>

#include "frostsorrel.h"
#include "stand_in.h"

list_function *explained_by = reference_explain;

uint64_t frostsorrel_fresh(uint8_t *image, size_t image_len, uint32_t profile)
{
    return reference_fresh(image, image_len, profile);
}

uint64_t frostsorrel_step(uint8_t *image, size_t image_len, const uint8_t *event, size_t event_len)
{
    return reference_step(image, image_len, event, event_len);
}

uint64_t frostsorrel_read(const uint8_t *image, size_t image_len, uint32_t number)
{
    return reference_read(image, image_len, number);
}

uint64_t frostsorrel_compare(const uint8_t *first, size_t first_len, const uint8_t *second,
                             size_t second_len, uint8_t *list, size_t list_len)
{
    return reference_compare(first, first_len, second, second_len, list, list_len);
}

uint64_t frostsorrel_explain(const uint8_t *image, size_t image_len, const uint8_t *event, size_t event_len,
                             uint8_t *list, size_t list_len)
{
    return explained_by(image, image_len, event, event_len, list, list_len);
}

uint64_t frostsorrel_listing(const uint8_t *trace, size_t trace_len, uint8_t *text, size_t text_len)
{
    static char listing[LISTING_ROOM]; /* with room for the 0 that C puts behind it */
    size_t length;

    if (text_len < FROSTSORREL_LISTING_BYTES)
        return 0;
    length = reference_list(listing, trace, trace_len);
    memcpy(text, listing, length);
    return length;
}

uint64_t frostsorrel_stream_open(uint8_t *image, size_t image_len, uint8_t *state, size_t state_len,
                                 uint8_t *text, size_t text_len)
{
    return reference_stream_open(image, image_len, state, state_len, text, text_len);
}

uint64_t frostsorrel_stream_feed(uint8_t *image, size_t image_len, uint8_t *state, size_t state_len,
                                 const uint8_t *part, size_t part_len, uint8_t *text, size_t text_len)
{
    return reference_stream_feed(image, image_len, state, state_len, part, part_len, text, text_len);
}

uint64_t frostsorrel_stream_close(uint8_t *image, size_t image_len, uint8_t *state, size_t state_len,
                                  uint8_t *text, size_t text_len)
{
    return reference_stream_close(image, image_len, state, state_len, text, text_len);
}
