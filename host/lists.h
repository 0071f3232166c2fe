/* Calls that are lent two things to read and bytes for a list, and how a test checks one whole. */
#ifndef LISTS_H
#define LISTS_H

#include "check.h"
#include "image.h"
#include "reference.h"

#define LONGEST_LIST (FROSTSORREL_DIFFERENCE_BYTES + 100)
#define LONGEST_READ (BYTES + 1)
#define GUARD 17 /* bytes around a list; odd, so that nothing stands at an even address */

/* Mailbox 32, and a count or a refusal. */
#define ACCEPTED(count) (8192 + 65536 * (uint64_t)(count))
#define REFUSED(refusal) (8192 + (uint64_t)(refusal))

struct call {
    const uint8_t *first, *second; /* one pointer twice is one image handed over twice */
    size_t first_len, second_len, list_len;
};

/* What a call has to leave at the front of the caller's bytes. */
struct list {
    uint8_t bytes[FROSTSORREL_DIFFERENCE_BYTES];
    size_t len;
};

static const struct list nothing;

/* Bytes are counted from the list's first: below 0 and past its length are the guards. */
static inline void check_bytes(const char *what, const uint8_t *got, const uint8_t *expected, size_t size)
{
    size_t at = 0;

    while (at < size - 1 && got[at] == expected[at])
        at++;
    check(got[at] == expected[at], "%s: byte %ld of the list is 0x%02X, not 0x%02X", what, (long)at - GUARD,
          got[at], expected[at]);
}

/* The answer, every byte of the list and around it, and that what was lent to be read stays. */
static inline void expect_call(const char *what, list_function *function, struct call c, uint64_t answer,
                               const struct list *list)
{
    uint8_t first[LONGEST_READ + GUARD], second[LONGEST_READ + GUARD];
    uint8_t got[LONGEST_LIST + 2 * GUARD], expected[sizeof got];
    uint64_t said;

    for (size_t i = 0; i < sizeof got; i++)
        got[i] = expected[i] = (uint8_t)(37 * i + 11);
    memcpy(expected + GUARD, list->bytes, list->len);
    memcpy(first + GUARD, c.first, c.first_len);
    memcpy(second + GUARD, c.second, c.second_len);
    said = function(first + GUARD, c.first_len, (c.first == c.second ? first : second) + GUARD, c.second_len,
                    got + GUARD, c.list_len);
    check(said == answer, "%s: the answer is 0x%llX, not 0x%llX", what, (unsigned long long)said,
          (unsigned long long)answer);
    check_bytes(what, got, expected, sizeof got);
    check(memcmp(first + GUARD, c.first, c.first_len) == 0, "%s: what was lent first changed", what);
    check(memcmp(second + GUARD, c.second, c.second_len) == 0, "%s: what was lent second changed", what);
}

/*
 * The same call with exactly the list's room, a byte more and more than any list has; then with a byte less,
 * one of its equal parts less and none, where it gets 9. The list is not empty.
 */
static inline void expect_rooms_of(const char *what, list_function *function, struct call c,
                                   const struct list *list, size_t part)
{
    size_t enough[] = {list->len, list->len + 1, LONGEST_LIST}, short_of[] = {list->len - 1, list->len - part, 0};

    for (int i = 0; i < 3; i++) {
        c.list_len = enough[i];
        expect_call(what, function, c, ACCEPTED(list->len / part), list);
        c.list_len = short_of[i];
        expect_call(what, function, c, REFUSED(FROSTSORREL_NO_ROOM), &nothing);
    }
}

#endif
