/* How much of the stack a call takes. The bytes below are painted before it, and looked at after it. */
#ifndef STACK_H
#define STACK_H

#include <stddef.h>
#include <stdint.h>

#define PAINTED 131072 /* more than any call takes */
#define PAINT 0x5A

/* The answer is there so that the bytes are of use to somebody. */
__attribute__((noinline)) static uint8_t paint(void)
{
    volatile uint8_t below[PAINTED];

    for (size_t i = 0; i < PAINTED; i++)
        below[i] = PAINT;
    return below[0];
}

/* Where the frame of a function stands that is called from here. */
__attribute__((noinline)) static volatile uint8_t *frame_of_a_call(void)
{
    return (volatile uint8_t *)__builtin_frame_address(0);
}

/*
 * The bytes that this function and all that it calls took. It should have been called before: a program that is not
 * linked statically looks up what it calls the first time, and takes more of the stack then.
 */
static inline size_t stack_of(void (*function)(void))
{
    volatile uint8_t *top = frame_of_a_call(), *lowest = top - PAINTED + 512; /* less than what is painted */

    paint();
    function();
    while (lowest < top && *lowest == PAINT)
        lowest++;
    return (size_t)(top - lowest);
}

#endif
