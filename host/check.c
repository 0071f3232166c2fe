#include "check.h"

#include <stdarg.h>
#include <stdio.h>

static unsigned long checks, failures;

/* Failures beyond this many are counted and not printed: one fault can show thousands of times. */
#define MOST_PRINTED 40

void check(int ok, const char *format, ...)
{
    va_list words;

    checks++;
    if (ok || ++failures > MOST_PRINTED)
        return;
    printf("FAILED: ");
    va_start(words, format);
    vprintf(format, words);
    va_end(words);
    printf("\n");
}

int report(const char *name)
{
    printf("%s: %lu checks, %lu failed\n", name, checks, failures);
    return failures != 0;
}
