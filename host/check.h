/* Counts checks, and says which failed. */
#ifndef CHECK_H
#define CHECK_H

/* A check with the words to print if it failed. */
__attribute__((format(printf, 2, 3))) void check(int ok, const char *format, ...);

/* Prints the sum, and answers the exit status of the program. */
int report(const char *name);

#endif
