/* What the subcommands of `frostsorrel` share: exit statuses, messages, files read and written, most of them whole. */
#ifndef COMMAND_H
#define COMMAND_H

#include <stddef.h>
#include <stdint.h>

/* The exit statuses. */
enum {
    COMMAND_DONE = 0,
    COMMAND_DIFFERS = 1, /* the trace was refused, or a check found a difference */
    COMMAND_FAILED = 2   /* something could not be read, written or understood */
};

/* The subcommands. argv[0] is the subcommand's own name; the answer is an exit status. */
int command_list(int argc, char **argv);
int command_follow(int argc, char **argv);
int command_report(int argc, char **argv);
int command_diff(int argc, char **argv);
int command_explain(int argc, char **argv);
int command_make(int argc, char **argv);
int command_text(int argc, char **argv);
int command_candump(int argc, char **argv);
int command_registers(int argc, char **argv);

/* ---- messages */

#define PRINTF_LIKE(at, words) __attribute__((format(printf, at, words))) /* the compiler checks the words */

/* One line on standard error, with the command's name before it. */
PRINTF_LIKE(1, 2) void complain(const char *format, ...);

/* The same for words that this subcommand does not take, with a hint to its --help. Answers COMMAND_FAILED. */
PRINTF_LIKE(2, 3) int misused(const char *subcommand, const char *format, ...);

/* What errno says of the file with this name. Answers COMMAND_FAILED. */
int failed_at(const char *name);

/* Is --help, or -h, among the words? */
int asks_help(int argc, char **argv);

/* For a subcommand whose one word is a file: its path, or 0 after a message. */
const char *only_file(int argc, char **argv);

/* Prints a help text to standard output. Answers the exit status. */
int show_help(const char *help);

/* As realloc; where there is no memory left it says so and ends the program. */
void *grown(void *memory, size_t room);

/* ---- reading */

struct bytes {
    uint8_t *at; /* to be freed by the caller */
    size_t length;
};

/*
 * Reads a file to its end, standard input for "-". Of a file that is longer than the limit it reads one byte
 * more than the limit, so that the length tells. Answers COMMAND_DONE, or COMMAND_FAILED after a message;
 * then there is nothing to free.
 */
int read_whole(const char *path, size_t limit, struct bytes *into);

/*
 * Opens a file that is to be read part by part, standard input for "-". Answers its number, or -1 after a message. A
 * serial line does not become the terminal that this program is ended from.
 */
int open_input(const char *path);

/* Is this text? Then no byte of it is 0; every trace has such bytes. */
int is_text(const struct bytes *file);

/* What a file is called in messages. */
const char *name_of_input(const char *path);

/* ---- writing */

/* A text that grows. It starts as {0}; text_free gives its memory back. There is always a 0 behind it. */
struct text {
    char *at;
    size_t length, room;
};

PRINTF_LIKE(2, 3) void text_add(struct text *t, const char *format, ...);

/* A number of 32 bits for %lu and %lX: C99 leaves open which format is its own. */
static inline unsigned long wide(uint32_t value)
{
    return value;
}

void text_bytes(struct text *t, const void *bytes, size_t count);
void text_free(struct text *t);

/*
 * Writes all of it, to standard output where the path is 0 or "-". A file is written beside its place and put
 * there when it is complete, so that it is never half written. Answers COMMAND_DONE, or COMMAND_FAILED after
 * a message.
 */
int text_show(const struct text *t, const char *path);

/* Writes these bytes to standard output and keeps none of them back. Answers as text_show does, which has to end it. */
int put_at_once(const void *bytes, size_t count);

/* Is standard output a terminal that may get colours? */
int wants_colour(void);

#endif
