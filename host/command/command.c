#define _XOPEN_SOURCE 700 /* open, isatty, fileno, mkstemp, realpath and fstat beside C99 */

#include "command.h"

#include <errno.h>
#include <fcntl.h>
#include <stdarg.h>
#include <stdio.h>
#include <stdlib.h>
#include <string.h>
#include <sys/stat.h>
#include <unistd.h>

/* ---- messages */

static void complain_with(const char *format, va_list words)
{
    fputs("frostsorrel: ", stderr);
    vfprintf(stderr, format, words);
}

void complain(const char *format, ...)
{
    va_list words;

    va_start(words, format);
    complain_with(format, words);
    va_end(words);
    fputc('\n', stderr);
}

int misused(const char *subcommand, const char *format, ...)
{
    va_list words;

    va_start(words, format);
    complain_with(format, words);
    va_end(words);
    fprintf(stderr, "; see frostsorrel %s%s--help\n", subcommand, *subcommand ? " " : "");
    return COMMAND_FAILED;
}

int failed_at(const char *name)
{
    complain("%s: %s", name, strerror(errno));
    return COMMAND_FAILED;
}

int asks_help(int argc, char **argv)
{
    for (int i = 1; i < argc; i++)
        if (strcmp(argv[i], "--help") == 0 || strcmp(argv[i], "-h") == 0)
            return 1;
    return 0;
}

const char *only_file(int argc, char **argv)
{
    if (argc < 2)
        misused(argv[0], "no file is named");
    else if (argv[1][0] == '-' && argv[1][1])
        misused(argv[0], "%s takes no %s", argv[0], argv[1]);
    else if (argc > 2)
        misused(argv[0], "one file at a time, and %s is another", argv[2]);
    else
        return argv[1];
    return 0;
}

int show_help(const char *help)
{
    struct text t = {0};
    int status;

    text_bytes(&t, help, strlen(help));
    status = text_show(&t, 0);
    text_free(&t);
    return status;
}

/* ---- memory */

void *grown(void *memory, size_t room)
{
    void *more = realloc(memory, room);

    if (!more) {
        complain("no memory left");
        exit(COMMAND_FAILED); /* nothing is written before all of it is there */
    }
    return more;
}

/* ---- reading */

static int is_standard(const char *path)
{
    return !path || strcmp(path, "-") == 0;
}

const char *name_of_input(const char *path)
{
    return is_standard(path) ? "standard input" : path;
}

static int read_open(FILE *file, const char *path, size_t limit, struct bytes *into)
{
    size_t room = 0, most, got;

    into->at = 0;
    into->length = 0;
    do {
        if (into->length == room)
            into->at = grown(into->at, room = room ? 2 * room : 65536);
        most = room < limit + 1 ? room : limit + 1;
        got = fread(into->at + into->length, 1, most - into->length, file);
        into->length += got;
    } while (got > 0 && into->length <= limit);
    if (!ferror(file))
        return COMMAND_DONE;
    failed_at(name_of_input(path));
    free(into->at);
    return COMMAND_FAILED;
}

int read_whole(const char *path, size_t limit, struct bytes *into)
{
    FILE *file = is_standard(path) ? stdin : fopen(path, "rb");
    int status;

    if (!file)
        return failed_at(path);
    status = read_open(file, path, limit, into);
    if (file != stdin)
        fclose(file);
    return status;
}

int open_input(const char *path)
{
    int file = is_standard(path) ? STDIN_FILENO : open(path, O_RDONLY | O_NOCTTY);

    if (file < 0)
        failed_at(path);
    return file;
}

int is_text(const struct bytes *file)
{
    return file->length > 0 && !memchr(file->at, 0, file->length);
}

/* ---- writing */

static void make_room(struct text *t, size_t more)
{
    while (t->room - t->length <= more)
        t->at = grown(t->at, t->room = t->room ? 2 * t->room : 4096);
}

void text_bytes(struct text *t, const void *bytes, size_t count)
{
    make_room(t, count);
    memcpy(t->at + t->length, bytes, count);
    t->length += count;
    t->at[t->length] = 0;
}

void text_add(struct text *t, const char *format, ...)
{
    va_list words, again;
    int length;

    va_start(words, format);
    va_copy(again, words);
    length = vsnprintf(0, 0, format, words);
    va_end(words);
    make_room(t, (size_t)length);
    t->length += (size_t)vsnprintf(t->at + t->length, t->room - t->length, format, again);
    va_end(again);
}

void text_free(struct text *t)
{
    free(t->at);
    memset(t, 0, sizeof *t);
}

/* Answers whether all went well. A full disk may show in any of the three calls; errno is that of the first. */
static int put_and_close(const struct text *t, FILE *file)
{
    size_t put = t->length ? fwrite(t->at, 1, t->length, file) : 0;
    int written = put == t->length && fflush(file) == 0, error = errno, closed = fclose(file) == 0;

    if (!written)
        errno = error;
    return written && closed;
}

/* A device or a pipe is written as it is: there is no place beside it, and nothing to put in its place. */
static int write_device(const struct text *t, const char *path)
{
    FILE *file = fopen(path, "wb");

    return file && put_and_close(t, file) ? COMMAND_DONE : failed_at(path);
}

/* The permissions that a new file would have got. */
static mode_t usual_mode(void)
{
    mode_t mask = umask(0);

    umask(mask);
    return 0666 & ~mask;
}

/* Writes the file beside its place, under a name that nobody has, and then puts it there. */
static int write_beside(const struct text *t, const char *path, mode_t mode)
{
    struct text beside = {0};
    FILE *file = 0;
    int number, status = COMMAND_DONE;

    text_add(&beside, "%s.XXXXXX", path);
    number = mkstemp(beside.at);
    if (number >= 0 && fchmod(number, mode) == 0)
        file = fdopen(number, "wb");
    if (!file || !put_and_close(t, file) || rename(beside.at, path) != 0)
        status = failed_at(path);
    if (number >= 0 && status != COMMAND_DONE)
        remove(beside.at);
    text_free(&beside);
    return status;
}

static int write_file(const struct text *t, const char *path)
{
    struct stat there;
    char *real;
    int status;

    if (stat(path, &there) != 0)
        return write_beside(t, path, usual_mode());
    if (!S_ISREG(there.st_mode))
        return write_device(t, path);
    real = realpath(path, 0); /* a link stays a link */
    if (!real)
        return failed_at(path);
    status = access(real, W_OK) == 0 ? write_beside(t, real, there.st_mode & 07777) : failed_at(path);
    free(real);
    return status;
}

int text_show(const struct text *t, const char *path)
{
    if (!is_standard(path))
        return write_file(t, path);
    return put_and_close(t, stdout) ? COMMAND_DONE : failed_at("standard output");
}

int put_at_once(const void *bytes, size_t count)
{
    size_t put = fwrite(bytes, 1, count, stdout);

    return put == count && fflush(stdout) == 0 ? COMMAND_DONE : failed_at("standard output");
}

int wants_colour(void)
{
    const char *no = getenv("NO_COLOR");

    return isatty(fileno(stdout)) && !(no && *no);
}
