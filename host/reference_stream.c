/*
 * Request e) of document 02, traces that arrive in parts, in plain C. What the calls make of lengths, rooms
 * and states is told in frostsorrel.h.
 */
#include "reference.h"

#include <stdbool.h>
#include <string.h>

#if __BYTE_ORDER__ != __ORDER_LITTLE_ENDIAN__
#error "words are taken from the state as they stand: this wants a little-endian machine"
#endif

#define IMAGE_BYTES 776
#define CAN_B 0 /* the profile that every trace starts in */
#define COUNT_BYTES 2
#define EVENT_BYTES 16
#define MOST_EVENTS 1000 /* of a section */

#define HEADER "step code mailbox count\n"
#define REFUSAL "trace refused 8\n"
#define LONGEST_LINE 13 /* "3000 0 31 32", and its line feed */
#define MOST_TEXT (3 * MOST_EVENTS * LONGEST_LINE + 16) /* of a feeding: a line for each event, and the refusal */
#define ROOM_BEYOND 31 /* with a byte for each of the part, room for what a feeding writes */

/* ---- the state: what is known of the trace between two calls */

enum { BEHIND = 4, OVER = 5 }; /* in the place of the section: all three are read; the stream is over */

struct stream {
    uint32_t section;  /* 1 to 3, BEHIND or OVER */
    uint32_t missing;  /* events of this section that are not complete; 0 while its count is read */
    uint32_t complete; /* events of all sections */
    uint32_t there;    /* bytes of the piece that is being read, a count or an event */
    uint8_t bytes[EVENT_BYTES]; /* these, the others 0 */
};

static struct stream stream_at(const uint8_t *state)
{
    struct stream s;

    memcpy(&s, state, sizeof s);
    return s;
}

/* How long the piece is. Behind the sections one byte is too many already. */
static uint32_t piece_bytes(const struct stream *s)
{
    if (s->section == BEHIND)
        return 1;
    return s->missing == 0 ? COUNT_BYTES : EVENT_BYTES;
}

static uint32_t count_of(const struct stream *s)
{
    return (uint32_t)s->bytes[0] | (uint32_t)s->bytes[1] << 8;
}

/* Mailbox writes; register writes and options; anything. */
static bool may_stand(uint32_t section, uint8_t operation)
{
    switch (section) {
    case 1: return operation == 1;
    case 2: return operation == 0 || operation == 9;
    default: return true;
    }
}

/* Could no well-formed trace have the last of these bytes? */
static bool faulty(const struct stream *s)
{
    if (s->section == BEHIND)
        return s->there > 0;
    if (s->missing == 0)
        return s->there == COUNT_BYTES && count_of(s) > MOST_EVENTS;
    return s->there > 0 && !may_stand(s->section, s->bytes[0]);
}

/* ---- states that a call can have left, of a stream that is not over */

/* Of how many sections the count has come. Each event is one of theirs. */
static uint32_t known_sections(const struct stream *s)
{
    return s->missing == 0 ? s->section - 1 : s->section;
}

static bool possible_numbers(const struct stream *s)
{
    if (s->section < 1 || s->section > BEHIND || s->missing > MOST_EVENTS)
        return false;
    if (s->section == BEHIND && s->missing != 0)
        return false;
    return (uint64_t)s->complete + s->missing <= (uint64_t)MOST_EVENTS * known_sections(s);
}

static bool possible_bytes(const struct stream *s)
{
    if (s->there >= piece_bytes(s) || faulty(s))
        return false;
    for (uint32_t i = s->there; i < EVENT_BYTES; i++)
        if (s->bytes[i] != 0)
            return false;
    return true;
}

/* ---- lines, each put at this place of the text; the answer is the place behind it */

static uint8_t *put_words(uint8_t *at, const char *words)
{
    size_t len = strlen(words);

    memcpy(at, words, len);
    return at + len;
}

static uint8_t *put_number(uint8_t *at, uint32_t number, char behind)
{
    uint8_t digits[10];
    int count = 0;

    do
        digits[count++] = (uint8_t)('0' + number % 10);
    while ((number /= 10) > 0);
    while (count > 0)
        *at++ = digits[--count];
    *at++ = (uint8_t)behind;
    return at;
}

static uint8_t *put_step(uint8_t *at, uint32_t number, uint64_t answer)
{
    at = put_number(at, number, ' ');
    at = put_number(at, answer & 0xFF, ' ');
    at = put_number(at, answer >> 8 & 0xFF, ' ');
    return put_number(at, (uint32_t)(answer >> 16), '\n');
}

/* ---- bytes that come */

static void end_stream(struct stream *s)
{
    memset(s, 0, sizeof *s);
    s->section = OVER;
}

/* As many bytes as the piece lacks, or as there are. Answers how many. */
static size_t gather(struct stream *s, const uint8_t *part, size_t len)
{
    size_t lacking = piece_bytes(s) - s->there, taken = len < lacking ? len : lacking;

    memcpy(s->bytes + s->there, part, taken);
    s->there += (uint32_t)taken;
    return taken;
}

/* The piece is whole. An event goes to the model, and gets its line. */
static uint8_t *take_piece(struct stream *s, uint8_t *image, uint8_t *at)
{
    if (s->missing == 0) {
        s->missing = count_of(s);
    } else {
        at = put_step(at, ++s->complete, reference_step(image, IMAGE_BYTES, s->bytes, EVENT_BYTES));
        s->missing--;
    }
    if (s->missing == 0) /* no events, or no more */
        s->section++;
    memset(s->bytes, 0, sizeof s->bytes);
    s->there = 0;
    return at;
}

/* The bytes of a part, up to its end or to the fault. */
static uint8_t *take_part(struct stream *s, uint8_t *image, const uint8_t *part, size_t len, uint8_t *at)
{
    while (len > 0) {
        size_t taken = gather(s, part, len);

        part += taken;
        len -= taken;
        if (faulty(s)) {
            end_stream(s);
            return put_words(at, REFUSAL);
        }
        if (s->there == piece_bytes(s))
            at = take_piece(s, image, at);
    }
    return at;
}

/* ---- answers: refusal + 256 * mailbox + 65536 * count, the mailbox being 32 */

enum { ACCEPTED, BAD_IMAGE, BAD_TRACE = 8, NO_ROOM };

static uint64_t wrote(unsigned refusal, size_t bytes)
{
    return refusal + 256 * 32 + 65536 * (uint64_t)bytes;
}

static uint64_t refused(unsigned refusal)
{
    return wrote(refusal, 0);
}

static bool right_lengths(size_t image_len, size_t state_len)
{
    return image_len == IMAGE_BYTES && state_len == sizeof(struct stream);
}

/* What a feeding or closing is refused for before it begins. */
static unsigned refusal_at_once(size_t image_len, const uint8_t *state, size_t state_len)
{
    struct stream s;

    if (!right_lengths(image_len, state_len))
        return BAD_IMAGE;
    s = stream_at(state);
    if (s.section == OVER)
        return BAD_TRACE;
    return possible_numbers(&s) && possible_bytes(&s) ? ACCEPTED : BAD_IMAGE;
}

/* ---- the three calls */

uint64_t reference_stream_open(uint8_t *image, size_t image_len, uint8_t *state, size_t state_len,
                               uint8_t *text, size_t text_len)
{
    static const struct stream first = {1, 0, 0, 0, {0}};

    if (!right_lengths(image_len, state_len))
        return refused(BAD_IMAGE);
    if (text_len < strlen(HEADER))
        return refused(NO_ROOM);
    reference_fresh(image, image_len, CAN_B);
    memcpy(state, &first, sizeof first);
    put_words(text, HEADER);
    return wrote(ACCEPTED, strlen(HEADER));
}

/* A feeding has seen the fault if the stream is over now. */
static uint64_t fed(const struct stream *s, size_t bytes)
{
    return wrote(s->section == OVER ? BAD_TRACE : ACCEPTED, bytes);
}

/* The text may be too long: the part is taken on copies, which the caller gets if it is not. */
static uint64_t feed_copies(struct stream *s, uint8_t *image, const uint8_t *part, size_t part_len,
                            uint8_t *text, size_t text_len)
{
    uint8_t next_image[IMAGE_BYTES], next_text[MOST_TEXT];
    size_t bytes;

    memcpy(next_image, image, IMAGE_BYTES);
    bytes = (size_t)(take_part(s, next_image, part, part_len, next_text) - next_text);
    if (bytes > text_len)
        return refused(NO_ROOM);
    memcpy(image, next_image, IMAGE_BYTES);
    memcpy(text, next_text, bytes);
    return fed(s, bytes);
}

uint64_t reference_stream_feed(uint8_t *image, size_t image_len, uint8_t *state, size_t state_len,
                               const uint8_t *part, size_t part_len, uint8_t *text, size_t text_len)
{
    unsigned refusal = refusal_at_once(image_len, state, state_len);
    struct stream s;
    uint64_t answer;

    if (refusal != ACCEPTED)
        return refused(refusal);
    s = stream_at(state);
    if (text_len >= part_len + ROOM_BEYOND)
        answer = fed(&s, (size_t)(take_part(&s, image, part, part_len, text) - text));
    else
        answer = feed_copies(&s, image, part, part_len, text, text_len);
    if (answer != refused(NO_ROOM))
        memcpy(state, &s, sizeof s);
    return answer;
}

/* Only a trace that was read to its end has an end line. Of the image the length alone matters. */
uint64_t reference_stream_close(uint8_t *image, size_t image_len, uint8_t *state, size_t state_len,
                                uint8_t *text, size_t text_len)
{
    unsigned refusal = refusal_at_once(image_len, state, state_len);
    uint8_t line[sizeof REFUSAL], *end;
    struct stream s;

    (void)image;
    if (refusal != ACCEPTED)
        return refused(refusal);
    s = stream_at(state);
    refusal = s.section == BEHIND ? ACCEPTED : BAD_TRACE;
    end = refusal == ACCEPTED ? put_number(put_words(line, "end "), s.complete, '\n') : put_words(line, REFUSAL);
    if ((size_t)(end - line) > text_len)
        return refused(NO_ROOM);
    memcpy(text, line, (size_t)(end - line));
    end_stream(&s);
    memcpy(state, &s, sizeof s);
    return wrote(refusal, (size_t)(end - line));
}
