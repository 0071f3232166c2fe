#include "scenario.h"

uint8_t image[BYTES], expected[BYTES];

static const char *scenario;
static struct place last; /* where the last event was fed */

/* The whole image against the one kept by hand; taken over, so that a fault is reported once. */
static void compare_images(void)
{
    int word = first_difference(image, expected), same = word == WORDS;

    check(same, "%s:%d, %s: %s is 0x%08lX, not 0x%08lX", last.file, last.line, scenario,
          word_name(word % WORDS), (unsigned long)word_of(image, word % WORDS),
          (unsigned long)word_of(expected, word % WORDS));
    memcpy(image, expected, BYTES);
}

static void begin_of(const char *name, uint32_t profile, enum state state)
{
    static const struct edit nothing[EDITS];

    if (scenario)
        end();
    scenario = name;
    make_of(expected, profile, state, nothing);
    memcpy(image, expected, BYTES);
}

void begin(const char *name, enum state state)
{
    begin_of(name, CAN_B, state);
}

void begin_ecan(const char *name, enum state state)
{
    begin_of(name, ECAN, state);
}

void end(void)
{
    compare_images(); /* what the last event has left */
}

static void put_all(uint8_t *where, const struct content *contents, size_t count)
{
    for (size_t i = 0; i < count; i++)
        put(where, contents[i].word, contents[i].value);
}

void put_given(const struct content *contents, size_t count)
{
    compare_images(); /* the event before must be seen through first */
    put_all(image, contents, count);
    put_all(expected, contents, count);
}

void put_expected(const struct content *contents, size_t count)
{
    put_all(expected, contents, count);
}

void feed(struct place at, struct event e, unsigned refusal, unsigned mailbox, unsigned count)
{
    uint64_t answer;

    compare_images();
    last = at;
    answer = frostsorrel_step(image, BYTES, e.bytes, EVENT_BYTES);
    check(answer == refusal + 256 * mailbox + 65536 * (uint64_t)count,
          "%s:%d, %s: answer %u %u %u, not %u %u %u", at.file, at.line, scenario,
          (unsigned)frostsorrel_answer_refusal(answer), (unsigned)frostsorrel_answer_mailbox(answer),
          (unsigned)frostsorrel_answer_count(answer), refusal, mailbox, count);
}

void read_as(struct place at, uint32_t number, uint64_t expected_answer)
{
    uint64_t answer = frostsorrel_read(image, BYTES, number);

    check(answer == expected_answer, "%s:%d, %s: register %lu reads 0x%llX, not 0x%llX", at.file, at.line, scenario,
          (unsigned long)number, (unsigned long long)answer, (unsigned long long)expected_answer);
}

void enabled(int n, uint32_t word_0)
{
    given({MAILBOX(n, 0), word_0}, {MC, word_of(expected, MC) | BIT(n)});
}

void receiving(int n, uint32_t word_0)
{
    enabled(n, word_0);
    given({MD, word_of(expected, MD) | BIT(n)});
}

void now_stored(int n, uint32_t word_0)
{
    now({MAILBOX(n, 0), word_0}, {RMP, word_of(expected, RMP) | BIT(n)});
}
