/* Reads a scenario: each line to its end, into the events that it stands for. */
#include "scenario.h"

#include <string.h>

#include "words.h"

enum { MOST_OF_A_LINE = 4, MOST_EXPECTED = 24 };

struct reader {
    struct lines *lines;
    const struct form *form; /* of this line */

    /* The word that stands next, of no characters at the end of the line; and where the one before ended. */
    const char *word, *behind;
    size_t length;
    int broken; /* the line has a fault: nothing more is taken from it */

    /* What may stand in the place of that word, as far as was asked. */
    struct expected {
        const char *words;
        int exactly; /* these words themselves, and not what they describe */
    } expected[MOST_EXPECTED];
    int expectations;

    /* What this line stands for. */
    uint8_t events[MOST_OF_A_LINE][FROSTSORREL_EVENT_BYTES];
    int count;

    /* What `enable` needs to know: bits of mailboxes that receive, whose direction is known, that are enabled. */
    uint32_t receiving, known, enabled;

    int section;   /* from 0; -1 before the first heading */
    unsigned full; /* a bit for each section that takes no more events */
    struct text sections[SECTIONS];
};

static const struct heading {
    const char *word, *whole;
} headings[SECTIONS] = {{"mailboxes", "mailboxes:"}, {"registers", "registers:"}, {"events", "events:"}};

/* ---- words */

/* How long the word is that begins here: a sign of the language, or all that no space or sign ends. */
static size_t word_length(const char *at, const char *end)
{
    static const char signs[] = ":=|<";
    const char *p = at;

    if (end - at >= 2 && memcmp(at, "<<", 2) == 0)
        return 2;
    while (p < end && !is_space(*p) && !memchr(signs, *p, sizeof signs - 1))
        p++;
    return p == at && at < end ? 1 : (size_t)(p - at);
}

static void advance(struct reader *r)
{
    const char *end = r->lines->line + r->lines->length;

    r->behind = r->word + r->length;
    for (r->word = r->behind; r->word < end && is_space(*r->word); r->word++)
        ;
    r->length = word_length(r->word, end);
    r->expectations = 0;
}

static char lower(char c)
{
    return c >= 'A' && c <= 'Z' ? (char)(c + 'a' - 'A') : c;
}

/* Does this word stand next, in either case? */
static int stands(const struct reader *r, const char *word)
{
    size_t i = 0;

    while (i < r->length && word[i] && lower(word[i]) == lower(r->word[i]))
        i++;
    return i == r->length && !word[i];
}

/* ---- faults: what was found, and what may stand there */

static void expect(struct reader *r, const char *words, int exactly)
{
    if (r->expectations < MOST_EXPECTED)
        r->expected[r->expectations++] = (struct expected){words, exactly};
}

static void add_expected(struct text *t, const struct reader *r)
{
    for (int i = 0; i < r->expectations; i++) {
        const char *joined = i == 0 ? "" : i + 1 < r->expectations ? ", " : " or ";

        text_add(t, r->expected[i].exactly ? "%s\"%s\"" : "%s%s", joined, r->expected[i].words);
    }
}

/* The words between these places are not what may stand there. */
static void unexpected_from(struct reader *r, const char *first, const char *end)
{
    struct text message = {0};

    if (r->broken)
        return;
    r->broken = 1;
    text_add(&message, first == end ? "found the end of the line" : "found \"");
    add_quoted(&message, first, (size_t)(end - first));
    text_add(&message, first == end ? "; here may stand " : "\"; here may stand ");
    add_expected(&message, r);
    fault(r->lines, "%s", message.at);
    text_free(&message);
}

static void unexpected(struct reader *r)
{
    unexpected_from(r, r->word, r->word + r->length);
}

/* ---- taking words */

static int takes(struct reader *r, const char *word)
{
    if (r->broken)
        return 0;
    if (stands(r, word)) {
        advance(r);
        return 1;
    }
    expect(r, word, 1);
    return 0;
}

static void needs(struct reader *r, const char *word)
{
    if (!takes(r, word))
        unexpected(r);
}

/* Does the word that stands next begin with 0x and go on? */
static int has_0x(const struct reader *r)
{
    return r->length > 2 && r->word[0] == '0' && lower(r->word[1]) == 'x';
}

/* How many hexadecimal digits it begins with. */
static size_t digits_of(const struct reader *r)
{
    size_t count = 0;

    while (count < r->length && digit(r->word[count]) >= 0)
        count++;
    return count;
}

/* The word that stands next as a number of at most 32 bits: decimal without a 0 in front, or 0x and digits. */
static int is_number(const struct reader *r, uint32_t *value)
{
    int base = has_0x(r) ? 16 : 10;
    uint64_t sum = 0;

    if (r->length == 0 || (base == 10 && r->length > 1 && r->word[0] == '0'))
        return 0;
    for (size_t i = base == 16 ? 2 : 0; i < r->length; i++) {
        int next = digit(r->word[i]);

        if (next < 0 || next >= base)
            return 0;
        sum = sum * (unsigned)base + (unsigned)next;
        if (sum > UINT32_MAX)
            return 0;
    }
    *value = (uint32_t)sum;
    return 1;
}

/* One number within these bounds. */
static uint32_t take_number(struct reader *r, const char *what, uint32_t least, uint32_t most)
{
    uint32_t value;

    if (r->broken)
        return least;
    expect(r, what, 0);
    if (is_number(r, &value) && value >= least && value <= most) {
        advance(r);
        return value;
    }
    unexpected(r);
    return least;
}

static uint8_t take_small(struct reader *r, const char *what, uint8_t most)
{
    return (uint8_t)take_number(r, what, 0, most);
}

/* NUMBER << NUMBER ..; what has more than 32 bits stays too large for everything. */
static uint64_t take_shifted(struct reader *r, const char *what)
{
    const uint64_t too_large = (uint64_t)UINT32_MAX + 1;
    uint64_t value = take_number(r, what, 0, UINT32_MAX);

    while (takes(r, "<<")) {
        value <<= take_number(r, "a number of bits, 0 to 31", 0, 31);
        value = value < too_large ? value : too_large;
    }
    return value;
}

/* A value: numbers with << between them, and | between those. */
static uint32_t take_value(struct reader *r, const char *what, uint32_t most)
{
    const char *first = r->word;
    uint64_t value = take_shifted(r, what);

    while (takes(r, "|"))
        value |= take_shifted(r, "a number");
    if (!r->broken && value > most) {
        r->expectations = 0;
        expect(r, what, 0);
        unexpected_from(r, first, r->behind);
    }
    return (uint32_t)value;
}

static uint32_t take_word_value(struct reader *r)
{
    return take_value(r, "a value, 0 to 0xFFFFFFFF, as 8 or 0x8", UINT32_MAX);
}

static uint8_t take_mailbox(struct reader *r)
{
    return take_small(r, "a mailbox, 0 to 31", FROSTSORREL_MAILBOXES - 1);
}

/* The word that stands next is wrong for a reason of its own. */
static void wrong_word(struct reader *r, const char *why, const char *advice)
{
    struct text found = {0};

    if (r->broken)
        return;
    r->broken = 1;
    add_quoted(&found, r->word, r->length);
    fault(r->lines, "found \"%s\"; %s%s", found.at, why, advice ? advice : found.at);
    text_free(&found);
}

/* Data are hexadecimal without 0x, so digits without it would be read as either: they are an error. */
static uint32_t take_hexadecimal(struct reader *r, const char *what, uint32_t most)
{
    r->expectations = 0; /* what may stand here says of "ext" as well */
    if (r->length > 0 && digits_of(r) == r->length)
        wrong_word(r, "an identifier is hexadecimal and has 0x before it: 0x", 0);
    return take_number(r, what, 0, most);
}

/* In its place, with IDE where it is extended. */
static uint32_t take_identifier(struct reader *r)
{
    if (takes(r, "ext"))
        return frostsorrel_extended(take_hexadecimal(r, "an extended identifier, 0x0 to 0x1FFFFFFF", 0x1FFFFFFF));
    return frostsorrel_standard(
        take_hexadecimal(r, "a standard identifier, 0x0 to 0x7FF (an extended one has \"ext\" before it)", 0x7FF));
}

/* Bytes of two hexadecimal digits, apart or in a row. Answers how many there are. */
static int take_bytes(struct reader *r, uint8_t *into, int most, const char *what, const char *too_many)
{
    int count = 0;

    while (!r->broken) {
        size_t digits = digits_of(r);

        expect(r, what, 0);
        if (digits < r->length || digits % 2 || digits == 0)
            break;
        if (count + (int)(digits / 2) > most) {
            wrong_word(r, too_many, "");
            break;
        }
        for (size_t i = 0; i < digits; i += 2)
            into[count++] = (uint8_t)(16 * digit(r->word[i]) + digit(r->word[i + 1]));
        advance(r);
    }
    return count;
}

static int take_data(struct reader *r, uint8_t *data)
{
    return take_bytes(r, data, FROSTSORREL_MOST_DATA_BYTES, "data bytes of two hexadecimal digits, eight at most",
                      "there is a ninth data byte, and eight may stand here");
}

static uint8_t take_dlc(struct reader *r)
{
    return take_small(r, "a DLC, 0 to 15", FROSTSORREL_HIGHEST_DLC);
}

/* Is all taken that an event is made of? Behind it stands how often, or nothing. */
static int is_at_end(const struct reader *r)
{
    return r->length == 0 || stands(r, "x");
}

/*
 * Beside data a DLC is their number; above 8 it stands for eight bytes (document 02, c). Where a word follows that is no
 * data byte, that word is what is wrong.
 */
static void compare_dlc(struct reader *r, uint8_t dlc, int count)
{
    int wanted = data_bytes_of(dlc);

    if (count == wanted || !is_at_end(r))
        return;
    r->broken = 1;
    fault(r->lines, "dlc %d, but %d data byte%s%s", dlc, count, count == 1 ? "" : "s",
          dlc > wanted ? "; a DLC above 8 has eight" : "");
}

/* `dlc`, and the data behind `:`; without `dlc` the DLC is how many there are. Answers it. */
static uint8_t take_contents(struct reader *r, uint8_t *data, int *count)
{
    int is_given = takes(r, "dlc");
    uint8_t dlc = is_given ? take_dlc(r) : 0;

    *count = 0;
    if (!takes(r, ":"))
        return dlc;
    *count = take_data(r, data);
    if (stands(r, "dlc"))
        wrong_word(r, "it may stand before \":\", and not behind it", "");
    if (is_given)
        compare_dlc(r, dlc, *count);
    return is_given ? dlc : (uint8_t)*count;
}

/* Their bits. At least one has to be there, and none twice. */
static uint32_t take_mailboxes(struct reader *r)
{
    uint32_t bits = 0, next;

    do {
        uint8_t mailbox = take_mailbox(r);

        if (bits >> mailbox & 1)
            fault(r->lines, "mailbox %d stands here twice", mailbox);
        bits |= 1u << mailbox;
    } while (!r->broken && is_number(r, &next));
    expect(r, "another mailbox", 0);
    return bits;
}

/* ---- the forms of a line: each takes what follows its first word */

struct form {
    const char *word;
    void (*read)(struct reader *r);
    int sections;   /* where it may stand */
    uint8_t number; /* the register that it writes, or its operation, where several forms are read alike */
};

static uint8_t *new_event(struct reader *r)
{
    return r->events[r->count++];
}

static void add_write(struct reader *r, uint8_t number, uint32_t value)
{
    frostsorrel_write_register(new_event(r), number, value);
}

static void add_plain(struct reader *r, uint8_t operation, uint8_t target, uint32_t value)
{
    frostsorrel_event(new_event(r), operation, target, 0, value);
}

/* Takes over what an event says of directions and enabled mailboxes, as if the model will accept it. */
static void follow(struct reader *r, const uint8_t *event)
{
    if (event[0] == FROSTSORREL_RESET)
        r->enabled = 0; /* the mailboxes keep their words, and the scenario what it said of them */
    if (event[0] != FROSTSORREL_WRITE_REGISTER)
        return;
    if (event[1] == FROSTSORREL_MC)
        r->enabled = frostsorrel_event_value(event);
    if (event[1] == FROSTSORREL_MD) {
        r->receiving = frostsorrel_event_value(event) | 1u << 31;
        r->known = UINT32_MAX;
    }
}

static void set_direction(struct reader *r, uint8_t mailbox, int receives)
{
    uint32_t bit = 1u << mailbox;

    r->known |= bit;
    r->receiving = receives ? r->receiving | bit : r->receiving & ~bit;
}

/* Word 0, word 1 with the DLC, and words 2 and 3 as far as the data go. */
static void take_sender(struct reader *r, uint8_t mailbox, uint32_t flags)
{
    uint8_t data[FROSTSORREL_MOST_DATA_BYTES] = {0};
    uint32_t word_0 = flags | take_identifier(r);
    int count;
    uint8_t dlc = take_contents(r, data, &count);

    if (mailbox == FROSTSORREL_MAILBOXES - 1)
        fault(r->lines, "mailbox 31 always receives");
    set_direction(r, mailbox, 0);
    frostsorrel_write_mailbox(new_event(r), mailbox, 0, word_0);
    frostsorrel_write_mailbox(new_event(r), mailbox, 1, dlc);
    for (int at = 0; at < count; at += 4)
        frostsorrel_write_mailbox(new_event(r), mailbox, (uint8_t)(2 + at / 4), frostsorrel_word(data + at));
}

static void take_receiver(struct reader *r, uint8_t mailbox)
{
    set_direction(r, mailbox, 1);
    frostsorrel_write_mailbox(new_event(r), mailbox, 0, take_identifier(r));
}

static void take_mailbox_word(struct reader *r, uint8_t mailbox)
{
    uint8_t word = take_small(r, "a word, 0 to 3", 3);

    needs(r, "=");
    frostsorrel_write_mailbox(new_event(r), mailbox, word, take_word_value(r));
}

static void read_mailbox(struct reader *r)
{
    uint8_t mailbox = take_mailbox(r);

    if (takes(r, "receives"))
        take_receiver(r, mailbox);
    else if (takes(r, "sends"))
        take_sender(r, mailbox, 0);
    else if (takes(r, "replies"))
        take_sender(r, mailbox, FROSTSORREL_RFH);
    else if (takes(r, "word"))
        take_mailbox_word(r, mailbox);
    else
        unexpected(r);
}

/* By name or number. One that can only be read is taken too: firmware may try, and gets its refusal. */
static uint8_t take_register(struct reader *r)
{
    uint32_t wanted, number = 0;
    int numbered = is_number(r, &wanted);

    while (number <= FROSTSORREL_PROTECTION &&
           !(is_register(number) && (numbered ? number == wanted : stands(r, frostsorrel_register_name(number)))))
        number++;
    if (number <= FROSTSORREL_PROTECTION) {
        advance(r);
    } else {
        expect(r, "a register, by its name or number, as `frostsorrel registers` lists them", 0);
        unexpected(r);
    }
    return (uint8_t)number;
}

static void read_write(struct reader *r)
{
    uint8_t number = take_register(r);

    needs(r, "=");
    add_write(r, number, take_word_value(r));
    follow(r, r->events[0]);
}

static void read_options(struct reader *r)
{
    add_plain(r, FROSTSORREL_OPTIONS, 0, take_value(r, "options, 0 to 3 (1 is MTOS, 2 is WUBA)", 3));
}

/* Two writes: MD with all directions that are known, then MC with those that are enabled already and these. */
static void read_enable(struct reader *r)
{
    uint32_t bits = take_mailboxes(r), unknown = bits & ~r->known;

    for (int mailbox = 0; mailbox < FROSTSORREL_MAILBOXES; mailbox++)
        if (unknown >> mailbox & 1)
            fault(r->lines, "mailbox %d: no line above says that it receives, sends or replies, or writes MD", mailbox);
    r->enabled |= bits;
    add_write(r, FROSTSORREL_MD, r->receiving);
    add_write(r, FROSTSORREL_MC, r->enabled);
}

/* One write, with the bits of these mailboxes. */
static void read_bits(struct reader *r)
{
    add_write(r, r->form->number, take_mailboxes(r));
}

/* A mailbox may have its data from elsewhere. A frame brings its own, so a DLC that asks for some needs them. */
static void read_frame(struct reader *r)
{
    uint8_t data[FROSTSORREL_MOST_DATA_BYTES] = {0};
    uint32_t identifier = take_identifier(r);
    int count;
    uint8_t dlc = take_contents(r, data, &count);

    if (dlc > 0 && count == 0)
        unexpected(r);
    frostsorrel_data_frame(new_event(r), identifier, dlc, data);
}

static void read_remote(struct reader *r)
{
    uint32_t identifier = take_identifier(r);
    uint8_t dlc = takes(r, "dlc") ? take_dlc(r) : 0;

    frostsorrel_remote_frame(new_event(r), identifier, dlc);
}

/* Nothing follows. */
static void read_plain(struct reader *r)
{
    add_plain(r, r->form->number, 0, 0);
    follow(r, r->events[0]);
}

const char *const outcome_words[OUTCOMES] = {"sent", "lost", "error", "unacknowledged"};

static void read_outcome(struct reader *r)
{
    for (uint8_t how = 0; how < OUTCOMES; how++)
        if (takes(r, outcome_words[how])) {
            frostsorrel_outcome(new_event(r), how);
            return;
        }
    unexpected(r);
}

static void read_receive(struct reader *r)
{
    needs(r, "error");
    if (takes(r, "1"))
        add_plain(r, FROSTSORREL_RECEIVE_ERROR, 0, 1);
    else if (takes(r, "8"))
        add_plain(r, FROSTSORREL_RECEIVE_ERROR, 0, 8);
    else
        unexpected(r);
}

static void read_mode(struct reader *r)
{
    for (uint32_t mode = FROSTSORREL_NORMAL; mode <= FROSTSORREL_SUSPEND; mode++)
        if (takes(r, frostsorrel_mode_name(mode))) {
            add_plain(r, FROSTSORREL_MODE, 0, mode);
            return;
        }
    unexpected(r);
}

static void read_raw(struct reader *r)
{
    static const char *const operations[SECTIONS] = {"1", "0 or 9", "any"};
    uint8_t *event = new_event(r);

    if (take_bytes(r, event, FROSTSORREL_EVENT_BYTES, "16 bytes of two hexadecimal digits",
                   "there is a 17th byte, and an event has 16") < FROSTSORREL_EVENT_BYTES)
        unexpected(r);
    if (!r->broken && !belongs(r->section, event[0]))
        fault(r->lines, "found operation %d; in \"%s\" may stand operation %s", event[0],
              headings[r->section].whole, operations[r->section]);
    follow(r, event);
}

enum { IN_MAILBOXES = 1, IN_REGISTERS = 2, IN_EVENTS = 4 };

static const struct form forms[] = {
    {"mailbox", read_mailbox, IN_MAILBOXES | IN_EVENTS, 0},
    {"write", read_write, IN_REGISTERS | IN_EVENTS, 0},
    {"options", read_options, IN_REGISTERS | IN_EVENTS, 0},
    {"enable", read_enable, IN_REGISTERS | IN_EVENTS, 0},
    {"send", read_bits, IN_REGISTERS | IN_EVENTS, FROSTSORREL_TRS},
    {"abort", read_bits, IN_REGISTERS | IN_EVENTS, FROSTSORREL_TRR},
    {"release", read_bits, IN_REGISTERS | IN_EVENTS, FROSTSORREL_RMP},
    {"frame", read_frame, IN_EVENTS, 0},
    {"remote", read_remote, IN_EVENTS, 0},
    {"start", read_plain, IN_EVENTS, FROSTSORREL_START},
    {"outcome", read_outcome, IN_EVENTS, 0},
    {"receive", read_receive, IN_EVENTS, 0},
    {"recessive", read_plain, IN_EVENTS, FROSTSORREL_ELEVEN_RECESSIVE},
    {"tick", read_plain, IN_EVENTS, FROSTSORREL_TICK},
    {"mode", read_mode, IN_EVENTS, 0},
    {"reset", read_plain, IN_EVENTS, FROSTSORREL_RESET},
    {"raw", read_raw, IN_MAILBOXES | IN_REGISTERS | IN_EVENTS, 0},
};

/* ---- lines */

static void needs_end(struct reader *r)
{
    expect(r, "the end of the line", 0);
    if (r->length > 0)
        unexpected(r);
}

/* The sections come in their order. Each may be left out, and each may go on under its heading again. */
static void read_heading(struct reader *r)
{
    int section = r->section < 0 ? 0 : r->section;

    for (int earlier = 0; earlier < section; earlier++)
        if (stands(r, headings[earlier].word))
            fault(r->lines, "found \"%s\", but \"%s\" has begun; the order is mailboxes, registers, events",
                  headings[earlier].whole, headings[section].whole);
    while (section < SECTIONS && !stands(r, headings[section].word))
        expect(r, headings[section++].whole, 1);
    if (section == SECTIONS) {
        unexpected(r);
        return;
    }
    advance(r);
    needs(r, ":");
    needs_end(r);
    r->section = section;
}

static void add_events(struct reader *r, uint32_t times)
{
    struct text *section = &r->sections[r->section];
    size_t before = section->length / FROSTSORREL_EVENT_BYTES, added = times * (size_t)r->count;

    if (before + added > FROSTSORREL_SECTION_EVENTS) {
        if (!(r->full & 1u << r->section)) /* once is enough */
            fault(r->lines, "%lu events and %lu more in \"%s\"; a section takes 1,000", (unsigned long)before,
                  (unsigned long)added, headings[r->section].whole);
        r->full |= 1u << r->section;
        return;
    }
    for (uint32_t turn = 0; turn < times; turn++)
        text_bytes(section, r->events, (size_t)r->count * FROSTSORREL_EVENT_BYTES);
}

static void read_form(struct reader *r, const struct form *form)
{
    uint32_t times;

    r->form = form;
    r->count = 0;
    form->read(r);
    times = takes(r, "x") ? take_number(r, "how often, 1 to 1000", 1, FROSTSORREL_SECTION_EVENTS) : 1;
    needs_end(r);
    if (!r->broken)
        add_events(r, times);
}

static void read_line(struct reader *r)
{
    if (r->length == 0)
        return;
    if (r->section >= 0)
        for (size_t i = 0; i < sizeof forms / sizeof forms[0]; i++)
            if (forms[i].sections >> r->section & 1 && takes(r, forms[i].word)) {
                read_form(r, &forms[i]);
                return;
            }
    read_heading(r);
}

/* Before its first word; a # and what follows it are no part of a line. */
static void begin_line(struct reader *r)
{
    const char *comment = memchr(r->lines->line, '#', r->lines->length);

    if (comment)
        r->lines->length = (size_t)(comment - r->lines->line);
    r->word = r->lines->line;
    r->length = 0;
    r->broken = 0;
    advance(r);
}

void make_trace(struct lines *scenario, struct text *trace)
{
    struct reader r = {.lines = scenario, .section = -1, .receiving = 1u << 31, .known = 1u << 31};

    while (next_line(scenario)) {
        begin_line(&r);
        read_line(&r);
    }
    if (r.section < 0 && !scenario->faulty)
        fault(scenario, "no section: a scenario has \"mailboxes:\", \"registers:\" and \"events:\"");
    for (int section = 0; section < SECTIONS; section++) {
        size_t count = r.sections[section].length / FROSTSORREL_EVENT_BYTES;
        uint8_t low_first[2] = {(uint8_t)count, (uint8_t)(count >> 8)};

        text_bytes(trace, low_first, sizeof low_first);
        if (count > 0)
            text_bytes(trace, r.sections[section].at, r.sections[section].length);
        text_free(&r.sections[section]);
    }
}
