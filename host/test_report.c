/*
 * The report on drawn traces and on any bytes: test_report TRACE..
 *
 * Each trace is told as it is, with some of its bytes changed, and with events repeated; random bytes are told as well.
 * The books must balance and agree with the image, every frame that came to nobody, every refusal, every step and every
 * word that changed must be told, each refusal must have a reason that fits it, and so must each frame that no mailbox
 * took, and each missing acknowledgement that TEC does not count. A frame is told with the bytes that it carries, and
 * each line of its explanation with its reason, what comes of a match, and the identifier and bit that decided; what is
 * said of a mask is held to a mailbox without it. An explanation that says something else than the step is a fault.
 * host/test_sanitized runs it under the compiler's sanitizers, on the machine's own processor.
 */
#define _XOPEN_SOURCE 700 /* fork, waitpid and pipe beside C99 */

#include <stdio.h>
#include <stdlib.h>
#include <string.h>
#include <sys/wait.h>
#include <unistd.h>

#include "check.h"
#include "command/report.h"
#include "command/words.h"
#include "generate.h"
#include "stand_in.h"

static int lines_with(const struct text *t, const char *words)
{
    int lines = 0;

    for (const char *at = t->at; (at = strstr(at, words)); at += strlen(words))
        lines++;
    return lines;
}

/*
 * A sentence of its own is said only where it is true. So there has to be one, but for sleep and an empty slot, where the
 * general one says it all.
 */
static void check_reason(const uint8_t *before, const uint8_t *event, uint32_t refusal, const char *name)
{
    int general = refusal == FROSTSORREL_ASLEEP || refusal == FROSTSORREL_SLOT_EMPTY;
    struct text t = {0};

    say_reason(&t, before, event, refusal);
    check((strcmp(t.at, frostsorrel_refusal_reason(refusal)) == 0) == general, "%s: operation %d, refusal %u: %s", name,
          event[0], (unsigned)refusal, t.at);
    text_free(&t);
}

static int check_refusals(const struct run *r, const char *name)
{
    int refused = 0;

    for (int k = 1; k <= r->steps; k++)
        if (refusal_of(r, k) != FROSTSORREL_ACCEPTED) {
            check_reason(r->image[k - 1], r->step[k].event, refusal_of(r, k), name);
            refused++;
        }
    return refused;
}

/* The mailbox that was compared last: the enabled ones are, from 0 on; 32 if there was none. */
static uint32_t compared_last(const uint8_t *image, uint64_t count, uint64_t *enabled)
{
    uint32_t last = FROSTSORREL_NO_MAILBOX;

    *enabled = 0;
    for (uint32_t n = 0; n < FROSTSORREL_MAILBOXES; n++)
        if (frostsorrel_register_word(image, FROSTSORREL_MC) >> n & 1 && ++*enabled == count)
            last = n;
    return last;
}

/*
 * That the search ended at a mailbox is said of a remote frame wherever fewer were compared than are enabled, and of
 * the one that was compared last, which transmits and has RFH 0. Of a data frame it is never said.
 */
static void check_search(const uint8_t *before, const uint8_t *event, uint64_t answer, const char *words,
                         const char *name)
{
    static const char ended[] = "NOT TAKEN: it matches mailbox ";
    uint64_t enabled, count = frostsorrel_answer_count(answer);
    uint32_t last = compared_last(before, count, &enabled);
    int said = strncmp(words, ended, strlen(ended)) == 0, remote = frostsorrel_event_value(event) >> 30 & 1;

    check(said || !remote || count == enabled, "%s: %lu of %lu were compared: %s", name, (unsigned long)count,
          (unsigned long)enabled, words);
    if (!said)
        return;
    check(remote && strtoul(words + strlen(ended), 0, 10) == last, "%s: %lu was compared last: %s", name,
          (unsigned long)last, words);
    check(!(frostsorrel_register_word(before, FROSTSORREL_MD) >> last & 1) &&
              !(frostsorrel_mailbox_word(before, last, 0) & FROSTSORREL_RFH), "%s: it would reply: %s", name, words);
}

/* A frame that is said to wake the unit does. */
static void check_waking(const uint8_t *after, const char *words, const char *name)
{
    int awake = frostsorrel_register_word(after, FROSTSORREL_WORD_MODE) == FROSTSORREL_NORMAL &&
                frostsorrel_register_word(after, FROSTSORREL_TEC) < FROSTSORREL_BUS_OFF_TEC;

    check(awake == (strstr(words, "wakes") != 0), "%s: %s", name, words);
}

/* That an event did nothing is said only where it did; and of a start and a tick, wherever they did. */
static void check_idle(const struct run *r, int step, const char *name)
{
    const struct step *s = &r->step[step];
    int unchanged = memcmp(r->image[step - 1], r->image[step], FROSTSORREL_IMAGE_BYTES) == 0;
    int always = s->event[0] == FROSTSORREL_START || s->event[0] == FROSTSORREL_TICK;
    struct text t = {0};

    if (refusal_of(r, step) != FROSTSORREL_ACCEPTED || s->event[0] == FROSTSORREL_FRAME ||
        frostsorrel_answer_mailbox(s->answer) != FROSTSORREL_NO_MAILBOX)
        return;
    say_answer(&t, r->image[step - 1], s->event, s->answer);
    check(unchanged || !t.length, "%s, step %d: %s", name, step, t.length ? t.at : "");
    check(!unchanged || !always || t.length, "%s, step %d: nothing says why nothing changes", name, step);
    text_free(&t);
}

/*
 * The bytes of a data frame are told, as many as its DLC says and eight at most, and the DLC where they do not say it.
 * Of a remote frame the DLC is told, and no byte.
 */
static void check_frame(const uint8_t *event, const char *name)
{
    int remote = event[7] >> 6 & 1, dlc = event[1], bytes = remote ? 0 : dlc < 8 ? dlc : 8;
    struct text words = {0}, wanted = {0};

    if (event[0] != FROSTSORREL_FRAME)
        return;
    say_event(&words, event);
    text_add(&wanted, remote ? "remote frame " : "frame ");
    say_identifier(&wanted, frostsorrel_event_value(event));
    if (remote || dlc > 8)
        text_add(&wanted, " DLC %d", dlc);
    if (!remote)
        text_add(&wanted, bytes ? " data" : " no data");
    for (int i = 0; i < bytes; i++)
        text_add(&wanted, " %02X", event[8 + i]);
    check(strcmp(words.at, wanted.at) == 0, "%s: %s is told, and not %s", name, words.at, wanted.at);
    text_free(&words);
    text_free(&wanted);
}

static int kept, kept_by_rec; /* how often a drawn unit kept its TEC, and how often only REC had made it passive */

/*
 * That TEC stays is said of a missing acknowledgement alone, and only where it does; and wherever it does, but in a unit
 * that falls asleep, where 0 may stand for 0 by chance. Where TEC is not the reason, REC is named.
 */
static void check_kept_tec(const uint8_t *before, const uint8_t *event, uint64_t answer, const uint8_t *after,
                           const char *name)
{
    uint32_t tec = frostsorrel_register_word(before, FROSTSORREL_TEC);
    uint32_t rec = frostsorrel_register_word(before, FROSTSORREL_REC);
    int by_rec = tec < 128 && rec > 127;
    int stays = event[0] == FROSTSORREL_OUTCOME && event[1] == FROSTSORREL_UNACKNOWLEDGED &&
                frostsorrel_register_word(after, FROSTSORREL_TEC) == tec;
    int asleep = frostsorrel_register_word(after, FROSTSORREL_WORD_MODE) == FROSTSORREL_SLEEP;
    struct text answered = {0}, words = {0};
    const char *said;

    say_answer(&answered, before, event, answer);
    text_add(&words, ", TEC stays at %lu: the unit is passive", wide(tec));
    if (by_rec)
        text_add(&words, ", REC %lu", wide(rec));
    said = answered.length ? strstr(answered.at, ", TEC ") : 0;
    check(!said || (stays && strcmp(said, words.at) == 0), "%s: TEC was %lu: %s", name, wide(tec), said);
    check(said || !stays || asleep, "%s: nothing says that TEC stays at %lu", name, wide(tec));
    kept += said != 0;
    kept_by_rec += said && by_rec;
    text_free(&answered);
    text_free(&words);
}

static void check_missed(const struct run *r, const char *name)
{
    for (int k = 1; k <= r->steps; k++)
        for (int i = r->step[k].first_made; i < r->step[k + 1].first_made; i++) {
            struct text t = {0};

            say_made(&t, &r->made[i], r->image[k - 1], r->step[k].event);
            if (r->made[i].entry == NOT_TAKEN)
                check_search(r->image[k - 1], r->step[k].event, r->step[k].answer, t.at, name);
            if (r->made[i].entry == NOT_HEARD)
                check_waking(r->image[k], t.at, name);
            text_free(&t);
        }
}

/*
 * The report tells of such an entry at its step, and under Losses, where the line begins with two blanks. The picture
 * has a mark for each, and one more in its legend.
 */
static void check_losses(const struct run *r, const struct text *text, const struct text *page, enum entry entry,
                         const char *word, const char *mark, const char *name)
{
    struct text under = {0}, said = {0}, shown = {0};
    int count = 0;

    for (int n = 0; n <= FROSTSORREL_NO_MAILBOX; n++)
        count += (int)r->books.count[entry][n];
    text_add(&under, "\n  %s: ", word);
    text_add(&said, " %s: ", word);
    text_add(&shown, ">%s: ", word);
    check(lines_with(text, under.at) == count, "%s: %d are not under Losses:%s", name, count, under.at);
    check(lines_with(text, said.at) == 2 * count, "%s: the text does not tell %d twice:%s", name, count, said.at);
    check(lines_with(page, shown.at) == 2 * count, "%s: the page does not tell %d twice:%s", name, count, said.at);
    check(!count || lines_with(page, mark) == count + 1, "%s: the picture does not have %d:%s", name, count, mark);
    text_free(&under);
    text_free(&said);
    text_free(&shown);
}

/* ---- every step is told, and every word that changes, and no other */

/* Does the step book nothing, and change nothing but TSC, REC and the recovery count? */
static int is_quiet(const struct run *r, int step)
{
    static const size_t counters[] = {FROSTSORREL_TSC, FROSTSORREL_REC, FROSTSORREL_WORD_RECOVERY};
    uint8_t after[FROSTSORREL_IMAGE_BYTES];

    memcpy(after, r->image[step], sizeof after);
    for (size_t i = 0; i < sizeof counters / sizeof counters[0]; i++) {
        size_t at = 4 * (FIRST_REGISTER + counters[i]);

        memcpy(after + at, r->image[step - 1] + at, 4);
    }
    return memcmp(after, r->image[step - 1], sizeof after) == 0 &&
           r->step[step].first_made == r->step[step + 1].first_made;
}

/* Only then is the step told as one with the next: nothing may be hidden in a row. */
static int goes_with_next(const struct run *r, int step)
{
    return step < r->steps && is_quiet(r, step) && is_quiet(r, step + 1) &&
           r->step[step].answer == r->step[step + 1].answer &&
           memcmp(r->step[step].event, r->step[step + 1].event, FROSTSORREL_EVENT_BYTES) == 0;
}

/* A pen that lays nothing out: it holds what is told of each row of steps to the images before and behind it. */
struct witness {
    struct pen pen; /* the first member, so that a pen of this kind is a witness */
    const struct run *run;
    const char *name;
    int first, last, nothing;
    size_t word; /* the words before this one are told, or did not change */
};

/* The next word that differs between the two images, FROSTSORREL_IMAGE_WORDS if there is none. */
static size_t next_change(const struct witness *w)
{
    const uint8_t *before = w->run->image[w->first - 1], *after = w->run->image[w->last];
    size_t word = w->word;

    while (word < FROSTSORREL_IMAGE_WORDS && memcmp(before + 4 * word, after + 4 * word, 4) == 0)
        word++;
    return word;
}

static void hear_step(struct pen *p, int first, int last, const char *event, const char *answer)
{
    struct witness *w = (struct witness *)p;

    (void)event;
    (void)answer;
    check(first == w->last + 1, "%s: step %d is told behind step %d", w->name, first, w->last);
    for (int k = first; k <= last; k++)
        check(goes_with_next(w->run, k) == (k < last), "%s: the row from step %d to %d, at step %d", w->name, first,
              last, k);
    w->first = first;
    w->last = last;
    w->nothing = 0;
    w->word = 0;
}

static void hear_detail(struct pen *p, enum kind kind, const char *words, const char *numbers)
{
    struct witness *w = (struct witness *)p;
    const uint8_t *before = w->run->image[w->first - 1], *after = w->run->image[w->last];
    struct text contents = {0};

    w->nothing += kind == NOTHING;
    if (kind != CHANGED)
        return;
    w->word = next_change(w);
    if (w->word < FROSTSORREL_IMAGE_WORDS) {
        text_add(&contents, "0x%08lX -> 0x%08lX", wide(frostsorrel_word(before + 4 * w->word)),
                 wide(frostsorrel_word(after + 4 * w->word)));
        w->word++;
    }
    check(contents.length && strcmp(numbers, contents.at) == 0, "%s, step %d: %s %s is told, and not %s", w->name,
          w->first, words, numbers, contents.length ? contents.at : "nothing");
    text_free(&contents);
}

static void hear_step_done(struct pen *p)
{
    struct witness *w = (struct witness *)p;
    int refused = refusal_of(w->run, w->first) != FROSTSORREL_ACCEPTED;

    check(next_change(w) == FROSTSORREL_IMAGE_WORDS, "%s, step %d: word %lu changes, and is not told", w->name,
          w->first, (unsigned long)next_change(w));
    check(w->nothing == (w->word == 0 && !refused), "%s, step %d: that nothing changes is told %d times", w->name,
          w->first, w->nothing);
}

static void check_changes(const struct run *r, const char *name)
{
    struct witness w = {{{0}, 0, 0, 0, 0, hear_step, hear_detail, hear_step_done}, r, name, 0, 0, 0, 0};

    tell_steps(&w.pen, r);
    check(w.last == r->steps, "%s: %d steps, and the last one told is %d", name, r->steps, w.last);
}

/* ---- what the library refuses of a run ends the program, and is said: it must not pass for nothing to tell */

static void compare_steps(const struct run *r)
{
    struct changes c;

    changes_between(r, 0, 1, &c);
}

static void explain_frame(const struct run *r)
{
    struct explanation e;

    explain_step(r, 1, &e);
}

static void check_end(void (*ask)(const struct run *r), const struct run *r, const char *message)
{
    char words[200] = "";
    int said[2], status = 0;
    pid_t child;

    fflush(stdout);
    check(pipe(said) == 0, "no pipe");
    child = fork();
    if (child == 0) {
        if (dup2(said[1], STDERR_FILENO) >= 0)
            ask(r);
        _exit(COMMAND_DONE);
    }
    check(child > 0 && waitpid(child, &status, 0) == child, "no second process");
    check(WIFEXITED(status) && WEXITSTATUS(status) == COMMAND_DIFFERS, "passed over: %s", message);
    close(said[1]);
    check(read(said[0], words, sizeof words - 1) > 0 && strstr(words, message),
          "%s: it says: %s", message, words); /* with that status a sanitizer ends the program too */
    close(said[0]);
}

static void check_bad_image(void)
{
    static uint8_t images[2][FROSTSORREL_IMAGE_BYTES]; /* zeros are not good: mailbox 0 is in the slot, unasked */
    uint8_t event[FROSTSORREL_EVENT_BYTES];
    struct step steps[2] = {{0}, {frostsorrel_remote_frame(event, 0, 0), 0, 0}};
    struct run r = {.image = images, .step = steps};

    check_end(compare_steps, &r, "does not compare steps 0 and 1: refusal 1, ");
    check_end(explain_frame, &r, "is asked to explain step 1, and answers 1, ");
}

/* ---- an explanation that says something else than the step did is a fault of the run, and told with status 1 */

static int is_compared(int reason)
{
    return (reason >= FROSTSORREL_IDE_DIFFERS && reason <= FROSTSORREL_MATCHED) || reason == FROSTSORREL_PROTECTED;
}

/* The first line is wrong: of a mailbox that was compared it says that it is disabled, and of another that it was. */
static uint64_t explain_wrongly(const uint8_t *image, size_t image_len, const uint8_t *event, size_t event_len,
                                uint8_t *list, size_t list_len)
{
    uint64_t answer = reference_explain(image, image_len, event, event_len, list, list_len);

    if (frostsorrel_answer_count(answer))
        list[1] = is_compared(list[1]) ? FROSTSORREL_DISABLED : FROSTSORREL_IDE_DIFFERS;
    return answer;
}

static int is_frame_taken(const struct run *r, int step)
{
    return r->step[step].event[0] == FROSTSORREL_FRAME && refusal_of(r, step) == FROSTSORREL_ACCEPTED;
}

/* Every frame that was taken, and no other event, has its fault. */
static void check_faults(const struct run *r, const char *name)
{
    int frames = 0;

    for (int k = 1; k <= r->steps; k++) {
        struct text said = {0};

        if (!is_frame_taken(r, k))
            continue;
        text_add(&said, "step %d: mailbox %lu, %lu compared, and its explanation says mailbox ", k,
                 (unsigned long)(r->step[k].answer >> 8 & 0xFF), (unsigned long)(r->step[k].answer >> 16));
        check(r->fault.length && strstr(r->fault.at, said.at), "%s: no fault begins: %s", name, said.at);
        text_free(&said);
        frames++;
    }
    check((r->fault.length ? lines_with(&r->fault, "\n") : 0) == frames, "%s: %d frames: %s", name, frames,
          r->fault.length ? r->fault.at : "");
}

static void check_wrong_explanations(const char *name)
{
    struct run r;

    explained_by = explain_wrongly;
    if (run_trace(name, &r) == COMMAND_DONE) {
        check_faults(&r, name);
        free_run(&r);
    }
    explained_by = reference_explain;
}

static int show_nothing(const struct run *r, char **argv)
{
    (void)r;
    (void)argv;
    return COMMAND_DONE;
}

static void show_story(const struct run *r)
{
    char *words[] = {"explain", "examples/refusal_lost.trace", "1"};

    (void)r;
    explained_by = explain_wrongly; /* in the process that ends here */
    exit(show_steps(3, words, show_nothing));
}

static void check_status(void)
{
    check_end(show_story, 0, "refusal_lost.trace: a check of the run found a difference, which frostsorrel report");
}

/* ---- explanations */

/* How often a mask made a drawn frame match, or would have freed a bit and was not used; each in both profiles. */
static int by_mask[2], by_no_mask[2];
static int protections; /* how many lines said that a mailbox is protected */

static int is_ecan(const uint8_t *image)
{
    return frostsorrel_profile_word(image) == FROSTSORREL_ECAN;
}

/* The place of a mailbox in the search. */
static int place_of(const uint8_t *image, int mailbox)
{
    return is_ecan(image) ? 31 - mailbox : mailbox;
}

static const char *mask_name(const uint8_t *image, int mailbox)
{
    if (is_ecan(image))
        return frostsorrel_register_name(FROSTSORREL_MASK_0 + (uint32_t)mailbox);
    return mailbox == 31 ? "LAM" : "GAM";
}

/* Has the mailbox of this line another line once its GAME, or LAME, is the other way round? */
static int hangs_on_mask(const uint8_t *before, const uint8_t *event, const uint8_t *line)
{
    uint8_t image[FROSTSORREL_IMAGE_BYTES], list[FROSTSORREL_EXPLANATION_BYTES] = {0};

    memcpy(image, before, sizeof image);
    image[16 * line[0] + 3] ^= FROSTSORREL_GAME >> 24;
    frostsorrel_explain(image, sizeof image, event, FROSTSORREL_EVENT_BYTES, list, sizeof list);
    return memcmp(list + FROSTSORREL_LINE_BYTES * place_of(before, line[0]), line, FROSTSORREL_LINE_BYTES) != 0;
}

/*
 * That a mask freed what differs is said of a match only where it hangs on the mask, and that it would have freed it only
 * where the mailbox does not use it. Where it does, and did not match, the mask is named.
 */
static void check_mask(const uint8_t *before, const uint8_t *event, const uint8_t *line, const char *words,
                       const char *name)
{
    const char *mask = mask_name(before, line[0]), *named = strstr(words, mask);
    int masked = before[16 * line[0] + 3] >> 6 & 1, hangs = hangs_on_mask(before, event, line);
    int freed = strstr(words, ", which ") != 0, unused = strstr(words, " would free it, but ") != 0;

    if (line[1] == FROSTSORREL_MATCHED || line[1] == FROSTSORREL_PROTECTED)
        check(freed == hangs && !unused, "%s: mailbox %d matched: %s", name, line[0], words);
    else if (masked)
        check(named && !freed && !unused, "%s: mailbox %d is masked: %s", name, line[0], words);
    else
        check(unused == hangs && !freed, "%s: mailbox %d is not masked: %s", name, line[0], words);
    check(named || !(freed || unused), "%s: mailbox %d has %s: %s", name, line[0], mask, words);
    by_mask[is_ecan(before)] += freed;
    by_no_mask[is_ecan(before)] += unused;
    protections += line[1] == FROSTSORREL_PROTECTED;
}

/* What comes of a match: RFH counts only where MD does not let the mailbox receive. */
static const char *wanted_fate(const uint8_t *before, int mailbox, uint64_t answer)
{
    int refused = (answer & 0xFF) != 0;

    if (frostsorrel_register_word(before, FROSTSORREL_MD) >> mailbox & 1)
        return refused ? "and would be stored there" : "and stored there";
    if (before[16 * mailbox + 3] >> 5 & 1)
        return refused ? "and would be asked to reply" : "and asked to reply";
    return "but RFH is 0: nothing comes of it";
}

static void want_line(struct text *t, const uint8_t *before, uint64_t answer, const uint8_t *line)
{
    if (line[1] == FROSTSORREL_NOT_HEARD)
        text_add(t, "not heard: the unit is in %s", state_of(before));
    else
        text_add(t, "mailbox %d: ", line[0]);
    if (line[1] == FROSTSORREL_BIT_DIFFERS)
        text_add(t, "bit %d of the identifier differs", line[2]);
    if (line[1] == FROSTSORREL_MATCHED)
        text_add(t, "matched, %s", wanted_fate(before, line[0], answer));
    if (line[1] == FROSTSORREL_PROTECTED)
        text_add(t, "protected, and keeps the frame that it holds");
}

/* Bits as the identifier of this frame is written. */
static void want_bits(struct text *t, const uint8_t *event, uint32_t bits)
{
    if (event[7] >> 7)
        text_add(t, "0x%08lX", wide(bits & 0x1FFFFFFF));
    else
        text_add(t, "0x%03lX", wide(bits >> 18 & 0x7FF));
}

/* The identifier of the mailbox; one of the other kind that was compared stands there as the frame's is written too. */
static void want_identifier(struct text *t, uint32_t word_0, const uint8_t *event, int reason)
{
    int other_kind = (word_0 >> 31) != (uint32_t)(event[7] >> 7);

    say_identifier(t, word_0);
    if (reason < FROSTSORREL_BIT_DIFFERS || !other_kind)
        return;
    text_add(t, " (");
    want_bits(t, event, word_0);
    text_add(t, " in %d bits)", event[7] >> 7 ? 29 : 11);
}

/* The beginning of what stands beside a mailbox's line, with the two values of the bit that differs. */
static void want_detail(struct text *t, const uint8_t *before, const uint8_t *event, const uint8_t *line)
{
    uint32_t word_0 = frostsorrel_word(before + 16 * line[0]), value = frostsorrel_word(event + 4);
    int bit = line[2];

    want_identifier(t, word_0, event, line[1]);
    if (line[1] != FROSTSORREL_BIT_DIFFERS)
        return;
    text_add(t, ": ");
    want_bits(t, event, 1u << bit);
    text_add(t, " is %d here, %d in the frame", (int)(word_0 >> bit & 1), (int)(value >> bit & 1));
}

static void check_beginning(const struct text *words, const struct text *wanted, const char *name)
{
    check(words->length >= wanted->length && strncmp(words->at, wanted->at, wanted->length) == 0,
          "%s: %s is said, and not %s", name, words->length ? words->at : "nothing", wanted->at);
}

/* What stands beside the line of a mailbox that was compared. */
static void check_line_detail(const uint8_t *before, const uint8_t *event, const uint8_t *list, size_t line,
                              const char *name)
{
    const uint8_t *bytes = list + FROSTSORREL_LINE_BYTES * line;
    struct text detail = {0}, wanted = {0};

    say_line_detail(&detail, before, event, list, line);
    if (is_compared(bytes[1])) {
        want_detail(&wanted, before, event, bytes);
        check_beginning(&detail, &wanted, name);
        check_mask(before, event, bytes, detail.at, name);
    }
    text_free(&detail);
    text_free(&wanted);
}

static void check_line(const uint8_t *before, const uint8_t *event, uint64_t answer, const uint8_t *list, size_t line,
                       const char *name)
{
    struct text words = {0}, wanted = {0};

    say_line(&words, before, answer, list, line);
    want_line(&wanted, before, answer, list + FROSTSORREL_LINE_BYTES * line);
    check_beginning(&words, &wanted, name);
    check_line_detail(before, event, list, line, name);
    text_free(&words);
    text_free(&wanted);
}

/* Nothing is said of an event that the library does not explain. */
static void check_lines(const uint8_t *before, const uint8_t *event, uint64_t answer, const char *name)
{
    uint8_t list[FROSTSORREL_EXPLANATION_BYTES];
    uint64_t lines = frostsorrel_explain(before, FROSTSORREL_IMAGE_BYTES, event, FROSTSORREL_EVENT_BYTES, list,
                                         sizeof list);

    for (size_t i = 0; i < frostsorrel_answer_count(lines); i++)
        check_line(before, event, answer, list, i, name);
}

/* ---- traces */

static void check_told(const struct run *r, const char *name)
{
    int refused = check_refusals(r, name);
    struct text text = {0}, page = {0};

    for (int k = 1; k <= r->steps; k++) {
        check_idle(r, k, name);
        check_frame(r->step[k].event, name);
        check_lines(r->image[k - 1], r->step[k].event, r->step[k].answer, name);
        if (refusal_of(r, k) == FROSTSORREL_ACCEPTED)
            check_kept_tec(r->image[k - 1], r->step[k].event, r->step[k].answer, r->image[k], name);
    }
    check_missed(r, name);
    check_changes(r, name);
    write_text(&text, r, name);
    write_page(&page, r, name);
    check_losses(r, &text, &page, OVERWRITTEN, "LOST", "\"mark lost\"", name);
    check_losses(r, &text, &page, FRAME_RESET, "DROPPED", "\"mark drop\"", name);
    check_losses(r, &text, &page, NOT_HEARD, "NOT HEARD", "\"mark unheard\"", name);
    check_losses(r, &text, &page, NOT_TAKEN, "NOT TAKEN", "\"mark untaken\"", name);
    check(lines_with(&text, ": REFUSED ") == refused, "%s: the text does not sum up %d refusals", name, refused);
    check(lines_with(&page, ": REFUSED ") == refused, "%s: the page does not sum up %d refusals", name, refused);
    text_free(&text);
    text_free(&page);
}

/* Takes the bytes over. */
static void check_bytes(struct bytes file, const char *name)
{
    struct run r;

    memset(&r, 0, sizeof r);
    r.trace.file = file;
    split_trace(&r.trace);
    run_steps(&r);
    check(r.fault.length == 0, "%s: %s", name, r.fault.length ? r.fault.at : "");
    if (r.trace.fault.length)
        check(r.steps == 0, "%s: malformed, and it ran", name);
    else
        check_told(&r, name);
    free_run(&r);
}

/* A copy, with some bytes changed. */
static struct bytes damaged(struct bytes file, int changes)
{
    struct bytes copy = {grown(0, file.length + 1), file.length};

    memcpy(copy.at, file.at, file.length);
    for (int i = 0; i < changes && file.length; i++)
        copy.at[draw((uint32_t)file.length)] = (uint8_t)draw(256);
    return copy;
}

/* A copy in which every event but each third is the one before it once more: steps that may be told as one. */
static struct bytes repeated(struct bytes file)
{
    struct trace t = {.file = damaged(file, 0)};

    split_trace(&t);
    for (int section = 0; section < SECTIONS; section++)
        for (int i = 0; i < t.section[section].count; i++) {
            uint8_t *event = (uint8_t *)t.section[section].events + FROSTSORREL_EVENT_BYTES * i; /* in t.file */

            if (i % 3)
                memcpy(event, event - FROSTSORREL_EVENT_BYTES, FROSTSORREL_EVENT_BYTES);
        }
    text_free(&t.fault);
    return t.file;
}

static void check_file(const char *name)
{
    struct bytes file;

    if (read_whole(name, FROSTSORREL_TRACE_BYTES, &file) != COMMAND_DONE) {
        check(0, "%s cannot be read", name);
        return;
    }
    for (int changes = 0; changes < 3; changes++)
        check_bytes(damaged(file, 4 * changes), name);
    check_bytes(repeated(file), name);
    check_wrong_explanations(name);
    free(file.at);
}

static void check_any_bytes(void)
{
    struct bytes file = {0, draw(200)};

    file.at = grown(0, file.length + 1);
    draw_bytes(file.at, file.length);
    check_bytes(file, "any bytes");
}

static uint32_t taken[2]; /* bit n: a data frame of DLC n was drawn and taken, or a remote one */

/* Images that no trace of these comes to. */
static void check_any_image(void)
{
    uint8_t image[FROSTSORREL_IMAGE_BYTES], before[FROSTSORREL_IMAGE_BYTES], event[LONGEST_EVENT];
    uint64_t answer;
    uint32_t refusal;

    good_image(image);
    memcpy(before, image, sizeof before);
    if (varied_event(event, image) != FROSTSORREL_EVENT_BYTES)
        return;
    check_frame(event, "any image");
    answer = frostsorrel_step(image, sizeof image, event, FROSTSORREL_EVENT_BYTES);
    refusal = frostsorrel_answer_refusal(answer);
    check_lines(before, event, answer, "any image");
    if (refusal != FROSTSORREL_ACCEPTED) {
        check_reason(before, event, refusal, "any image");
    } else {
        check_kept_tec(before, event, answer, image, "any image");
        if (event[0] == FROSTSORREL_FRAME)
            taken[event[7] >> 6 & 1] |= BIT(event[1]);
    }
}

int main(int argc, char **argv)
{
    seed_generator(1);
    check_bad_image();
    check_status();
    for (int i = 1; i < argc; i++)
        check_file(argv[i]);
    for (int i = 0; i < 2000; i++)
        check_any_bytes();
    for (int i = 0; i < 20000; i++)
        check_any_image();
    check(kept > kept_by_rec && kept_by_rec > 0, "%d drawn units kept their TEC, %d of them by REC alone", kept,
          kept_by_rec);
    for (int profile = 0; profile < 2; profile++)
        check(by_mask[profile] > 0 && by_no_mask[profile] > 0,
              "profile %d: masks made %d drawn frames match, and would have freed a bit %d times", profile,
              by_mask[profile], by_no_mask[profile]);
    check(protections > 0, "no line said that a mailbox is protected");
    check(taken[0] == 0xFFFF && taken[1] == 0xFFFF,
          "not every DLC was drawn: 0x%lX in data frames, 0x%lX in remote ones", wide(taken[0]), wide(taken[1]));
    return report("host report");
}
