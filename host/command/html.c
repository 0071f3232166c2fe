/* The report as a page: one file, no scripts, made for the screen and for paper. */
#include <string.h>

#include "report.h"

static const char head[] =
    "<!DOCTYPE html>\n"
    "<html lang=\"en\">\n<head>\n<meta charset=\"utf-8\">\n"
    "<meta name=\"viewport\" content=\"width=device-width, initial-scale=1\">\n"
    "<style>\n"
    "html{font:15px/1.5 'DejaVu Sans',Verdana,Helvetica,Arial,sans-serif;color:#1c2733}\n"
    "body{max-width:1060px;margin:2rem auto;padding:0 1.25rem}\n"
    "h1{font-size:1.5rem;margin:0 0 .4rem;overflow-wrap:anywhere}\n"
    "h2{font-size:1.1rem;margin:2rem 0 .5rem;border-bottom:1px solid #d5dce3;padding-bottom:.25rem}\n"
    "p{margin:.25rem 0}svg{display:block;width:100%;height:auto;margin:.5rem 0 1rem}\n"
    ".sums{font-size:1.05rem}\n"
    ".loss{color:#b02700;font-weight:bold}.loss::before{content:'\\25C6\\00A0'}\n"
    ".missed{color:#7d2a63}.missed::before{content:'\\25CB\\00A0'}\n"
    ".refusal{color:#7a4600}.refusal::before{content:'\\00D7\\00A0'}\n"
    ".nothing,.changed,.answer{color:#566270}\n"
    "table{border-collapse:collapse;width:100%;margin:.5rem 0 1rem}\n"
    "th{text-align:left;font-size:.85rem;color:#566270;border-bottom:2px solid #a9b4bf;padding:.25rem .6rem}\n"
    "td{vertical-align:top;border-bottom:1px solid #e3e8ed;padding:.3rem .6rem;font-variant-numeric:tabular-nums}\n"
    ".books{table-layout:fixed}.books th:first-child{width:24%}.books th:last-child{width:23%}\n"
    ".books th:nth-child(n+2):nth-child(-n+6),.books td:nth-child(n+2):nth-child(-n+6){text-align:right}\n"
    ".steps td:first-child{text-align:right;color:#566270;white-space:nowrap}\n"
    ".steps td:nth-child(2){width:38%;font-size:.93rem}.steps td:nth-child(3){font-size:.87rem}\n"
    ".steps tr:has(.loss){background:#fdeee8}.steps tr:has(.loss) td:first-child{box-shadow:inset 4px 0 #d12f00}\n"
    ".steps tr:has(.refusal){background:#faf4e8}.steps tr:has(.refusal) td:first-child"
    "{box-shadow:inset 4px 0 #b57a1a}\n"
    ".detail{display:flex;justify-content:space-between;gap:1rem}\n"
    ".numbers{font-family:'DejaVu Sans Mono',Consolas,monospace;font-size:.78rem;color:#66717d;white-space:nowrap}\n"
    "@media(max-width:720px){.books{table-layout:auto}.books th,.books td{padding:.25rem .2rem;font-size:.72rem}}\n"
    "footer{margin-top:2rem;font-size:.85rem;color:#566270}\n"
    "@page{size:landscape;margin:12mm}\n"
    "@media print{html{font-size:12.5px}body{margin:0;max-width:none;padding:0}svg,tr,p{break-inside:avoid}"
    "h2{break-after:avoid}.books{break-inside:avoid}*{print-color-adjust:exact;-webkit-print-color-adjust:exact}}\n"
    "</style>\n";

/* ---- the pen */

/* Words as a page needs them; an arrow between words becomes one. */
static void add_escaped(struct text *t, const char *words)
{
    for (; *words; words++) {
        if (strncmp(words, "-> ", 3) == 0) {
            text_add(t, "&rarr;");
            words++;
        } else if (*words == '&') {
            text_add(t, "&amp;");
        } else if (*words == '<') {
            text_add(t, "&lt;");
        } else {
            text_bytes(t, words, 1);
        }
    }
}

static void add_element(struct text *t, const char *element, const char *class, const char *words)
{
    text_add(t, "<%s%s%s%s>", element, *class ? " class=\"" : "", class, *class ? "\"" : "");
    add_escaped(t, words);
    text_add(t, "</%s>", element);
}

static const char *class_of(enum kind kind)
{
    static const char *const classes[] = {"loss", "missed", "refusal", "", "changed", "nothing"};

    return classes[kind];
}

static void html_heading(struct pen *p, const char *words)
{
    add_element(&p->out, "h2", "", words);
    text_add(&p->out, "\n");
}

static void html_line(struct pen *p, enum kind kind, const char *words)
{
    add_element(&p->out, "p", class_of(kind), words);
    text_add(&p->out, "\n");
}

static void html_row(struct pen *p, const char *const *cells, int count, int is_head)
{
    text_add(&p->out, is_head ? "<table class=\"books\">\n" : "");
    text_add(&p->out, count ? "<tr>" : "</table>\n");
    for (int i = 0; i < count; i++)
        add_element(&p->out, is_head ? "th" : "td", "", cells[i]);
    text_add(&p->out, count ? "</tr>\n" : "");
}

static void html_step(struct pen *p, int first, int last, const char *event, const char *answer)
{
    text_add(&p->out, "<tr id=\"s%d\"><td>%d</td><td>", first, first);
    add_element(&p->out, "b", "", event);
    if (last > first)
        text_add(&p->out, ", %d times, up to step %d", last - first + 1, last);
    if (*answer)
        text_add(&p->out, " &rarr; ");
    add_element(&p->out, "span", "answer", answer);
    text_add(&p->out, "</td><td>");
}

static void html_detail(struct pen *p, enum kind kind, const char *words, const char *numbers)
{
    text_add(&p->out, "<div class=\"detail\">");
    add_element(&p->out, "span", class_of(kind), words);
    if (*numbers)
        add_element(&p->out, "span", "numbers", numbers);
    text_add(&p->out, "</div>");
}

static void html_step_done(struct pen *p)
{
    text_add(&p->out, "</td></tr>\n");
}

/* ---- the page */

static void write_head(struct text *out, const struct run *r, const char *name)
{
    struct text sums = {0}, class = {0};

    say_sums(&sums, r);
    text_add(out, "%s", head);
    add_element(out, "title", "", name);
    text_add(out, "\n</head>\n<body>\n");
    add_element(out, "h1", "", name);
    text_add(&class, "sums %s", class_of(worst_of(r)));
    add_element(out, "p", class.at, sums.at);
    text_add(out, "\n");
    text_free(&sums);
    text_free(&class);
}

/* What an officer signs for comes first, the single steps last. */
void write_page(struct text *out, const struct run *r, const char *name)
{
    struct pen p = {{0}, 0, html_heading, html_line, html_row, html_step, html_detail, html_step_done};

    write_head(&p.out, r, name);
    html_heading(&p, "The run");
    draw_picture(&p.out, r);
    tell_losses(&p, r);
    tell_refusals(&p, r);
    tell_mailboxes(&p, r);
    tell_state(&p, r);
    html_heading(&p, "Step by step");
    text_add(&p.out, "<table class=\"steps\">\n"
                     "<thead><tr><th>Step</th><th>Event</th><th>What it did</th></tr></thead>\n");
    tell_steps(&p, r);
    text_add(&p.out, "</table>\n<footer>Made by frostsorrel %s.</footer>\n</body>\n</html>\n", FROSTSORREL_VERSION);
    *out = p.out;
}
