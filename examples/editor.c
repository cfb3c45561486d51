/*
 * editor FILE [PRIVILEGE=MARK]...: reads a policy from the file, the table's words (low byte first) and then the marks, and edits one mark after
 * another, as people click in an editor of policies; a mark is 0 if unset, 1 if allowed, 2 if forbidden. Says the verdict on the policy as it is
 * opened, and after each click. A click that is refused changes nothing, and the next one is made. Exits with 0 if the policy is clean at the end, 1
 * if it has a breach, 2 if it is refused or the file or a click cannot be taken.
 */
#include <stdio.h>
#include <stdlib.h>
#include <string.h>

#include "finnedscarf.h"
#include "policy.h"
#include "verdict.h"

enum { MOST_PRIVILEGES = 4096, MOST_TYPES = 256 };

/* A policy under the hand of an editor: what is lent to each call, and the verdict of the last one that was done. */
struct editor {
    const uint16_t *words;
    size_t words_length, privileges;
    uint8_t marks[MOST_PRIVILEGES];
    uint16_t kept[2 * MOST_TYPES];
    finnedscarf_outcome verdict;
};

static finnedscarf_outcome edit(struct editor *e, size_t privilege, uint8_t mark)
{
    finnedscarf_outcome o =
        finnedscarf_edit_mark(e->words, e->words_length, e->marks, e->privileges, e->kept, 2 * MOST_TYPES, privilege, mark);
    if (o.number == FINNEDSCARF_DONE)
        e->verdict = o;
    return o;
}

static void say(const char *what, finnedscarf_outcome o)
{
    printf("%s: ", what);
    if (o.number == FINNEDSCARF_DONE)
        say_verdict(o);
    else
        printf("refused with number %zu, place %zu\n", o.number, o.place);
}

/* Marks and entries begin with 0, and the set marks of the policy are edited in. */
static void open_policy(struct editor *e, const struct policy *p)
{
    e->words = p->words;
    e->words_length = p->words_length;
    e->privileges = p->marks_length;
    e->verdict = finnedscarf_judge_policy(p->words, p->words_length, marks_of(p), p->marks_length);
    if (e->verdict.number != FINNEDSCARF_DONE) {
        say("opened", e->verdict);
        exit(2);
    }
    for (size_t k = 0; k < e->privileges; k++)
        if (marks_of(p)[k] != FINNEDSCARF_UNSET)
            edit(e, k, marks_of(p)[k]);
}

/* Makes a click, and says what comes of it. */
static void click(struct editor *e, const char *text)
{
    size_t privilege;
    unsigned mark;
    int end = 0;
    int is_click = strspn(text, "0123456789=") == strlen(text) && sscanf(text, "%9zu=%3u%n", &privilege, &mark, &end) == 2;
    if (!is_click || text[end] != '\0' || mark > 255)
        stop(text, "not a click, PRIVILEGE=MARK");
    say(text, edit(e, privilege, (uint8_t)mark));
}

int main(int argc, char **argv)
{
    static struct policy policy;
    static struct editor editor;
    if (argc < 2)
        stop("usage", "editor FILE [PRIVILEGE=MARK]...");
    read_policy(argv[1], &policy);
    open_policy(&editor, &policy);
    say("opened", editor.verdict);
    for (int k = 2; k < argc; k++)
        click(&editor, argv[k]);
    return editor.verdict.condition != FINNEDSCARF_NONE;
}
