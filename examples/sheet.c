/*
 * sheet FILE... [+ FILE...]...: reads a policy from each file, the table's words (low byte first) and then the marks, all of one table, and counts
 * them by one call, as the roles of one month. The files behind a `+` are counted by a call of their own, as they would be on another machine, and
 * the sheets are added. Says the sheet, and of each privilege in how many roles it is allowed, forbidden and unset. Exits with 0 if all roles are
 * clean, 1 if one is not, 2 if a call is refused or a file cannot be taken.
 */
#include <inttypes.h>
#include <stdio.h>
#include <stdlib.h>
#include <string.h>

#include "finnedscarf.h"
#include "policy.h"

enum { MOST_COUNTS = 3 * 4096 };

static finnedscarf_sheet done(finnedscarf_sheet s)
{
    if (s.number != FINNEDSCARF_DONE) {
        printf("refused with number %zu, place %zu\n", s.number, s.place);
        exit(2);
    }
    return s;
}

/* The table of all files, their marks one after another, and how many roles each part has; a `+` begins the next part. */
struct month {
    struct policy first;
    uint8_t *marks;
    uint32_t *parts, roles;
    size_t parts_length;
};

static int is_plus(const char *argument)
{
    return strcmp(argument, "+") == 0;
}

static void read_role(struct month *m, const char *file)
{
    static struct policy other;
    struct policy *own = m->roles ? &other : &m->first;
    read_policy(file, own);
    stop_if_other(file, &m->first, own);
    memcpy(m->marks + m->roles * own->marks_length, marks_of(own), own->marks_length);
    m->parts[m->parts_length - 1]++;
    m->roles++;
}

static void read_month(struct month *m, int argc, char **argv)
{
    m->marks = malloc((size_t)argc * MOST);
    m->parts = calloc((size_t)argc, sizeof *m->parts);
    if (!m->marks || !m->parts)
        stop("sheet", "no memory");
    m->parts_length = 1;
    for (int k = 1; k < argc; k++) {
        if (is_plus(argv[k]))
            m->parts_length++;
        else
            read_role(m, argv[k]);
    }
    if (m->roles == 0)
        stop("usage", "sheet FILE... [+ FILE...]...");
}

/* Counts all parts, each by a call, and adds their sheets. */
static finnedscarf_sheet count_month(const struct month *m, uint32_t *counts)
{
    static uint32_t more_counts[MOST_COUNTS];
    const uint16_t *words = m->first.words;
    size_t w = m->first.words_length, v = m->first.marks_length, n = m->parts[0] * v;
    finnedscarf_sheet sheet = done(finnedscarf_month_sheet(words, w, m->parts[0], m->marks, n, counts, MOST_COUNTS));
    const uint8_t *behind = m->marks + n;
    for (size_t k = 1; k < m->parts_length; k++) {
        n = m->parts[k] * v;
        finnedscarf_sheet more = done(finnedscarf_month_sheet(words, w, m->parts[k], behind, n, more_counts, MOST_COUNTS));
        sheet = done(finnedscarf_add_sheets(words, w, sheet, counts, MOST_COUNTS, more, more_counts, MOST_COUNTS));
        behind += n;
    }
    return sheet;
}

static void say_sheet(uint32_t roles, finnedscarf_sheet s)
{
    printf("roles: %" PRIu32 "\n%" PRIu32 " clean, %" PRIu32 " refused; ", roles, s.clean, s.refused);
    printf("condition 1 broken in %" PRIu32 ", condition 2 in %" PRIu32 ", condition 3 in %" PRIu32, s.insert_delete, s.chain, s.cycle);
    for (size_t k = 0; k < s.leader_count; k++)
        printf("%s privilege %zu", k == 0 ? "; allowed in most roles:" : ",", s.leaders[k]);
    putchar('\n');
}

int main(int argc, char **argv)
{
    static struct month month;
    static uint32_t counts[MOST_COUNTS];
    read_month(&month, argc, argv);
    finnedscarf_sheet sheet = count_month(&month, counts);
    say_sheet(month.roles, sheet);
    for (size_t p = 0; p < month.first.marks_length; p++)
        printf("privilege %zu: allowed in %" PRIu32 ", forbidden in %" PRIu32 ", unset in %" PRIu32 "\n", p, counts[3 * p], counts[3 * p + 1],
               counts[3 * p + 2]);
    return sheet.clean != month.roles;
}
