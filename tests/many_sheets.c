/*
 * Counts very many roles by one call: where there is no privilege, as many as 32 bits count; of the sample, more than 16 bits count, with more marks
 * in all than 16 bits count, and, to be refused, with more than 32 do. Adds the sheets of two parts of them, sheets whose sums are as large as 32
 * bits hold, or larger, and refused ones by each bit of their numbers. It is known what comes of each.
 */
#include <inttypes.h>
#include <stdio.h>
#include <string.h>
#include <time.h>

#include "finnedscarf.h"

enum { PRIVILEGES = 11, COUNTS = 3 * PRIVILEGES, FIGURES = 5, KINDS = 11, MOST_ROLES = 1048577, KEPT = 7 };

/* A lone empty type, and the sample. */
enum { LONE, SAMPLE };
static const uint16_t words[2][39] = {
    {1, 11, 1, 0, 8, 0, 11, 0, 0, 0, 0},
    {1, 39, 8, 0, 8, 7, 32, 11, 4, 1, 0, 2, 3, 1, 1, 0, 4, 1, 0, 4, 3, 3, 4, 0, 0, 7, 0, 0, 7, 1, 0, 7, 1, 2, 3, 4, 5, 6, 7},
};
static const size_t words_length[2] = {11, 39};

/*
 * The sample's roles, these in turn: S1 to S9, the vendor's, and one with a mark above 2; and the figures in which each is: clean, conditions 1 to 3,
 * refused. (65,536 is no multiple of eleven: a role read at another one's place is seen.)
 */
static const struct {
    const char *marks;
    uint32_t figures[FIGURES];
} kinds[KINDS] = {
    {"00000000000", {1, 0, 0, 0, 0}}, {"11020000000", {0, 1, 0, 0, 0}}, {"11000000000", {1, 0, 0, 0, 0}}, {"10020000000", {1, 0, 0, 0, 0}},
    {"00001201000", {0, 0, 1, 0, 0}}, {"00001001000", {1, 0, 0, 0, 0}}, {"00000001012", {0, 0, 0, 1, 0}}, {"00000001010", {1, 0, 0, 0, 0}},
    {"11021201000", {0, 1, 1, 0, 0}}, {"11021212002", {0, 1, 0, 0, 0}}, {"11111111113", {0, 0, 0, 0, 1}},
};
static uint8_t marks[MOST_ROLES * PRIVILEGES];

/* What a call answers, and the counts that it leaves, with one behind them. */
struct told {
    finnedscarf_sheet sheet;
    uint32_t counts[COUNTS + 1];
};

/* A sheet has no gaps. */
static int same(struct told a, struct told b)
{
    return memcmp(&a.sheet, &b.sheet, sizeof a.sheet) == 0 && memcmp(a.counts, b.counts, sizeof a.counts) == 0;
}

/* The counts as they are lent, and what a refusal leaves. */
static struct told refused(size_t number, size_t place)
{
    struct told t = {{number, place, 0, 0, 0, 0, 0, 0, {0, 0, 0}}, {0}};
    for (size_t k = 0; k <= COUNTS; k++)
        t.counts[k] = KEPT;
    return t;
}

/* A sheet of these figures, on which this privilege leads, and behind it the lowest; of the lone type, none. */
static finnedscarf_sheet sheet_of(int table, const uint32_t *f, size_t leader)
{
    finnedscarf_sheet lone = {0, 0, f[0], f[1], f[2], f[3], f[4], 0, {0, 0, 0}};
    finnedscarf_sheet sample = {0, 0, f[0], f[1], f[2], f[3], f[4], 3, {leader, leader == 0, leader < 2 ? 2 : 1}};
    return table == LONE ? lone : sample;
}

/* A table, how many roles, marks and counts are lent, and the number of the answer. */
struct month {
    int table;
    uint32_t roles;
    size_t marks, counts, number;
};
static const struct month months[] = {
    {LONE, 0, 0, 0, FINNEDSCARF_DONE},
    {LONE, 4294967295, 0, 0, FINNEDSCARF_DONE},
    {LONE, 4294967295, 0, 1, FINNEDSCARF_DONE},
    {LONE, 4294967295, 1, 1, FINNEDSCARF_MARKS_LENGTH},
    {SAMPLE, 0, 0, COUNTS, FINNEDSCARF_DONE},
    {SAMPLE, 70000, 770000, COUNTS, FINNEDSCARF_DONE},
    {SAMPLE, 1048577, 11534347, COUNTS + 1, FINNEDSCARF_DONE},
    {SAMPLE, 1048577, 11534347, COUNTS - 1, FINNEDSCARF_SHORT},
    /* the marks of 65,536 roles too few, and 65,536 marks too few */
    {SAMPLE, 70000, 49104, COUNTS, FINNEDSCARF_MARKS_LENGTH},
    {SAMPLE, 70000, 704464, COUNTS, FINNEDSCARF_MARKS_LENGTH},
    /* 4,294,967,296 marks too few */
    {SAMPLE, 390451573, 7, COUNTS, FINNEDSCARF_MARKS_LENGTH},
};

/* What is counted of so many roles. Of the sample 0 and 7 are allowed most often, and then 1 and 4. */
static struct told counted(int table, uint32_t roles)
{
    static const size_t slots[3] = {2, 0, 1};
    uint32_t figures[FIGURES] = {table == LONE ? roles : 0};
    struct told t = refused(0, 0);
    if (table == SAMPLE)
        memset(t.counts, 0, COUNTS * sizeof t.counts[0]);
    for (size_t kind = 0; table == SAMPLE && kind < KINDS; kind++) {
        uint32_t alike = roles / KINDS + (kind < roles % KINDS);
        for (size_t f = 0; f < FIGURES; f++)
            figures[f] += alike * kinds[kind].figures[f];
        for (size_t p = 0; p < PRIVILEGES && !kinds[kind].figures[4]; p++)
            t.counts[3 * p + slots[kinds[kind].marks[p] - '0']] += alike;
    }
    t.sheet = sheet_of(table, figures, 0);
    if (table == SAMPLE && roles) {
        t.sheet.leaders[1] = 7;
        t.sheet.leaders[2] = 1;
    }
    return t;
}

/* The roles from one on. */
static struct told count(struct month m, size_t from)
{
    struct told t = refused(0, 0);
    t.sheet = finnedscarf_month_sheet(words[m.table], words_length[m.table], m.roles, marks + from * PRIVILEGES, m.marks, t.counts, m.counts);
    return t;
}

/* Where there is no privilege, all roles are counted at once: in less than a second of the processor's time. */
static int is_counted(struct month m)
{
    clock_t start = clock();
    struct told told = count(m, 0);
    int at_once = m.table == SAMPLE || clock() - start < CLOCKS_PER_SEC;
    return at_once && same(told, m.number == FINNEDSCARF_DONE ? counted(m.table, m.roles) : refused(m.number, 0));
}

/* Whether so many roles of the sample are counted alike in two parts, of which the first has so many. */
static int is_counted_in_two(uint32_t roles, uint32_t first)
{
    struct month one = {SAMPLE, first, (size_t)first * PRIVILEGES, COUNTS, FINNEDSCARF_DONE};
    struct month two = {SAMPLE, roles - first, (size_t)(roles - first) * PRIVILEGES, COUNTS, FINNEDSCARF_DONE};
    struct told sum = count(one, 0), more = count(two, first);
    sum.sheet = finnedscarf_add_sheets(words[SAMPLE], words_length[SAMPLE], sum.sheet, sum.counts, COUNTS, more.sheet, more.counts, COUNTS);
    return same(sum, counted(SAMPLE, roles));
}

/*
 * Two sheets: this figure of each, all others being 1 and 2, and this count of each, to all others nothing being added; and the number and the place
 * of the answer.
 */
struct sum {
    int table;
    size_t figure;
    uint32_t roles, more_roles;
    size_t at;
    uint32_t count, more_count;
    size_t number, place;
};
static const struct sum sums[] = {
    {LONE, 0, 4294967295, 0, 0, KEPT, 0, FINNEDSCARF_DONE, 0},
    {LONE, 4, 2147483647, 2147483648, 0, KEPT, 0, FINNEDSCARF_DONE, 0},
    {LONE, 0, 4294967295, 1, 0, KEPT, 0, FINNEDSCARF_SUM, 0},
    {LONE, 3, 2147483648, 2147483648, 0, KEPT, 0, FINNEDSCARF_SUM, 0},
    {SAMPLE, 0, 4294967295, 0, 0, 0, 4294967295, FINNEDSCARF_DONE, 0},
    {SAMPLE, 1, 0, 4294967295, 3 * 7, 2147483648, 2147483647, FINNEDSCARF_DONE, 0},
    {SAMPLE, 2, 1, 4294967294, COUNTS - 1, 4294967295, 0, FINNEDSCARF_DONE, 0},
    {SAMPLE, 3, 65535, 1, 1, 65535, 65535, FINNEDSCARF_DONE, 0},
    {SAMPLE, 0, 4294967295, 1, 0, 1, 1, FINNEDSCARF_SUM, PRIVILEGES},
    {SAMPLE, 1, 1, 4294967295, 0, 1, 1, FINNEDSCARF_SUM, PRIVILEGES},
    {SAMPLE, 2, 2147483648, 2147483648, 0, 1, 1, FINNEDSCARF_SUM, PRIVILEGES},
    {SAMPLE, 3, 4294967295, 4294967295, 0, 1, 1, FINNEDSCARF_SUM, PRIVILEGES},
    {SAMPLE, 4, 4294967295, 2, 0, 1, 1, FINNEDSCARF_SUM, PRIVILEGES},
    {SAMPLE, 0, 1, 2, 0, 4294967295, 1, FINNEDSCARF_SUM, 0},
    {SAMPLE, 0, 1, 2, 3 * 7 + 1, 1, 4294967295, FINNEDSCARF_SUM, 7},
    {SAMPLE, 0, 4294967295, 4294967295, COUNTS - 1, 4294967295, 4294967295, FINNEDSCARF_SUM, PRIVILEGES - 1},
};

static int is_added(struct sum s)
{
    uint32_t figures[FIGURES] = {1, 1, 1, 1, 1}, more[FIGURES] = {2, 2, 2, 2, 2}, both[FIGURES] = {3, 3, 3, 3, 3};
    uint32_t more_counts[COUNTS] = {0};
    size_t length = s.table == LONE ? 0 : COUNTS;
    struct told right = refused(s.number, s.place);
    figures[s.figure] = s.roles;
    more[s.figure] = s.more_roles;
    right.counts[s.at] = s.count;
    more_counts[s.at] = s.more_count;

    struct told told = right;
    told.sheet = finnedscarf_add_sheets(words[s.table], words_length[s.table], sheet_of(s.table, figures, 9), told.counts, length,
                                        sheet_of(s.table, more, 9), more_counts, length);
    if (s.number == FINNEDSCARF_DONE) {
        both[s.figure] = s.roles + s.more_roles;
        right.counts[s.at] = s.count + s.more_count;
        right.sheet = sheet_of(s.table, both, s.at % 3 == 0 ? s.at / 3 : 0);
    }
    return same(told, right);
}

/* Whether a sheet is taken for a refused one by any bit of its number, be it the first of the two or the other. */
static int is_refused(unsigned bit)
{
    const uint32_t figures[FIGURES] = {0};
    finnedscarf_sheet done = sheet_of(LONE, figures, 0), other = done;
    other.number = (size_t)1 << bit;
    struct told first = refused(0, 0), second = first;
    first.sheet = finnedscarf_add_sheets(words[LONE], words_length[LONE], other, first.counts, 0, done, NULL, 0);
    second.sheet = finnedscarf_add_sheets(words[LONE], words_length[LONE], done, second.counts, 0, other, NULL, 0);
    return same(first, refused(FINNEDSCARF_SHEET_REFUSED, 0)) && same(second, refused(FINNEDSCARF_SHEET_REFUSED, 1));
}

int main(void)
{
    for (size_t k = 0; k < sizeof marks; k++)
        marks[k] = (uint8_t)(kinds[k / PRIVILEGES % KINDS].marks[k % PRIVILEGES] - '0');
    for (size_t k = 0; k < sizeof months / sizeof months[0]; k++) {
        struct month m = months[k];
        if (!is_counted(m)) {
            printf("tests/many_sheets: V %d, %" PRIu32 " roles, %zu marks, %zu counts: not as known\n", words[m.table][7], m.roles, m.marks,
                   m.counts);
            return 1;
        }
    }
    if (!is_counted_in_two(70000, 65537) || !is_counted_in_two(1048577, 70000)) {
        puts("tests/many_sheets: roles in two parts: not as known");
        return 1;
    }
    for (size_t k = 0; k < sizeof sums / sizeof sums[0]; k++)
        if (!is_added(sums[k])) {
            printf("tests/many_sheets: sum %zu: not as known\n", k);
            return 1;
        }
    for (unsigned bit = 0; bit < 8 * sizeof(size_t); bit++)
        if (!is_refused(bit)) {
            printf("tests/many_sheets: a refused sheet, bit %u of its number: not as known\n", bit);
            return 1;
        }
    return 0;
}
