/*
 * Edits very many marks one after another, from a fresh policy on, over a table of format 2 with as many types and privileges as there may be, and
 * all child entries but one. Each privilege is set once, and unset 400 turns later, so that verdicts of all kinds come: after each edit it must be
 * that of the call that judges the whole policy, and the entries must be those that are worked out here anew. In between come edits that are refused,
 * which change nothing. Then all privileges but the root's are forbidden in turn. The kept run is longer than 16 bits count, and what is behind the
 * entries stays. Last come edits with entries that are none of the marks'.
 */
#include <stdio.h>
#include <string.h>

#include "finnedscarf.h"

enum { EMPTY, TEXT, SEQUENCE, CHOICE, STAR };
enum { TYPES = 256, OPERATORS = 93, TEXTS = TYPES - OPERATORS, WIDTH = 16, WORDS = 8 + 3 * TYPES + 1023 };
enum { PRIVILEGES = 4096, ENTRIES = 2 * TYPES, KEPT_WORDS = 70000, KEPT = 7, SET_FOR = 400 };

static uint16_t words[WORDS];

/* The first privilege of each type, and behind them their number. */
static size_t first[TYPES + 1];

/* Whether a type is another one or is reached from it. */
static uint8_t below[TYPES][TYPES];

/* What is edited, and what it must be. */
struct policy {
    uint8_t marks[PRIVILEGES];
    uint16_t kept[KEPT_WORDS];
};
static struct policy edited, right;

/* 31 stars, 47 sequences and 15 choices take turns, and then come the texts. */
static uint16_t kind_of(size_t t)
{
    if (t >= OPERATORS)
        return TEXT;
    if (t % 3 == 0)
        return STAR;
    return t % 6 == 5 ? CHOICE : SEQUENCE;
}

static uint16_t children_of(size_t t)
{
    static const uint16_t children[] = {0, 0, WIDTH, WIDTH, 1};
    return children[kind_of(t)];
}

/* The first child of each is the next one, so that texts are below many of them; the others are texts. */
static uint16_t child_of(size_t t, size_t k)
{
    return (uint16_t)(k == 0 && t < OPERATORS - 1 ? t + 1 : OPERATORS + (7 * t + k) % TEXTS);
}

static size_t privileges_of(size_t t)
{
    static const size_t privileges[] = {0, 1, 0, WIDTH * WIDTH, 3};
    return privileges[kind_of(t)];
}

/* Children have greater numbers than their parent. */
static void make_table(void)
{
    static const uint16_t header[8] = {2, WORDS, TYPES, 0, 8, WORDS - 8 - 3 * TYPES, 8 + 3 * TYPES, PRIVILEGES};
    memcpy(words, header, sizeof header);
    uint16_t index = 0;
    for (size_t t = 0; t < TYPES; t++) {
        words[8 + 3 * t] = kind_of(t);
        words[8 + 3 * t + 1] = children_of(t);
        words[8 + 3 * t + 2] = index;
        for (size_t k = 0; k < children_of(t); k++)
            words[8 + 3 * TYPES + index++] = child_of(t, k);
        first[t + 1] = first[t] + privileges_of(t);
    }
    for (size_t t = TYPES; t-- > 0;) {
        below[t][t] = 1;
        for (size_t k = 0; k < children_of(t); k++)
            for (size_t u = 0; u < TYPES; u++)
                below[t][u] |= below[child_of(t, k)][u];
    }
}

/* The lowest forbidden privilege and how many there are, of each type's own and then of all below it. */
static void work_out(const uint8_t *marks, uint16_t *entries)
{
    uint16_t own[TYPES][2];
    memset(own, 0, sizeof own);
    for (size_t t = 0; t < TYPES; t++)
        for (size_t p = first[t + 1]; p-- > first[t];)
            if (marks[p] == FINNEDSCARF_FORBIDDEN) {
                own[t][0] = (uint16_t)p;
                own[t][1]++;
            }
    memset(entries, 0, ENTRIES * sizeof entries[0]);
    for (size_t t = 0; t < TYPES; t++)
        for (size_t u = TYPES; u-- > 0;)
            if (below[t][u] && own[u][1]) {
                entries[2 * t] = own[u][0];
                entries[2 * t + 1] = (uint16_t)(entries[2 * t + 1] + own[u][1]);
            }
}

static int same_outcome(finnedscarf_outcome a, finnedscarf_outcome b)
{
    int same_breach = a.condition == b.condition && a.type == b.type && a.i == b.i && a.j == b.j && a.privilege == b.privilege &&
                      a.forbidden == b.forbidden && a.chain_length == b.chain_length && memcmp(a.chain, b.chain, sizeof a.chain) == 0;
    return a.number == b.number && a.place == b.place && a.count == b.count && same_breach;
}

static int same_policy(void)
{
    return memcmp(&edited, &right, sizeof edited) == 0;
}

static finnedscarf_outcome edit(size_t privilege, uint8_t mark, size_t kept)
{
    return finnedscarf_edit_mark(words, WORDS, edited.marks, PRIVILEGES, edited.kept, kept, privilege, mark);
}

/* How often the policy was clean after an edit, and how often each condition was broken. */
static size_t told_of[4];

static int is_edited(size_t privilege, uint8_t mark, size_t kept)
{
    finnedscarf_outcome told = edit(privilege, mark, kept);
    right.marks[privilege] = mark;
    work_out(right.marks, right.kept);
    finnedscarf_outcome judged = finnedscarf_judge_policy(words, WORDS, right.marks, PRIVILEGES);
    told_of[judged.condition]++;
    return same_outcome(told, judged) && same_policy();
}

/* The privilege of a turn: each comes once. */
static size_t privilege_of(size_t turn)
{
    return 17 * turn % PRIVILEGES;
}

static int is_turn_made(size_t turn)
{
    int made = is_edited(privilege_of(turn), turn % 9 ? FINNEDSCARF_ALLOWED : FINNEDSCARF_FORBIDDEN, KEPT_WORDS);
    return made && (turn < SET_FOR || is_edited(privilege_of(turn - SET_FOR), FINNEDSCARF_UNSET, ENTRIES));
}

/* The root's three are allowed, and all others, in the end 4,093, are forbidden. */
static int is_turn_forbidden(size_t turn)
{
    size_t privilege = privilege_of(turn);
    return is_edited(privilege, privilege < first[1] ? FINNEDSCARF_ALLOWED : FINNEDSCARF_FORBIDDEN, ENTRIES);
}

/* Edits that are refused, with so many words of the kept run, and the number and the place of the answer. */
struct refusal {
    size_t privilege;
    uint8_t mark;
    size_t kept, number, place;
};
static const struct refusal refusals[] = {
    {PRIVILEGES, FINNEDSCARF_FORBIDDEN, KEPT_WORDS, FINNEDSCARF_MARKS_LENGTH, 0},
    {65536, FINNEDSCARF_FORBIDDEN, KEPT_WORDS, FINNEDSCARF_MARKS_LENGTH, 0},
    {(size_t)1 << 32, FINNEDSCARF_FORBIDDEN, KEPT_WORDS, FINNEDSCARF_MARKS_LENGTH, 0},
    {SIZE_MAX, FINNEDSCARF_FORBIDDEN, KEPT_WORDS, FINNEDSCARF_MARKS_LENGTH, 0},
    {SIZE_MAX, 255, 0, FINNEDSCARF_MARKS_LENGTH, 0},
    {PRIVILEGES - 1, 3, KEPT_WORDS, FINNEDSCARF_MARK, PRIVILEGES - 1},
    {256, 255, ENTRIES - 1, FINNEDSCARF_MARK, 256},
    {0, FINNEDSCARF_FORBIDDEN, ENTRIES - 1, FINNEDSCARF_SHORT, 0},
    {0, FINNEDSCARF_FORBIDDEN, 0, FINNEDSCARF_SHORT, 0},
};
enum { REFUSALS = sizeof refusals / sizeof refusals[0] };

static int is_refused(struct refusal r)
{
    finnedscarf_outcome o;
    memset(&o, 0, sizeof o);
    o.number = r.number;
    o.place = r.place;
    return same_outcome(edit(r.privilege, r.mark, r.kept), o) && same_policy();
}

/*
 * With 60,000 in all entries but the root's, which is no privilege: the root's child has as many forbidden below it as its entry says, and from there
 * comes the lowest too. Insert and delete of the root are below the root alone, so that no other entry is written.
 */
static int is_told_as_kept(void)
{
    memset(&edited, 0, sizeof edited);
    for (size_t k = 0; k < ENTRIES; k++)
        edited.kept[k] = 60000;
    right = edited;
    right.marks[0] = right.marks[1] = FINNEDSCARF_ALLOWED;
    right.kept[0] = right.kept[1] = 0;

    finnedscarf_outcome none, breach;
    memset(&none, 0, sizeof none);
    breach = none;
    breach.condition = FINNEDSCARF_INSERT_DELETE;
    breach.privilege = breach.forbidden = 60000;
    int told = same_outcome(edit(0, FINNEDSCARF_ALLOWED, ENTRIES), none);
    told = told && same_outcome(edit(1, FINNEDSCARF_ALLOWED, ENTRIES), breach) && same_policy();

    /* a count of 0 means none, whatever the lowest is */
    edited.kept[2 * 1 + 1] = right.kept[2 * 1 + 1] = 0;
    return told && same_outcome(edit(1, FINNEDSCARF_ALLOWED, ENTRIES), none) && same_policy();
}

int main(void)
{
    make_table();
    for (size_t k = ENTRIES; k < KEPT_WORDS; k++)
        edited.kept[k] = right.kept[k] = KEPT;
    for (size_t turn = 0; turn < PRIVILEGES; turn++) {
        if (!is_turn_made(turn)) {
            printf("tests/many_edits: turn %zu: not as known\n", turn);
            return 1;
        }
        if (!is_refused(refusals[turn % REFUSALS])) {
            printf("tests/many_edits: refusal %zu in turn %zu: not as known\n", turn % REFUSALS, turn);
            return 1;
        }
    }
    for (size_t turn = 0; turn < PRIVILEGES; turn++)
        if (!is_turn_forbidden(turn)) {
            printf("tests/many_edits: turn %zu of forbidding all: not as known\n", turn);
            return 1;
        }
    for (size_t condition = 0; condition < 4; condition++)
        if (told_of[condition] == 0) {
            printf("tests/many_edits: no verdict with condition %zu\n", condition);
            return 1;
        }
    if (!is_told_as_kept()) {
        puts("tests/many_edits: entries that are none of the marks': not as known");
        return 1;
    }
    return 0;
}
