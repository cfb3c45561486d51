/*
 * Lends NULL for empty runs: for each run of each call, and for several at once, on a table that has no privilege and on one that has one. Each
 * call is made by its name and by its address, and must answer as documents 01 and 02 have it. It is C and C++; as C++ it lends empty vectors
 * too.
 *
 * tests/store links it with --wrap for each BORDER and SHEET_BORDER below: what the header calls by that name is then `__wrap_name`, which sees to
 * it that no NULL comes so far, and `__real_name` is the library's own.
 */
#include <inttypes.h>
#include <stdio.h>
#include <stdlib.h>
#include <string.h>

#ifdef __cplusplus
#include <vector>
#endif

#include "finnedscarf.h"

static size_t passed_on;

static void pass_on(const char *name, int whole)
{
    if (!whole) {
        printf("tests/null: NULL reaches the library's %s\n", name);
        exit(1);
    }
    passed_on++;
}

#define WRAP(answer, name, real, wrap, parameters, arguments, whole) \
    answer real parameters;                                          \
    answer wrap parameters                                           \
    {                                                                \
        pass_on(name, whole);                                        \
        return real arguments;                                       \
    }
#define BORDER(name, parameters, arguments, whole) \
    WRAP(finnedscarf_outcome, #name, __real_##name, __wrap_##name, parameters, arguments, whole)
#define SHEET_BORDER(name, parameters, arguments, whole) \
    WRAP(finnedscarf_sheet, #name, __real_##name, __wrap_##name, parameters, arguments, whole)

#ifdef __cplusplus
extern "C" {
#endif
BORDER(finnedscarf_check_table, (const uint16_t *words, size_t words_length), (words, words_length), words != NULL)
BORDER(finnedscarf_read_dtd, (const uint8_t *text, size_t text_length, uint16_t *out, size_t out_length),
       (text, text_length, out, out_length), text && out)
BORDER(finnedscarf_judge_policy, (const uint16_t *words, size_t words_length, const uint8_t *marks, size_t marks_length),
       (words, words_length, marks, marks_length), words && marks)
BORDER(finnedscarf_complete,
       (const uint16_t *words, size_t words_length, const uint8_t *marks, size_t marks_length, uint8_t *out, size_t out_length),
       (words, words_length, marks, marks_length, out, out_length), words && marks && out)
BORDER(finnedscarf_complete_roles,
       (const uint16_t *words, size_t words_length, const uint8_t *marks, size_t marks_length, uint16_t *numbers, size_t numbers_length,
        uint8_t *out, size_t out_length),
       (words, words_length, marks, marks_length, numbers, numbers_length, out, out_length), words && marks && numbers && out)
BORDER(finnedscarf_mend,
       (const uint16_t *words, size_t words_length, const uint8_t *marks, size_t marks_length, uint8_t *out, size_t out_length),
       (words, words_length, marks, marks_length, out, out_length), words && marks && out)
BORDER(finnedscarf_judge_mend,
       (const uint16_t *words, size_t words_length, const uint8_t *marks, size_t marks_length, const uint8_t *proposed, size_t proposed_length),
       (words, words_length, marks, marks_length, proposed, proposed_length), words && marks && proposed)
BORDER(finnedscarf_judge_maps,
       (const uint16_t *words, size_t words_length, const uint8_t *allowed, size_t allowed_length, const uint8_t *forbidden,
        size_t forbidden_length),
       (words, words_length, allowed, allowed_length, forbidden, forbidden_length), words && allowed && forbidden)
BORDER(finnedscarf_complete_maps,
       (const uint16_t *words, size_t words_length, const uint8_t *allowed, size_t allowed_length, const uint8_t *forbidden,
        size_t forbidden_length, uint8_t *out_allowed, size_t out_allowed_length, uint8_t *out_forbidden, size_t out_forbidden_length),
       (words, words_length, allowed, allowed_length, forbidden, forbidden_length, out_allowed, out_allowed_length, out_forbidden,
        out_forbidden_length),
       words && allowed && forbidden && out_allowed && out_forbidden)
BORDER(finnedscarf_mend_maps,
       (const uint16_t *words, size_t words_length, const uint8_t *allowed, size_t allowed_length, const uint8_t *forbidden,
        size_t forbidden_length, uint8_t *out_allowed, size_t out_allowed_length, uint8_t *out_forbidden, size_t out_forbidden_length),
       (words, words_length, allowed, allowed_length, forbidden, forbidden_length, out_allowed, out_allowed_length, out_forbidden,
        out_forbidden_length),
       words && allowed && forbidden && out_allowed && out_forbidden)
BORDER(finnedscarf_judge_mend_maps,
       (const uint16_t *words, size_t words_length, const uint8_t *allowed, size_t allowed_length, const uint8_t *forbidden,
        size_t forbidden_length, const uint8_t *proposed_allowed, size_t proposed_allowed_length, const uint8_t *proposed_forbidden,
        size_t proposed_forbidden_length),
       (words, words_length, allowed, allowed_length, forbidden, forbidden_length, proposed_allowed, proposed_allowed_length,
        proposed_forbidden, proposed_forbidden_length),
       words && allowed && forbidden && proposed_allowed && proposed_forbidden)
BORDER(finnedscarf_carry_marks,
       (const uint16_t *old_words, size_t old_words_length, const uint8_t *old_marks, size_t old_marks_length, const uint16_t *new_words,
        size_t new_words_length, const uint16_t *new_numbers, size_t new_numbers_length, uint8_t *out, size_t out_length, uint8_t *lost,
        size_t lost_length),
       (old_words, old_words_length, old_marks, old_marks_length, new_words, new_words_length, new_numbers, new_numbers_length, out,
        out_length, lost, lost_length),
       old_words && old_marks && new_words && new_numbers && out && lost)
SHEET_BORDER(finnedscarf_month_sheet,
             (const uint16_t *words, size_t words_length, uint32_t roles, const uint8_t *marks, size_t marks_length, uint32_t *counts,
              size_t counts_length),
             (words, words_length, roles, marks, marks_length, counts, counts_length), words && marks && counts)
SHEET_BORDER(finnedscarf_add_sheets,
             (const uint16_t *words, size_t words_length, finnedscarf_sheet sheet, uint32_t *counts, size_t counts_length,
              finnedscarf_sheet more, const uint32_t *more_counts, size_t more_counts_length),
             (words, words_length, sheet, counts, counts_length, more, more_counts, more_counts_length), words && counts && more_counts)
BORDER(finnedscarf_write_listing,
       (const uint8_t *text, size_t text_length, uint16_t format, const uint8_t *marks, size_t marks_length, uint8_t *out, size_t out_length),
       (text, text_length, format, marks, marks_length, out, out_length), text && marks && out)
BORDER(finnedscarf_read_listing,
       (const uint8_t *text, size_t text_length, uint16_t format, const uint8_t *listing, size_t listing_length, uint8_t *out,
        size_t out_length),
       (text, text_length, format, listing, listing_length, out, out_length), text && listing && out)
BORDER(finnedscarf_edit_mark,
       (const uint16_t *words, size_t words_length, uint8_t *marks, size_t marks_length, uint16_t *kept, size_t kept_length, size_t privilege,
        uint8_t mark),
       (words, words_length, marks, marks_length, kept, kept_length, privilege, mark), words && marks && kept)
#ifdef __cplusplus
}
#endif

typedef finnedscarf_outcome writes(const uint16_t *, size_t, const uint8_t *, size_t, uint8_t *, size_t);
static finnedscarf_outcome (*const check_table)(const uint16_t *, size_t) = finnedscarf_check_table;
static finnedscarf_outcome (*const read_dtd)(const uint8_t *, size_t, uint16_t *, size_t) = &finnedscarf_read_dtd;
static finnedscarf_outcome (*const judge_policy)(const uint16_t *, size_t, const uint8_t *, size_t) = &finnedscarf_judge_policy;
static writes *const complete = finnedscarf_complete;
static finnedscarf_outcome (*const complete_roles)(const uint16_t *, size_t, const uint8_t *, size_t, uint16_t *, size_t, uint8_t *, size_t) =
    &finnedscarf_complete_roles;
static writes *const mend = &finnedscarf_mend;
static finnedscarf_outcome (*const judge_mend)(const uint16_t *, size_t, const uint8_t *, size_t, const uint8_t *, size_t) =
    finnedscarf_judge_mend;

typedef finnedscarf_outcome writes_maps(const uint16_t *, size_t, const uint8_t *, size_t, const uint8_t *, size_t, uint8_t *, size_t,
                                        uint8_t *, size_t);
static finnedscarf_outcome (*const judge_maps)(const uint16_t *, size_t, const uint8_t *, size_t, const uint8_t *, size_t) =
    finnedscarf_judge_maps;
static writes_maps *const complete_maps = &finnedscarf_complete_maps;
static writes_maps *const mend_maps = finnedscarf_mend_maps;
static finnedscarf_outcome (*const judge_mend_maps)(const uint16_t *, size_t, const uint8_t *, size_t, const uint8_t *, size_t,
                                                    const uint8_t *, size_t, const uint8_t *, size_t) = &finnedscarf_judge_mend_maps;
static finnedscarf_outcome (*const carry_marks)(const uint16_t *, size_t, const uint8_t *, size_t, const uint16_t *, size_t,
                                                const uint16_t *, size_t, uint8_t *, size_t, uint8_t *, size_t) = finnedscarf_carry_marks;
static finnedscarf_sheet (*const month_sheet)(const uint16_t *, size_t, uint32_t, const uint8_t *, size_t, uint32_t *, size_t) =
    &finnedscarf_month_sheet;
static finnedscarf_sheet (*const add_sheets)(const uint16_t *, size_t, finnedscarf_sheet, uint32_t *, size_t, finnedscarf_sheet,
                                             const uint32_t *, size_t) = finnedscarf_add_sheets;
typedef finnedscarf_outcome lists(const uint8_t *, size_t, uint16_t, const uint8_t *, size_t, uint8_t *, size_t);
static lists *const write_listing = &finnedscarf_write_listing;
static lists *const read_listing = finnedscarf_read_listing;
static finnedscarf_outcome (*const edit_mark)(const uint16_t *, size_t, uint8_t *, size_t, uint16_t *, size_t, size_t, uint8_t) =
    &finnedscarf_edit_mark;

/* Two tables of one type, which is empty and has no privilege, or a text and has one: V is the table's place here. The same as DTD text. */
static const uint16_t tables[2][11] = {{1, 11, 1, 0, 8, 0, 11, 0, 0, 0, 0}, {1, 11, 1, 0, 8, 0, 11, 1, 1, 0, 0}};
static const char *const texts[2] = {"<!ELEMENT a EMPTY>", "<!ELEMENT a (#PCDATA)>"};
static const uint8_t unset[1] = {FINNEDSCARF_UNSET}, allowed[1] = {FINNEDSCARF_ALLOWED};

/* The runs of a call that are empty, as a sum. The third is the result, or the proposed marks. */
enum { WORDS = 1, MARKS = 2, THIRD = 4 };

enum { CHECK_TABLE, JUDGE_POLICY, COMPLETE, MEND, JUDGE_MEND, CALLS };

static const struct {
    const char *name;
    int sums;            /* how many sums of its runs there are */
    size_t number[2][8]; /* of its answer, by V and by that sum */
} calls[CALLS] = {
    {"check_table", 2, {{0, 1}, {0, 1}}},
    {"judge_policy", 4, {{0, 1, 0, 1}, {0, 1, 10, 1}}},
    {"complete", 8, {{0, 1, 0, 1, 0, 1, 0, 1}, {0, 1, 10, 1, 12, 1, 10, 1}}},
    {"mend", 8, {{0, 1, 0, 1, 0, 1, 0, 1}, {0, 1, 10, 1, 12, 1, 10, 1}}},
    {"judge_mend", 8, {{0, 1, 0, 1, 0, 1, 0, 1}, {0, 1, 10, 1, 13, 1, 10, 1}}},
};

struct runs {
    const uint16_t *words;
    const uint8_t *marks;
    uint8_t *third;
    size_t words_length, marks_length, third_length;
};

static finnedscarf_outcome by_name(int call, struct runs r)
{
    switch (call) {
    case CHECK_TABLE: return finnedscarf_check_table(r.words, r.words_length);
    case JUDGE_POLICY: return finnedscarf_judge_policy(r.words, r.words_length, r.marks, r.marks_length);
    case COMPLETE: return finnedscarf_complete(r.words, r.words_length, r.marks, r.marks_length, r.third, r.third_length);
    case MEND: return finnedscarf_mend(r.words, r.words_length, r.marks, r.marks_length, r.third, r.third_length);
    default: return finnedscarf_judge_mend(r.words, r.words_length, r.marks, r.marks_length, r.third, r.third_length);
    }
}

static finnedscarf_outcome by_address(int call, struct runs r)
{
    switch (call) {
    case CHECK_TABLE: return check_table(r.words, r.words_length);
    case JUDGE_POLICY: return judge_policy(r.words, r.words_length, r.marks, r.marks_length);
    case COMPLETE: return complete(r.words, r.words_length, r.marks, r.marks_length, r.third, r.third_length);
    case MEND: return mend(r.words, r.words_length, r.marks, r.marks_length, r.third, r.third_length);
    default: return judge_mend(r.words, r.words_length, r.marks, r.marks_length, r.third, r.third_length);
    }
}

static int has_breach(finnedscarf_outcome o)
{
    int chained = o.chain_length != 0;
    for (size_t k = 0; k < sizeof o.chain; k++)
        chained = chained || o.chain[k];
    return o.condition || o.type || o.i || o.j || o.privilege || o.forbidden || chained;
}

/* The runs with some of them taken from `none`, which are all empty. */
static struct runs emptied(struct runs r, struct runs none, int words, int marks, int third)
{
    if (words) {
        r.words = none.words;
        r.words_length = 0;
    }
    if (marks) {
        r.marks = none.marks;
        r.marks_length = 0;
    }
    if (third) {
        r.third = none.third;
        r.third_length = 0;
    }
    return r;
}

/* Makes a call in which some runs are empty: those of `none`, which are all empty. */
static void try_call(int call, int address, size_t v, int empty, struct runs none)
{
    uint8_t third[2] = {9, 9}, first = 9;
    struct runs r = {tables[v], unset, third, 11, v, 2};
    if (call == JUDGE_MEND) {
        r.marks = allowed;
        third[0] = first = FINNEDSCARF_FORBIDDEN;
        r.third_length = v;
    }
    r = emptied(r, none, empty & WORDS, empty & MARKS, empty & THIRD);
    finnedscarf_outcome o = address ? by_address(call, r) : by_name(call, r);

    size_t number = calls[call].number[v][empty];
    size_t place = call == CHECK_TABLE && number == 0 ? v : 0;
    size_t count = call == JUDGE_MEND && number == 0 ? v : 0;
    if (v == 1 && number == 0 && call == COMPLETE)
        first = FINNEDSCARF_FORBIDDEN;
    if (v == 1 && number == 0 && call == MEND)
        first = FINNEDSCARF_UNSET;
    if (o.number != number || o.place != place || o.count != count || has_breach(o) || third[0] != first || third[1] != 9) {
        printf("tests/null: %s by %s, V %zu, empty runs %d: number %zu, place %zu, count %zu, third run %d %d, where %zu, %zu, %zu, %d 9 "
               "and no breach is right\n",
               calls[call].name, address ? "address" : "name", v, empty, o.number, o.place, o.count, third[0], third[1], number, place,
               count, first);
        exit(1);
    }
}

/* The runs of reading that are empty, as a sum, and the number of its answer by that sum. */
enum { TEXT = 1, TABLE = 2 };
static const size_t read_number[4] = {0, 20, 12, 20};

/* Reads a text in which some runs are empty: those that are given, which are all empty. */
static void try_read(int address, size_t v, int empty, const uint8_t *no_text, uint16_t *no_table)
{
    uint16_t table[12] = {9, 9, 9, 9, 9, 9, 9, 9, 9, 9, 9, 9};
    const uint8_t *text = empty & TEXT ? no_text : (const uint8_t *)texts[v];
    uint16_t *out = empty & TABLE ? no_table : table;
    size_t text_length = empty & TEXT ? 0 : strlen(texts[v]), out_length = empty & TABLE ? 0 : 12;
    finnedscarf_outcome o =
        address ? read_dtd(text, text_length, out, out_length) : finnedscarf_read_dtd(text, text_length, out, out_length);

    size_t number = read_number[empty], place = number == 0 ? v : 0;
    int right = table[11] == 9;
    for (int k = 0; k < 11; k++)
        right = right && table[k] == (number == 0 ? tables[v][k] : 9);
    if (o.number != number || o.place != place || o.count || has_breach(o) || !right) {
        printf("tests/null: read_dtd by %s, V %zu, empty runs %d: number %zu, place %zu, where %zu, %zu is right%s\n",
               address ? "address" : "name", v, empty, o.number, o.place, number, place, right ? "" : ", and another result");
        exit(1);
    }
}

/* The runs of completing roles that are empty, as a sum, and the number of its answer by V and by that sum; there is one role or none. */
enum { NUMBERS = 4, OUT = 8 };
static const size_t roles_number[2][16] = {{0, 1, 0, 1, 0, 1, 0, 1, 0, 1, 0, 1, 0, 1, 0, 1}, {0, 1, 10, 1, 10, 1, 0, 1, 12, 1, 10, 1, 10, 1, 0, 1}};

/* Completes a role, or none, in a call in which some runs are empty: those that are given, which are all empty. */
static void try_roles(int address, size_t v, int empty, struct runs none, uint16_t *no_numbers)
{
    uint16_t numbers[2] = {9, 9};
    uint8_t out[2] = {9, 9};
    struct runs r = {tables[v], unset, out, 11, v, 2};
    uint16_t *lent = empty & NUMBERS ? no_numbers : numbers;
    size_t roles = empty & NUMBERS ? 0 : 1;
    r = emptied(r, none, empty & WORDS, empty & MARKS, empty & OUT);
    finnedscarf_outcome o =
        address ? complete_roles(r.words, r.words_length, r.marks, r.marks_length, lent, roles, r.third, r.third_length)
                : finnedscarf_complete_roles(r.words, r.words_length, r.marks, r.marks_length, lent, roles, r.third, r.third_length);

    size_t number = roles_number[v][empty];
    int done = number == 0 && roles == 1;
    int first_number = done ? FINNEDSCARF_DONE : 9, first = done && v == 1 ? FINNEDSCARF_FORBIDDEN : 9;
    int right = numbers[0] == first_number && numbers[1] == 9 && out[0] == first && out[1] == 9;
    if (o.number != number || o.place || o.count || has_breach(o) || !right) {
        printf("tests/null: complete_roles by %s, V %zu, empty runs %d: number %zu, place %zu, numbers %d %d, result %d %d, where %zu, 0, "
               "%d 9, %d 9 and no breach is right\n",
               address ? "address" : "name", v, empty, o.number, o.place, numbers[0], numbers[1], out[0], out[1], number, first_number, first);
        exit(1);
    }
}

/* The runs of a call over maps that are empty, as a sum with that of the words. The other pair is the result, or the proposed maps. */
enum { ALLOWED = 2, FORBIDDEN = 4, OTHER_ALLOWED = 8, OTHER_FORBIDDEN = 16 };

enum { JUDGE_MAPS, COMPLETE_MAPS, MEND_MAPS, JUDGE_MEND_MAPS, MAPS_CALLS };

static const struct {
    const char *name;
    int sums;     /* how many sums of its runs there are */
    size_t other; /* the number of its answer if a map of the other pair is missing */
} maps_calls[MAPS_CALLS] = {
    {"judge_maps", 8, 0},
    {"complete_maps", 32, FINNEDSCARF_SHORT},
    {"mend_maps", 32, FINNEDSCARF_SHORT},
    {"judge_mend_maps", 32, FINNEDSCARF_PROPOSED_LENGTH},
};

struct maps_runs {
    const uint16_t *words;
    const uint8_t *allowed, *forbidden;
    uint8_t *other_allowed, *other_forbidden;
    size_t w, a, f, oa, of; /* their lengths */
};

static finnedscarf_outcome maps_by_name(int call, struct maps_runs r)
{
    switch (call) {
    case JUDGE_MAPS: return finnedscarf_judge_maps(r.words, r.w, r.allowed, r.a, r.forbidden, r.f);
    case COMPLETE_MAPS:
        return finnedscarf_complete_maps(r.words, r.w, r.allowed, r.a, r.forbidden, r.f, r.other_allowed, r.oa, r.other_forbidden, r.of);
    case MEND_MAPS:
        return finnedscarf_mend_maps(r.words, r.w, r.allowed, r.a, r.forbidden, r.f, r.other_allowed, r.oa, r.other_forbidden, r.of);
    default:
        return finnedscarf_judge_mend_maps(r.words, r.w, r.allowed, r.a, r.forbidden, r.f, r.other_allowed, r.oa, r.other_forbidden, r.of);
    }
}

static finnedscarf_outcome maps_by_address(int call, struct maps_runs r)
{
    switch (call) {
    case JUDGE_MAPS: return judge_maps(r.words, r.w, r.allowed, r.a, r.forbidden, r.f);
    case COMPLETE_MAPS: return complete_maps(r.words, r.w, r.allowed, r.a, r.forbidden, r.f, r.other_allowed, r.oa, r.other_forbidden, r.of);
    case MEND_MAPS: return mend_maps(r.words, r.w, r.allowed, r.a, r.forbidden, r.f, r.other_allowed, r.oa, r.other_forbidden, r.of);
    default: return judge_mend_maps(r.words, r.w, r.allowed, r.a, r.forbidden, r.f, r.other_allowed, r.oa, r.other_forbidden, r.of);
    }
}

/* The runs with some of them taken from `none`, which are all empty. */
static struct maps_runs emptied_maps(struct maps_runs r, struct runs none, int empty)
{
    if (empty & WORDS) {
        r.words = none.words;
        r.w = 0;
    }
    if (empty & ALLOWED) {
        r.allowed = none.marks;
        r.a = 0;
    }
    if (empty & FORBIDDEN) {
        r.forbidden = none.marks;
        r.f = 0;
    }
    if (empty & OTHER_ALLOWED) {
        r.other_allowed = none.third;
        r.oa = 0;
    }
    if (empty & OTHER_FORBIDDEN) {
        r.other_forbidden = none.third;
        r.of = 0;
    }
    return r;
}

static size_t maps_number(int call, size_t v, int empty)
{
    if (empty & WORDS)
        return FINNEDSCARF_FORMAT;
    if (v == 0)
        return FINNEDSCARF_DONE;
    if (empty & (ALLOWED | FORBIDDEN))
        return FINNEDSCARF_MARKS_LENGTH;
    if (empty & (OTHER_ALLOWED | OTHER_FORBIDDEN))
        return maps_calls[call].other;
    return FINNEDSCARF_DONE;
}

/* Makes a call over maps in which some runs are empty: those of `none`, which are all empty. Where V is 0, so are the maps. */
static void try_maps(int call, int address, size_t v, int empty, struct runs none)
{
    static const uint8_t no_bit[1] = {0}, bit[1] = {1};
    uint8_t other[2][2] = {{9, 9}, {9, 9}}, first[2] = {9, 9};
    struct maps_runs r = {tables[v], no_bit, no_bit, other[0], other[1], 11, v, v, 2, 2};
    if (call == JUDGE_MEND_MAPS) {
        r.allowed = bit;
        other[0][0] = first[0] = 0;
        other[1][0] = first[1] = 1;
        r.oa = r.of = v;
    }
    r = emptied_maps(r, none, empty);
    finnedscarf_outcome o = address ? maps_by_address(call, r) : maps_by_name(call, r);

    size_t number = maps_number(call, v, empty);
    size_t count = call == JUDGE_MEND_MAPS && number == 0 ? v : 0;
    if (v == 1 && number == 0 && (call == COMPLETE_MAPS || call == MEND_MAPS)) {
        first[0] = 0;
        first[1] = call == COMPLETE_MAPS;
    }
    int right = other[0][0] == first[0] && other[0][1] == 9 && other[1][0] == first[1] && other[1][1] == 9;
    if (o.number != number || o.place || o.count != count || has_breach(o) || !right) {
        printf("tests/null: %s by %s, V %zu, empty runs %d: number %zu, place %zu, count %zu, other pair %d %d and %d %d, where %zu, 0, %zu, "
               "%d 9 and %d 9 and no breach is right\n",
               maps_calls[call].name, address ? "address" : "name", v, empty, o.number, o.place, o.count, other[0][0], other[0][1],
               other[1][0], other[1][1], number, count, first[0], first[1]);
        exit(1);
    }
}

/* The runs of carrying marks over that are empty, as a sum. */
enum { OLD_WORDS = 1, OLD_MARKS = 2, NEW_WORDS = 4, NEW_NUMBERS = 8, CARRIED = 16, LOST = 32 };

static size_t carry_number(size_t old_v, size_t new_v, int empty)
{
    if (empty & OLD_WORDS)
        return FINNEDSCARF_FORMAT;
    if (old_v && empty & OLD_MARKS)
        return FINNEDSCARF_MARKS_LENGTH;
    if (empty & NEW_WORDS)
        return FINNEDSCARF_NEW_TABLE + FINNEDSCARF_FORMAT;
    if (empty & NEW_NUMBERS)
        return FINNEDSCARF_NUMBERS_LENGTH;
    if ((new_v && empty & CARRIED) || (old_v && empty & LOST))
        return FINNEDSCARF_SHORT;
    return FINNEDSCARF_DONE;
}

/*
 * Carries a mark over, or none, in a call in which some runs are empty: those of `none`, which are all empty. The old type is the new one, or is
 * gone; where it was a text and is none now, its mark is lost too.
 */
static void try_carry(int address, size_t old_v, size_t new_v, int gone, int empty, struct runs none)
{
    const uint16_t numbers[1] = {(uint16_t)(gone ? FINNEDSCARF_GONE : 0)};
    uint8_t out[2] = {9, 9}, lost[2] = {9, 9};
    const uint16_t *old_words = empty & OLD_WORDS ? none.words : tables[old_v], *new_words = empty & NEW_WORDS ? none.words : tables[new_v];
    const uint16_t *new_numbers = empty & NEW_NUMBERS ? none.words : numbers;
    const uint8_t *old_marks = empty & OLD_MARKS ? none.marks : allowed;
    uint8_t *out_lent = empty & CARRIED ? none.third : out, *lost_lent = empty & LOST ? none.third : lost;
    size_t w = empty & OLD_WORDS ? 0 : 11, m = empty & OLD_MARKS ? 0 : old_v, x = empty & NEW_WORDS ? 0 : 11;
    size_t r = empty & NEW_NUMBERS ? 0 : 1, n = empty & CARRIED ? 0 : 2, l = empty & LOST ? 0 : 2;
    finnedscarf_outcome o =
        address ? carry_marks(old_words, w, old_marks, m, new_words, x, new_numbers, r, out_lent, n, lost_lent, l)
                : finnedscarf_carry_marks(old_words, w, old_marks, m, new_words, x, new_numbers, r, out_lent, n, lost_lent, l);

    size_t number = carry_number(old_v, new_v, empty);
    int kept = old_v && new_v && !gone;
    int first = number == 0 && new_v ? (kept ? FINNEDSCARF_ALLOWED : FINNEDSCARF_UNSET) : 9, first_lost = number == 0 && old_v ? !kept : 9;
    int right = out[0] == first && out[1] == 9 && lost[0] == first_lost && lost[1] == 9;
    if (o.number != number || o.place || o.count || has_breach(o) || !right) {
        printf("tests/null: carry_marks by %s, V %zu and %zu, the type %s, empty runs %d: number %zu, place %zu, results %d %d and %d %d, where "
               "%zu, 0, %d 9 and %d 9 and no breach is right\n",
               address ? "address" : "name", old_v, new_v, gone ? "gone" : "kept", empty, o.number, o.place, out[0], out[1], lost[0],
               lost[1], number, first, first_lost);
        exit(1);
    }
}

/* The runs of adding sheets that are empty, as a sum with that of the words. Where roles are counted the second is the marks. */
enum { MORE_COUNTS = 2, COUNTS = 4 };

/* Clean roles, which allow the privilege, if there is one. */
static finnedscarf_sheet clean_sheet(uint32_t roles, size_t v)
{
    finnedscarf_sheet s = {0, 0, roles, 0, 0, 0, 0, (uint32_t)v, {0, 0, 0}};
    return s;
}

static finnedscarf_sheet refused_sheet(size_t number)
{
    finnedscarf_sheet s = {number, 0, 0, 0, 0, 0, 0, 0, {0, 0, 0}};
    return s;
}

/* The counts as they are lent; of one privilege, and one behind them. */
static const uint32_t counts_lent[4] = {9, 9, 9, 9};

/* Holds a call to its number and, if that is 0, to a sheet of so many clean roles and to the counts that it leaves if there is a privilege. */
static void hold_sheet(const char *call, int address, size_t v, int empty, finnedscarf_sheet told, const uint32_t *counts, size_t number,
                       uint32_t roles, const uint32_t *counted)
{
    finnedscarf_sheet right = number ? refused_sheet(number) : clean_sheet(roles, v);
    if (number || !v)
        counted = counts_lent;
    if (memcmp(&told, &right, sizeof told) || memcmp(counts, counted, sizeof counts_lent)) {
        printf("tests/null: %s by %s, V %zu, empty runs %d: number %zu, place %zu, clean %" PRIu32 ", counts %" PRIu32 " %" PRIu32 " %" PRIu32
               " %" PRIu32 ", where %zu, 0, %" PRIu32 ", %" PRIu32 " %" PRIu32 " %" PRIu32 " %" PRIu32 " and no other role is right\n",
               call, address ? "address" : "name", v, empty, told.number, told.place, told.clean, counts[0], counts[1], counts[2],
               counts[3], number, right.clean, counted[0], counted[1], counted[2], counted[3]);
        exit(1);
    }
}

static size_t sheet_number(size_t v, uint32_t roles, int empty)
{
    if (empty & WORDS)
        return FINNEDSCARF_FORMAT;
    if (v && roles && empty & MARKS)
        return FINNEDSCARF_MARKS_LENGTH;
    return v && empty & COUNTS ? FINNEDSCARF_SHORT : FINNEDSCARF_DONE;
}

/* Counts a role, or none, in a call in which some runs are empty: those that are given, which are all empty. */
static void try_sheet(int address, size_t v, uint32_t roles, int empty, struct runs none, uint32_t *no_numbers)
{
    const uint32_t counted[4] = {roles, 0, 0, 9};
    uint32_t counts[4] = {9, 9, 9, 9};
    uint32_t *lent = empty & COUNTS ? no_numbers : counts;
    size_t n = empty & COUNTS ? 0 : 4;
    struct runs r = {tables[v], allowed, NULL, 11, v * roles, 0};
    r = emptied(r, none, empty & WORDS, empty & MARKS, 0);
    finnedscarf_sheet told = address ? month_sheet(r.words, r.words_length, roles, r.marks, r.marks_length, lent, n)
                                     : finnedscarf_month_sheet(r.words, r.words_length, roles, r.marks, r.marks_length, lent, n);
    hold_sheet("month_sheet", address, v, empty, told, counts, sheet_number(v, roles, empty), roles, counted);
}

static size_t sum_number(size_t v, int empty)
{
    if (empty & WORDS)
        return FINNEDSCARF_FORMAT;
    return v && empty & (COUNTS | MORE_COUNTS) ? FINNEDSCARF_SHORT : FINNEDSCARF_DONE;
}

/* Adds a role to nine, in a call in which some runs are empty: those that are given, which are all empty. */
static void try_add(int address, size_t v, int empty, struct runs none, uint32_t *no_numbers)
{
    const uint32_t more_counts[3] = {1, 0, 0}, counted[4] = {10, 9, 9, 9};
    uint32_t counts[4] = {9, 9, 9, 9};
    const uint16_t *words = empty & WORDS ? none.words : tables[v];
    uint32_t *lent = empty & COUNTS ? no_numbers : counts;
    const uint32_t *more_lent = empty & MORE_COUNTS ? no_numbers : more_counts;
    size_t w = empty & WORDS ? 0 : 11, n = empty & COUNTS ? 0 : 4, m = empty & MORE_COUNTS ? 0 : 3;
    finnedscarf_sheet nine = clean_sheet(9, v), one = clean_sheet(1, v);
    finnedscarf_sheet told = address ? add_sheets(words, w, nine, lent, n, one, more_lent, m)
                                     : finnedscarf_add_sheets(words, w, nine, lent, n, one, more_lent, m);
    hold_sheet("add_sheets", address, v, empty, told, counts, sum_number(v, empty), 10, counted);
}

/* The runs of writing or reading a listing that are empty, as a sum: the text, the marks or the listing, and the result. */
enum { GIVEN = 2, RESULT = 4 };

enum { WRITE_LISTING, READ_LISTING, LISTING_CALLS };

/* The number of each by V and by that sum; an empty listing leaves all unset. */
static const size_t listing_number[LISTING_CALLS][2][8] = {
    {{0, 20, 0, 20, 0, 20, 0, 20}, {0, 20, 10, 20, 12, 20, 10, 20}},
    {{0, 20, 0, 20, 0, 20, 0, 20}, {0, 20, 0, 20, 12, 20, 12, 20}},
};

/* The listing of the text's mark, which is allowed; where there is no privilege it is empty. */
static const char *const listings[2] = {"", "+ a text\n"};

struct listing_runs {
    const uint8_t *text, *given;
    uint8_t *out;
    size_t t, g, n; /* their lengths */
};

static finnedscarf_outcome make_listing(int call, int address, uint16_t format, struct listing_runs r)
{
    if (call == WRITE_LISTING)
        return address ? write_listing(r.text, r.t, format, r.given, r.g, r.out, r.n)
                       : finnedscarf_write_listing(r.text, r.t, format, r.given, r.g, r.out, r.n);
    return address ? read_listing(r.text, r.t, format, r.given, r.g, r.out, r.n)
                   : finnedscarf_read_listing(r.text, r.t, format, r.given, r.g, r.out, r.n);
}

/* The runs with some of them taken from `none`, which are all empty. */
static struct listing_runs emptied_listing(struct listing_runs r, struct runs none, int empty)
{
    if (empty & TEXT) {
        r.text = none.marks;
        r.t = 0;
    }
    if (empty & GIVEN) {
        r.given = none.marks;
        r.g = 0;
    }
    if (empty & RESULT) {
        r.out = none.third;
        r.n = 0;
    }
    return r;
}

/* Puts into the result what a call that is done writes there. */
static void put_listed(int call, size_t v, int empty, uint8_t *out)
{
    if (call == WRITE_LISTING)
        memcpy(out, listings[v], strlen(listings[v]));
    else if (v)
        out[0] = empty & GIVEN ? FINNEDSCARF_UNSET : FINNEDSCARF_ALLOWED;
}

/* Writes or reads a listing in a call in which some runs are empty: those of `none`, which are all empty. */
static void try_listing(int call, int address, size_t v, uint16_t format, int empty, struct runs none)
{
    uint8_t out[10], right_out[10];
    memset(out, 9, sizeof out);
    memset(right_out, 9, sizeof right_out);
    size_t length = strlen(listings[v]);
    struct listing_runs r = {(const uint8_t *)texts[v], allowed, out, strlen(texts[v]), v, sizeof out};
    if (call == READ_LISTING) {
        r.given = (const uint8_t *)listings[v];
        r.g = length;
    }
    finnedscarf_outcome o = make_listing(call, address, format, emptied_listing(r, none, empty));

    size_t number = FINNEDSCARF_FORMAT;
    if (format == 1 || format == 2)
        number = listing_number[call][v][empty];
    size_t place = number == 0 && call == WRITE_LISTING ? length : 0;
    if (number == 0)
        put_listed(call, v, empty, right_out);
    int right = memcmp(out, right_out, sizeof out) == 0;
    if (o.number != number || o.place != place || o.count || has_breach(o) || !right) {
        printf("tests/null: %s by %s, V %zu, format %d, empty runs %d: number %zu, place %zu, where %zu, %zu is right%s\n",
               call == WRITE_LISTING ? "write_listing" : "read_listing", address ? "address" : "name", v, format, empty, o.number, o.place,
               number, place, right ? "" : ", and another result");
        exit(1);
    }
}

/* The third run of editing a mark is the kept entries. */
enum { KEPT = 4 };

/* Edits of the only privilege, with each mark and one that is none, and of privileges that are not there. */
static const struct {
    size_t privilege;
    uint8_t mark;
} edits[] = {
    {0, FINNEDSCARF_UNSET}, {0, FINNEDSCARF_ALLOWED}, {0, FINNEDSCARF_FORBIDDEN},        {0, 3},
    {0, 255},               {1, FINNEDSCARF_ALLOWED}, {SIZE_MAX, FINNEDSCARF_FORBIDDEN}, {SIZE_MAX, 255},
};
enum { EDITS = sizeof edits / sizeof edits[0] };

static size_t edit_number(size_t v, size_t edit, int empty)
{
    if (empty & WORDS)
        return FINNEDSCARF_FORMAT;
    if ((v && empty & MARKS) || edits[edit].privilege >= v)
        return FINNEDSCARF_MARKS_LENGTH;
    if (edits[edit].mark > 2)
        return FINNEDSCARF_MARK;
    return empty & KEPT ? FINNEDSCARF_SHORT : FINNEDSCARF_DONE;
}

/* Edits a mark in a call in which some runs are empty: those that are given, which are all empty. An entry is written, whatever it was. */
static void try_edit(int address, size_t v, size_t edit, int empty, struct runs none, uint16_t *no_words)
{
    size_t privilege = edits[edit].privilege;
    uint8_t mark = edits[edit].mark, marks[2] = {allowed[0], 9};
    uint16_t kept[3] = {9, 9, 9};
    const uint16_t *words = empty & WORDS ? none.words : tables[v];
    uint8_t *marks_lent = empty & MARKS ? none.third : marks;
    uint16_t *kept_lent = empty & KEPT ? no_words : kept;
    size_t w = empty & WORDS ? 0 : 11, m = empty & MARKS ? 0 : v, k = empty & KEPT ? 0 : 3;
    finnedscarf_outcome o = address ? edit_mark(words, w, marks_lent, m, kept_lent, k, privilege, mark)
                                    : finnedscarf_edit_mark(words, w, marks_lent, m, kept_lent, k, privilege, mark);

    size_t number = edit_number(v, edit, empty);
    int done = number == FINNEDSCARF_DONE, first = done ? mark : allowed[0];
    int lowest = done ? 0 : 9, count = done ? mark == FINNEDSCARF_FORBIDDEN : 9;
    int right = marks[0] == first && marks[1] == 9 && kept[0] == lowest && kept[1] == count && kept[2] == 9;
    if (o.number != number || o.place || o.count || has_breach(o) || !right) {
        printf("tests/null: edit_mark by %s, V %zu, privilege %zu, mark %d, empty runs %d: number %zu, place %zu, marks %d %d, kept %d %d %d, "
               "where %zu, 0, %d 9, %d %d 9 and no breach is right\n",
               address ? "address" : "name", v, privilege, mark, empty, o.number, o.place, marks[0], marks[1], kept[0], kept[1], kept[2],
               number, first, lowest, count);
        exit(1);
    }
}

/*
 * The table that is read, the numbers of the roles and the kept entries are empty runs of words that a call may write, and the counts one of
 * numbers.
 */
static size_t try_all(struct runs none, uint16_t *no_words, uint32_t *no_numbers)
{
    size_t tried = 0;
    for (int address = 0; address < 2; address++)
        for (size_t v = 0; v < 2; v++)
            for (int empty = 0; empty < 4; empty++, tried++)
                try_read(address, v, empty, none.marks, no_words);
    for (int address = 0; address < 2; address++)
        for (size_t v = 0; v < 2; v++)
            for (int empty = 0; empty < 16; empty++, tried++)
                try_roles(address, v, empty, none, no_words);
    for (int call = 0; call < CALLS; call++)
        for (int address = 0; address < 2; address++)
            for (size_t v = 0; v < 2; v++)
                for (int empty = 0; empty < calls[call].sums; empty++, tried++)
                    try_call(call, address, v, empty, none);
    for (int call = 0; call < MAPS_CALLS; call++)
        for (int address = 0; address < 2; address++)
            for (size_t v = 0; v < 2; v++)
                for (int empty = 0; empty < maps_calls[call].sums; empty++, tried++)
                    try_maps(call, address, v, empty, none);
    for (int address = 0; address < 2; address++)
        for (size_t old_v = 0; old_v < 2; old_v++)
            for (size_t new_v = 0; new_v < 2; new_v++)
                for (int gone = 0; gone < 2; gone++)
                    for (int empty = 0; empty < 64; empty++, tried++)
                        try_carry(address, old_v, new_v, gone, empty, none);
    for (int address = 0; address < 2; address++)
        for (size_t v = 0; v < 2; v++)
            for (uint32_t roles = 0; roles < 2; roles++)
                for (int empty = 0; empty < 8; empty++, tried++)
                    try_sheet(address, v, roles, empty, none, no_numbers);
    for (int address = 0; address < 2; address++)
        for (size_t v = 0; v < 2; v++)
            for (int empty = 0; empty < 8; empty++, tried++)
                try_add(address, v, empty, none, no_numbers);
    for (int call = 0; call < LISTING_CALLS; call++)
        for (int address = 0; address < 2; address++)
            for (size_t v = 0; v < 2; v++)
                for (uint16_t format = 0; format < 4; format++)
                    for (int empty = 0; empty < 8; empty++, tried++)
                        try_listing(call, address, v, format, empty, none);
    for (int address = 0; address < 2; address++)
        for (size_t v = 0; v < 2; v++)
            for (size_t edit = 0; edit < EDITS; edit++)
                for (int empty = 0; empty < 8; empty++, tried++)
                    try_edit(address, v, edit, empty, none, no_words);
    return tried;
}

int main(void)
{
    struct runs null = {NULL, NULL, NULL, 0, 0, 0};
    size_t tried = try_all(null, NULL, NULL);
#ifdef __cplusplus
    std::vector<uint16_t> words, written;
    std::vector<uint8_t> marks, third;
    struct runs vectors = {words.data(), marks.data(), third.data(), 0, 0, 0};
    std::vector<uint32_t> numbers;
    tried += try_all(vectors, written.data(), numbers.data());
#endif
    if (passed_on != tried) {
        printf("tests/null: %zu calls made, and %zu seen on their way to the library\n", tried, passed_on);
        return 1;
    }
    return 0;
}
