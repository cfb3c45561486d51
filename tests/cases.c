/*
 * Makes the calls on a stream of cases and prints a line for each (second/README.md has the form of both). Numbers, conditions and marks
 * are printed by the header's names for them, so that each name is held to its value.
 */
#include <inttypes.h>
#include <stdio.h>
#include <stdlib.h>
#include <string.h>

#include "finnedscarf.h"

enum { MOST = 98304 };

static const char *number_text(size_t number)
{
    switch (number) {
    case FINNEDSCARF_DONE: return "0";
    case FINNEDSCARF_GRAMMAR: return "20";
    case FINNEDSCARF_LIMIT: return "21";
    case FINNEDSCARF_NAME: return "22";
    case FINNEDSCARF_FORMAT: return "1";
    case FINNEDSCARF_LAYOUT: return "2";
    case FINNEDSCARF_KIND: return "3";
    case FINNEDSCARF_COUNT: return "4";
    case FINNEDSCARF_STRETCH: return "5";
    case FINNEDSCARF_BOUNDS: return "6";
    case FINNEDSCARF_TWICE: return "7";
    case FINNEDSCARF_ON_CYCLE: return "19";
    case FINNEDSCARF_ORPHAN: return "8";
    case FINNEDSCARF_TOTAL: return "9";
    case FINNEDSCARF_MARKS_LENGTH: return "10";
    case FINNEDSCARF_MARK: return "11";
    case FINNEDSCARF_BOTH: return "23";
    case FINNEDSCARF_SPARE: return "24";
    case FINNEDSCARF_NEW_TABLE + FINNEDSCARF_FORMAT: return "101";
    case FINNEDSCARF_NEW_TABLE + FINNEDSCARF_LAYOUT: return "102";
    case FINNEDSCARF_NEW_TABLE + FINNEDSCARF_KIND: return "103";
    case FINNEDSCARF_NEW_TABLE + FINNEDSCARF_COUNT: return "104";
    case FINNEDSCARF_NEW_TABLE + FINNEDSCARF_STRETCH: return "105";
    case FINNEDSCARF_NEW_TABLE + FINNEDSCARF_BOUNDS: return "106";
    case FINNEDSCARF_NEW_TABLE + FINNEDSCARF_TWICE: return "107";
    case FINNEDSCARF_NEW_TABLE + FINNEDSCARF_ON_CYCLE: return "119";
    case FINNEDSCARF_NEW_TABLE + FINNEDSCARF_ORPHAN: return "108";
    case FINNEDSCARF_NEW_TABLE + FINNEDSCARF_TOTAL: return "109";
    case FINNEDSCARF_NUMBERS_LENGTH: return "17";
    case FINNEDSCARF_NEW_NUMBER: return "18";
    case FINNEDSCARF_LINE: return "25";
    case FINNEDSCARF_ORDER: return "26";
    case FINNEDSCARF_SHORT: return "12";
    case FINNEDSCARF_SHEET_REFUSED: return "29";
    case FINNEDSCARF_SUM: return "30";
    case FINNEDSCARF_PROPOSED_LENGTH: return "13";
    case FINNEDSCARF_PROPOSED_MARK: return "14";
    case FINNEDSCARF_CHANGE: return "15";
    case FINNEDSCARF_BREACH: return "16";
    }
    return "?";
}

static const char *condition_text(size_t condition)
{
    switch (condition) {
    case FINNEDSCARF_NONE: return "0";
    case FINNEDSCARF_INSERT_DELETE: return "1";
    case FINNEDSCARF_CHAIN: return "2";
    case FINNEDSCARF_CYCLE: return "3";
    }
    return "?";
}

static void put_mark(uint8_t mark)
{
    switch (mark) {
    case FINNEDSCARF_UNSET: fputs("00", stdout); break;
    case FINNEDSCARF_ALLOWED: fputs("01", stdout); break;
    case FINNEDSCARF_FORBIDDEN: fputs("02", stdout); break;
    default: printf("%02x", mark);
    }
}

/* The next byte; a stream that ends within a case is an error. */
static uint8_t next_byte(void)
{
    int byte = getchar();
    if (byte == EOF)
        exit(2);
    return (uint8_t)byte;
}

static uint16_t next_word(void)
{
    uint8_t low = next_byte();
    return (uint16_t)(low + 256 * next_byte());
}

static uint32_t next_number(void)
{
    uint32_t low = next_word();
    return low + 65536 * (uint32_t)next_word();
}

/* The length of a run; one that is longer than MOST is an error. */
static size_t next_length(void)
{
    size_t length = next_number();
    if (length > MOST)
        exit(2);
    return length;
}

static size_t read_words(uint16_t *run)
{
    size_t length = next_length();
    for (size_t k = 0; k < length; k++)
        run[k] = next_word();
    return length;
}

static size_t read_bytes(uint8_t *run)
{
    size_t length = next_length();
    for (size_t k = 0; k < length; k++)
        run[k] = next_byte();
    return length;
}

static size_t read_numbers(uint32_t *run)
{
    size_t length = next_length();
    for (size_t k = 0; k < length; k++)
        run[k] = next_number();
    return length;
}

/* A sheet is no run: it has no length. */
static finnedscarf_sheet read_sheet(void)
{
    finnedscarf_sheet s;
    s.number = next_number();
    s.place = next_number();
    s.clean = next_number();
    s.insert_delete = next_number();
    s.chain = next_number();
    s.cycle = next_number();
    s.refused = next_number();
    s.leader_count = next_number();
    for (size_t k = 0; k < 3; k++)
        s.leaders[k] = next_number();
    return s;
}

/* Two maps, as they are lent together. */
struct maps {
    uint8_t allowed[MOST], forbidden[MOST];
    size_t allowed_length, forbidden_length;
};

static void read_maps(struct maps *m)
{
    m->allowed_length = read_bytes(m->allowed);
    m->forbidden_length = read_bytes(m->forbidden);
}

static int more(void)
{
    int byte = getchar();
    return byte != EOF && ungetc(byte, stdin) == byte;
}

static void put_outcome(size_t number, const char *call, finnedscarf_outcome o)
{
    printf("%zu %s %s %zu %zu %s %zu %zu %zu %zu %zu %zu ", number, call, number_text(o.number), o.place, o.count,
           condition_text(o.condition), o.type, o.i, o.j, o.privilege, o.forbidden, o.chain_length);
    for (size_t k = 0; k < sizeof o.chain; k++)
        printf("%02x", o.chain[k]);
}

static void put_run(const uint8_t *run, size_t length)
{
    putchar(' ');
    for (size_t k = 0; k < length; k++)
        put_mark(run[k]);
}

/* Bytes that are no marks. */
static void put_bytes(const uint8_t *run, size_t length)
{
    putchar(' ');
    for (size_t k = 0; k < length; k++)
        printf("%02x", run[k]);
}

static void put_word(uint16_t word)
{
    printf("%02x%02x", word % 256, word / 256);
}

/* The number of a role; as lent it may be any word. */
static void put_role(uint16_t number)
{
    switch (number) {
    case FINNEDSCARF_DONE: put_word(0); break;
    case FINNEDSCARF_MARK: put_word(11); break;
    case FINNEDSCARF_BREACH: put_word(16); break;
    default: put_word(number);
    }
}

/* The line of a call that only reads. */
static void put_line(size_t number, const char *call, finnedscarf_outcome o)
{
    put_outcome(number, call, o);
    putchar('\n');
}

/* The line of a call that may write a result. */
static void put_written(size_t number, const char *call, finnedscarf_outcome o, const uint8_t *out, size_t length)
{
    put_outcome(number, call, o);
    put_run(out, length);
    putchar('\n');
}

/* The line of a call that may write two maps. */
static void put_written_maps(size_t number, const char *call, finnedscarf_outcome o, const struct maps *out)
{
    put_outcome(number, call, o);
    put_bytes(out->allowed, out->allowed_length);
    put_bytes(out->forbidden, out->forbidden_length);
    putchar('\n');
}

/* The line of a call that answers with a sheet. The counts are printed as bytes, the low one of each number first. */
static void put_sheet(size_t number, const char *call, finnedscarf_sheet s, const uint32_t *counts, size_t length)
{
    printf("%zu %s %s %zu", number, call, number_text(s.number), s.place);
    printf(" %" PRIu32 " %" PRIu32 " %" PRIu32 " %" PRIu32 " %" PRIu32, s.clean, s.insert_delete, s.chain, s.cycle, s.refused);
    printf(" %" PRIu32 " %zu %zu %zu ", s.leader_count, s.leaders[0], s.leaders[1], s.leaders[2]);
    for (size_t k = 0; k < length; k++) {
        put_word((uint16_t)(counts[k] % 65536));
        put_word((uint16_t)(counts[k] / 65536));
    }
    putchar('\n');
}

/* The calls on a case of kind 0. Each that may write the result starts from it as it was lent. */
static void run_policy(size_t number)
{
    static uint16_t words[MOST];
    static uint8_t marks[MOST], lent[MOST], proposed[MOST], out[MOST];
    size_t w = read_words(words);
    size_t m = read_bytes(marks);
    size_t n = read_bytes(lent);
    size_t p = read_bytes(proposed);

    put_line(number, "check", finnedscarf_check_table(words, w));
    put_line(number, "verdict", finnedscarf_judge_policy(words, w, marks, m));
    memcpy(out, lent, n);
    put_written(number, "complete", finnedscarf_complete(words, w, marks, m, out, n), out, n);
    memcpy(out, lent, n);
    put_written(number, "mend", finnedscarf_mend(words, w, marks, m, out, n), out, n);
    put_line(number, "propose", finnedscarf_judge_mend(words, w, marks, m, proposed, p));
}

/* The call on a case of kind 1. The result is printed as bytes, the low one of each word first. */
static void run_dtd(size_t number)
{
    static uint8_t text[MOST];
    static uint16_t out[MOST];
    size_t t = read_bytes(text);
    size_t n = read_words(out);

    put_outcome(number, "dtd", finnedscarf_read_dtd(text, t, out, n));
    putchar(' ');
    for (size_t k = 0; k < n; k++)
        put_word(out[k]);
    putchar('\n');
}

/* The call on a case of kind 2. The numbers are printed as bytes, the low one of each word first. */
static void run_roles(size_t number)
{
    static uint16_t words[MOST], numbers[MOST];
    static uint8_t marks[MOST], out[MOST];
    size_t w = read_words(words);
    size_t m = read_bytes(marks);
    size_t r = read_words(numbers);
    size_t n = read_bytes(out);

    put_outcome(number, "roles", finnedscarf_complete_roles(words, w, marks, m, numbers, r, out, n));
    putchar(' ');
    for (size_t k = 0; k < r; k++)
        put_role(numbers[k]);
    put_run(out, n);
    putchar('\n');
}

/* The calls on a case of kind 3. Each that may write the two maps of the result starts from them as they were lent. */
static void run_maps(size_t number)
{
    static uint16_t words[MOST];
    static struct maps own, lent, proposed, out;
    size_t w = read_words(words);
    read_maps(&own);
    read_maps(&lent);
    read_maps(&proposed);

    const uint8_t *allowed = own.allowed, *forbidden = own.forbidden;
    size_t a = own.allowed_length, f = own.forbidden_length;
    put_line(number, "verdict_maps", finnedscarf_judge_maps(words, w, allowed, a, forbidden, f));
    out = lent;
    put_written_maps(number, "complete_maps",
                     finnedscarf_complete_maps(words, w, allowed, a, forbidden, f, out.allowed, out.allowed_length, out.forbidden,
                                               out.forbidden_length),
                     &out);
    out = lent;
    put_written_maps(number, "mend_maps",
                     finnedscarf_mend_maps(words, w, allowed, a, forbidden, f, out.allowed, out.allowed_length, out.forbidden,
                                           out.forbidden_length),
                     &out);
    put_line(number, "propose_maps",
             finnedscarf_judge_mend_maps(words, w, allowed, a, forbidden, f, proposed.allowed, proposed.allowed_length, proposed.forbidden,
                                         proposed.forbidden_length));
}

/* The call on a case of kind 4. */
static void run_carry(size_t number)
{
    static uint16_t old_words[MOST], new_words[MOST], new_numbers[MOST];
    static uint8_t old_marks[MOST], out[MOST], lost[MOST];
    size_t w = read_words(old_words);
    size_t m = read_bytes(old_marks);
    size_t x = read_words(new_words);
    size_t r = read_words(new_numbers);
    size_t n = read_bytes(out);
    size_t l = read_bytes(lost);

    put_outcome(number, "carry", finnedscarf_carry_marks(old_words, w, old_marks, m, new_words, x, new_numbers, r, out, n, lost, l));
    put_run(out, n);
    put_bytes(lost, l);
    putchar('\n');
}

/* The call on a case of kind 5. */
static void run_sheet(size_t number)
{
    static uint16_t words[MOST];
    static uint8_t marks[MOST];
    static uint32_t counts[MOST];
    size_t w = read_words(words);
    uint32_t roles = next_number();
    size_t m = read_bytes(marks);
    size_t n = read_numbers(counts);

    finnedscarf_sheet told = finnedscarf_month_sheet(words, w, roles, marks, m, counts, n);
    put_sheet(number, "sheet", told, counts, n);
}

/* The call on a case of kind 6. */
static void run_add_sheets(size_t number)
{
    static uint16_t words[MOST];
    static uint32_t counts[MOST], more_counts[MOST];
    size_t w = read_words(words);
    finnedscarf_sheet sheet = read_sheet();
    size_t n = read_numbers(counts);
    finnedscarf_sheet other = read_sheet();
    size_t m = read_numbers(more_counts);

    finnedscarf_sheet told = finnedscarf_add_sheets(words, w, sheet, counts, n, other, more_counts, m);
    put_sheet(number, "add_sheets", told, counts, n);
}

/* The format of a listing is no run: it has no length. One over 65,535 is an error. */
static uint16_t next_format(void)
{
    uint32_t format = next_number();
    if (format > 65535)
        exit(2);
    return (uint16_t)format;
}

/* The call on a case of kind 7. */
static void run_write_listing(size_t number)
{
    static uint8_t text[MOST], marks[MOST], out[MOST];
    size_t t = read_bytes(text);
    uint16_t format = next_format();
    size_t m = read_bytes(marks);
    size_t n = read_bytes(out);

    put_outcome(number, "write_listing", finnedscarf_write_listing(text, t, format, marks, m, out, n));
    put_bytes(out, n);
    putchar('\n');
}

/* The call on a case of kind 8. */
static void run_read_listing(size_t number)
{
    static uint8_t text[MOST], listing[MOST], out[MOST];
    size_t t = read_bytes(text);
    uint16_t format = next_format();
    size_t l = read_bytes(listing);
    size_t n = read_bytes(out);

    finnedscarf_outcome told = finnedscarf_read_listing(text, t, format, listing, l, out, n);
    put_written(number, "read_listing", told, out, n);
}

/*
 * The calls on a case of kind 9, one for each edit, which is two numbers: the privilege and the mark. Each starts from what the one before left. A
 * mark over 255, or half an edit, is an error.
 */
static void run_edit(size_t number)
{
    static uint16_t words[MOST], kept[MOST];
    static uint8_t marks[MOST];
    static uint32_t edits[MOST];
    size_t w = read_words(words);
    size_t m = read_bytes(marks);
    size_t k = read_words(kept);
    size_t e = read_numbers(edits);
    if (e % 2)
        exit(2);

    for (size_t edit = 0; edit < e; edit += 2) {
        if (edits[edit + 1] > 255)
            exit(2);
        put_outcome(number, "edit", finnedscarf_edit_mark(words, w, marks, m, kept, k, edits[edit], (uint8_t)edits[edit + 1]));
        put_run(marks, m);
        putchar(' ');
        for (size_t t = 0; t < k; t++)
            put_word(kept[t]);
        putchar('\n');
    }
}

int main(void)
{
    for (size_t number = 0; more(); number++) {
        switch (next_byte()) {
        case 0: run_policy(number); break;
        case 1: run_dtd(number); break;
        case 2: run_roles(number); break;
        case 3: run_maps(number); break;
        case 4: run_carry(number); break;
        case 5: run_sheet(number); break;
        case 6: run_add_sheets(number); break;
        case 7: run_write_listing(number); break;
        case 8: run_read_listing(number); break;
        case 9: run_edit(number); break;
        default: exit(2);
        }
    }
    return 0;
}
