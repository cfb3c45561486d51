/*
 * Writes the largest listing that there is, and reads it back: in format 2, of 16 choices of the same 16 kinds, all with names of 32 bytes, 4,096
 * lines of 109 bytes, which are more bytes than 16 bits count. In format 1 it has 3,840 lines. The lines are made here too, so that it is known what
 * comes of each call. Allowed and forbidden take turns by the sum of the three positions: a mark read at a place 16 or 256 further on is seen.
 * Then the same over the largest schema: as many types, child entries and bytes of names as there may be. And formats that are none, in 16 bits.
 */
#include <stdio.h>
#include <string.h>

#include "finnedscarf.h"

enum { CHOICES = 16, KINDS = 16, PRIVILEGES = CHOICES * KINDS * KINDS, NAME = 32, LINE = 109, LENGTH = PRIVILEGES * LINE, KEPT = 7 };
enum { FIRST_PRIVILEGES = CHOICES * KINDS * (KINDS - 1), FIRST_LENGTH = FIRST_PRIVILEGES * LINE };

/* The largest schema: 64 sequences of 16, each of the next one and of texts, and 192 texts. */
enum { SEQUENCES = 64, TEXTS = 192, TEXT_LINE = 40 };

static char text[65536];
static size_t text_length;

/* The marks and the lines of a format, and behind these the last one once more. */
static uint8_t marks[PRIVILEGES];
static char listing[LENGTH + LINE + 1];
static size_t privileges;

static uint8_t out[LENGTH + 1];

/* A group of 16 names that begin with a letter. */
static void declare_group(const char *name, char letter, char between)
{
    text_length += sprintf(text + text_length, "<!ELEMENT %s (", name);
    for (int k = 0; k < 16; k++)
        text_length += sprintf(text + text_length, "%c%031d%c", letter, k, k < 15 ? between : ')');
    text_length += sprintf(text + text_length, ">\n");
}

static void write_text(void)
{
    char name[NAME + 1];
    declare_group("all", 'c', ',');
    for (int c = 0; c < CHOICES; c++) {
        sprintf(name, "c%031d", c);
        declare_group(name, 'k', '|');
    }
    for (int k = 0; k < KINDS; k++)
        text_length += sprintf(text + text_length, "<!ELEMENT k%031d EMPTY>\n", k);
}

static void write_largest(void)
{
    text_length = 0;
    for (int t = 0; t < SEQUENCES; t++) {
        text_length += sprintf(text + text_length, "<!ELEMENT t%031d (", t);
        for (int k = 0; k < 16; k++) {
            int child = k == 0 && t < SEQUENCES - 1 ? t + 1 : SEQUENCES + (3 * t + k) % TEXTS;
            text_length += sprintf(text + text_length, "t%031d%c", child, k < 15 ? ',' : ')');
        }
        text_length += sprintf(text + text_length, ">\n");
    }
    for (int t = SEQUENCES; t < SEQUENCES + TEXTS; t++)
        text_length += sprintf(text + text_length, "<!ELEMENT t%031d (#PCDATA)>\n", t);
}

static void add_line(int c, int i, int j)
{
    int is_allowed = (c + i + j) % 2 == 0;
    marks[privileges] = is_allowed ? FINNEDSCARF_ALLOWED : FINNEDSCARF_FORBIDDEN;
    sprintf(listing + LINE * privileges, "%c c%031d replace k%031d k%031d\n", is_allowed ? '+' : '-', c, i, j);
    privileges++;
}

static void write_lines(int format)
{
    privileges = 0;
    for (int c = 0; c < CHOICES; c++)
        for (int i = 0; i < KINDS; i++)
            for (int j = 0; j < KINDS; j++)
                if (i != j || format == 2)
                    add_line(c, i, j);
    memcpy(listing + LINE * privileges, listing + LINE * (privileges - 1), LINE);
}

static int is_told(finnedscarf_outcome o, size_t number, size_t place)
{
    return o.number == number && o.place == place && !o.count && !o.condition;
}

/* Whether the result begins with these bytes and is kept behind them. */
static int holds(const void *written, size_t length)
{
    int right = memcmp(out, written, length) == 0;
    for (size_t k = length; k < sizeof out; k++)
        right = right && out[k] == KEPT;
    return right;
}

/* A format, how long the result is, and the number of the answer. */
struct writing {
    int format;
    size_t out, number;
};
static const struct writing writings[] = {
    {2, LENGTH, FINNEDSCARF_DONE},
    {2, LENGTH + 1, FINNEDSCARF_DONE},
    {2, LENGTH - 1, FINNEDSCARF_SHORT},
    {1, FIRST_LENGTH, FINNEDSCARF_DONE},
    {1, LENGTH, FINNEDSCARF_DONE},
    {1, FIRST_LENGTH - 1, FINNEDSCARF_SHORT},
    /* 65,536 too few, or as often as that is in it */
    {2, LENGTH - 65536, FINNEDSCARF_SHORT},
    {2, LENGTH % 65536, FINNEDSCARF_SHORT},
};

static int is_written(struct writing w)
{
    write_lines(w.format);
    size_t length = w.number == FINNEDSCARF_DONE ? LINE * privileges : 0;
    memset(out, KEPT, sizeof out);
    finnedscarf_outcome o =
        finnedscarf_write_listing((const uint8_t *)text, text_length, (uint16_t)w.format, marks, privileges, out, w.out);
    return is_told(o, w.number, length) && holds(listing, length);
}

/* A format, how much of the listing is read, how long the result is, and the number and the place of the answer. */
struct reading {
    int format;
    size_t length, out, number, place;
};
static const struct reading readings[] = {
    {2, LENGTH, PRIVILEGES, FINNEDSCARF_DONE, 0},
    {2, LENGTH, PRIVILEGES + 1, FINNEDSCARF_DONE, 0},
    {2, LENGTH, PRIVILEGES - 1, FINNEDSCARF_SHORT, 0},
    {2, LENGTH - LINE, PRIVILEGES, FINNEDSCARF_DONE, 0},
    {1, FIRST_LENGTH, FIRST_PRIVILEGES, FINNEDSCARF_DONE, 0},
    {1, FIRST_LENGTH, FIRST_PRIVILEGES - 1, FINNEDSCARF_SHORT, 0},
    /* the last line without its newline; it once more, whole, without its newline, and its first byte */
    {2, LENGTH - 1, PRIVILEGES, FINNEDSCARF_LINE, LENGTH - LINE},
    {2, LENGTH + LINE, PRIVILEGES, FINNEDSCARF_ORDER, LENGTH},
    {2, LENGTH + LINE - 1, PRIVILEGES, FINNEDSCARF_LINE, LENGTH},
    {2, LENGTH + 1, PRIVILEGES, FINNEDSCARF_LINE, LENGTH},
    {1, FIRST_LENGTH + LINE, FIRST_PRIVILEGES, FINNEDSCARF_ORDER, FIRST_LENGTH},
};

static int is_read(struct reading r)
{
    write_lines(r.format);
    for (size_t p = r.length / LINE; p < privileges; p++)
        marks[p] = FINNEDSCARF_UNSET;
    memset(out, KEPT, sizeof out);
    finnedscarf_outcome o =
        finnedscarf_read_listing((const uint8_t *)text, text_length, (uint16_t)r.format, (const uint8_t *)listing, r.length, out, r.out);
    return is_told(o, r.number, r.place) && holds(marks, r.number == FINNEDSCARF_DONE ? privileges : 0);
}

static int is_largest_both_ways(uint16_t format)
{
    static uint16_t words[1801];
    size_t v = finnedscarf_read_dtd((const uint8_t *)text, text_length, words, 1801).place;
    for (int t = 0; t < TEXTS; t++) {
        marks[t] = t % 3 ? FINNEDSCARF_ALLOWED : FINNEDSCARF_FORBIDDEN;
        sprintf(listing + TEXT_LINE * t, "%c t%031d text\n", t % 3 ? '+' : '-', SEQUENCES + t);
    }
    memset(out, KEPT, sizeof out);
    finnedscarf_outcome o = finnedscarf_write_listing((const uint8_t *)text, text_length, format, marks, TEXTS, out, sizeof out);
    int right = words[1] == 1800 && v == TEXTS && is_told(o, FINNEDSCARF_DONE, TEXT_LINE * TEXTS) && holds(listing, TEXT_LINE * TEXTS);
    memset(out, KEPT, sizeof out);
    o = finnedscarf_read_listing((const uint8_t *)text, text_length, format, (const uint8_t *)listing, TEXT_LINE * TEXTS, out, sizeof out);
    return right && is_told(o, FINNEDSCARF_DONE, 0) && holds(marks, TEXTS);
}

static int is_no_format(uint16_t format)
{
    memset(out, KEPT, sizeof out);
    finnedscarf_outcome o = finnedscarf_write_listing((const uint8_t *)text, text_length, format, marks, TEXTS, out, sizeof out);
    int right = is_told(o, FINNEDSCARF_FORMAT, 0);
    o = finnedscarf_read_listing((const uint8_t *)text, text_length, format, (const uint8_t *)listing, TEXT_LINE * TEXTS, out, sizeof out);
    return right && is_told(o, FINNEDSCARF_FORMAT, 0) && holds(out, 0);
}

int main(void)
{
    write_text();
    for (size_t k = 0; k < sizeof writings / sizeof writings[0]; k++) {
        struct writing w = writings[k];
        if (!is_written(w)) {
            printf("tests/many_lines: written in format %d, a result of %zu: not as known\n", w.format, w.out);
            return 1;
        }
    }
    for (size_t k = 0; k < sizeof readings / sizeof readings[0]; k++) {
        struct reading r = readings[k];
        if (!is_read(r)) {
            printf("tests/many_lines: read in format %d, %zu bytes, a result of %zu: not as known\n", r.format, r.length, r.out);
            return 1;
        }
    }
    write_largest();
    for (uint16_t format = 1; format <= 2; format++) {
        if (!is_largest_both_ways(format)) {
            printf("tests/many_lines: the largest schema in format %d: not as known\n", format);
            return 1;
        }
    }
    static const uint16_t none[] = {0, 3, 257, 258, 4097, 4098, 32769, 32770, 65535};
    for (size_t k = 0; k < sizeof none / sizeof none[0]; k++) {
        if (!is_no_format(none[k])) {
            printf("tests/many_lines: format %d is taken\n", none[k]);
            return 1;
        }
    }
    return 0;
}
