/*
 * listing DTD [2] < ROLE: reads a role as it comes by mail, a listing with the names of the DTD, in format 1 or, with a 2, in format 2, and judges
 * it. Says on standard error that it is clean, or which condition is broken and the line of what is forbidden and can be done all the same; then the
 * role is mended, and its listing goes to standard output, to be mailed back. Of a listing that is refused it says the line. Exits with 0 if the role
 * is clean, 1 if it was mended, 2 if it is refused or a file cannot be taken.
 */
#include <stdio.h>
#include <string.h>

#include "file.h"
#include "finnedscarf.h"

enum { MOST_TEXT = 65536, MOST_WORDS = 1800, MOST_PRIVILEGES = 4096, MOST_LISTING = 446464 };

/* The kinds of types that have more privileges in format 2. */
enum { CHOICE = 3, STAR = 4 };

/* A schema as DTD text, and its table in a format. */
struct schema {
    uint8_t text[MOST_TEXT + 1];
    size_t text_length;
    uint16_t format, words[MOST_WORDS];
};

struct listing {
    uint8_t bytes[MOST_LISTING + 1];
    size_t length;
};

/* Says a line up to its newline. What cannot be seen is said as a number, such as the \x0d of a carriage return. */
static void say_line(const uint8_t *line, size_t rest)
{
    size_t k = 0;
    for (; k < rest && line[k] != '\n'; k++)
        fprintf(stderr, line[k] >= ' ' && line[k] <= '~' ? "%c" : "\\x%02x", line[k]);
    fputs(k < rest ? "\n" : " (without a newline)\n", stderr);
}

/* Says why a listing is refused: of a line its number, counted from 1, and its text. */
static void say_refusal(finnedscarf_outcome o, const struct listing *l)
{
    size_t line = 1;
    if (o.number != FINNEDSCARF_LINE && o.number != FINNEDSCARF_ORDER) {
        fprintf(stderr, "refused with number %zu, place %zu\n", o.number, o.place);
        return;
    }
    for (size_t k = 0; k < o.place; k++)
        line += l->bytes[k] == '\n';
    if (o.number == FINNEDSCARF_LINE)
        fprintf(stderr, "line %zu is not the line of an edit: ", line);
    else
        fprintf(stderr, "line %zu does not belong behind line %zu: ", line, line - 1);
    say_line(l->bytes + o.place, l->length - o.place);
}

/* Makes the table in the schema's format. In format 2 each star has one privilege more, and each choice as many as it has children. */
static void make_table(struct schema *s)
{
    uint16_t *words = s->words;
    finnedscarf_read_dtd(s->text, s->text_length, words, MOST_WORDS);
    words[0] = s->format;
    for (size_t t = 0; t < words[2] && s->format == 2; t++) {
        const uint16_t *record = words + 8 + 3 * t;
        if (record[0] == STAR || record[0] == CHOICE)
            words[7] += record[1];
    }
}

static void write_listing(const struct schema *s, const uint8_t *marks, struct listing *l)
{
    l->length = finnedscarf_write_listing(s->text, s->text_length, s->format, marks, s->words[7], l->bytes, MOST_LISTING).place;
}

/* Says a breach by the line of its privilege: the listing of a role in which that alone is set. */
static void say_breach(const struct schema *s, finnedscarf_outcome o)
{
    static uint8_t marks[MOST_PRIVILEGES];
    static struct listing one;
    marks[o.privilege] = FINNEDSCARF_FORBIDDEN;
    write_listing(s, marks, &one);
    fprintf(stderr, "condition %zu is broken: allowed edits come to what this line forbids", o.condition);
    if (o.forbidden > 1)
        fprintf(stderr, ", the first of %zu such lines", o.forbidden);
    fputs(": ", stderr);
    say_line(one.bytes, one.length);
}

int main(int argc, char **argv)
{
    static struct schema schema;
    static struct listing role;
    static uint8_t marks[MOST_PRIVILEGES], mended[MOST_PRIVILEGES];
    if (argc < 2 || argc > 3 || (argc == 3 && strcmp(argv[2], "2") != 0))
        stop("usage", "listing DTD [2] < ROLE");
    schema.format = argc == 3 ? 2 : 1;
    schema.text_length = read_file(fopen(argv[1], "rb"), argv[1], schema.text, sizeof schema.text);
    role.length = read_file(stdin, "standard input", role.bytes, sizeof role.bytes);
    if (role.length > MOST_LISTING)
        stop("standard input", "over 446,464 bytes");

    finnedscarf_outcome o =
        finnedscarf_read_listing(schema.text, schema.text_length, schema.format, role.bytes, role.length, marks, sizeof marks);
    if (o.number != FINNEDSCARF_DONE) {
        say_refusal(o, &role);
        return 2;
    }

    /* The text has a table in this format, and the role has marks over it: nothing is refused from here on. */
    make_table(&schema);
    size_t w = schema.words[1], v = schema.words[7];
    o = finnedscarf_judge_policy(schema.words, w, marks, v);
    if (o.condition == FINNEDSCARF_NONE) {
        fputs("clean\n", stderr);
        return 0;
    }
    say_breach(&schema, o);
    o = finnedscarf_mend(schema.words, w, marks, v, mended, v);
    fprintf(stderr, "mended, %zu taken away\n", o.count);
    write_listing(&schema, mended, &role);
    fwrite(role.bytes, 1, role.length, stdout);
    return 1;
}
