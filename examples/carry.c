/*
 * Carries a role over to a revised schema. Reads from standard input a policy over the schema of samples/show.dtd, such as samples/vendor.policy:
 * the table's words (low byte first) and then the marks. The new schema is that of samples/revised.txt; types of one name are the same type. Says
 * the new marks and then the edits that are set, `+` if allowed and `-` if forbidden; and then, for each old mark, whether it is lost, and the
 * edits of which it is. Exits with 0 if no mark is lost, 1 if one is, 2 if the call is refused.
 */
#include <stdio.h>
#include <string.h>

#include "finnedscarf.h"

static const char *const old_names[] = {"job", "layer", "name", "range", "state", "draft", "held", "final"};
static const char *const new_names[] = {"draft", "final", "job", "layer", "name", "range", "review", "state"};
enum { OLD_TYPES = sizeof old_names / sizeof old_names[0], NEW_TYPES = sizeof new_names / sizeof new_names[0] };

static const uint16_t new_words[] = {1, 39, 8, 2, 8, 7, 32, 12, 0, 0, 0, 1, 0, 0, 4, 1, 0, 2, 3, 1, 1, 0, 4, 1, 0, 4, 1, 0, 4, 3, 3, 4,
                                     3, 4, 5, 7, 0, 6, 1};
enum { NEW_WORDS = sizeof new_words / sizeof new_words[0], NEW_PRIVILEGES = 12 };

/* The kinds of types that have privileges. */
enum { TEXT = 1, CHOICE = 3, STAR = 4 };

static uint16_t new_number(const char *name)
{
    for (uint16_t t = 0; t < NEW_TYPES; t++)
        if (strcmp(new_names[t], name) == 0)
            return t;
    return FINNEDSCARF_GONE;
}

static void say_bytes(const char *what, const uint8_t *bytes, size_t length)
{
    printf("%s ", what);
    for (size_t p = 0; p < length; p++)
        putchar('0' + bytes[p]);
    putchar('\n');
}

/* The privileges of a table from one on: their marks, and which of them are said, those whose byte is not 0. */
struct rest {
    const uint8_t *marks, *said;
};

/* Says the next privilege, if it is one of those; a child that its edit does not name is NULL. */
static void say_next(struct rest *r, const char *type, const char *edit, const char *child, const char *other)
{
    if (*r->said++) {
        printf("%c %s %s", *r->marks == FINNEDSCARF_ALLOWED ? '+' : '-', type, edit);
        if (child)
            printf(" %s", child);
        if (other)
            printf(" %s", other);
        putchar('\n');
    }
    r->marks++;
}

/* Says some edits of a table that was accepted, by the names of its types. */
static void say_edits(const uint16_t *words, const char *const *names, struct rest r)
{
    for (size_t t = 0; t < words[2]; t++) {
        const uint16_t *record = words + 8 + 3 * t, *children = words + words[6] + record[2];
        switch (record[0]) {
        case TEXT: say_next(&r, names[t], "text", NULL, NULL); break;
        case CHOICE:
            for (size_t i = 0; i < record[1]; i++)
                for (size_t j = 0; j < record[1]; j++)
                    if (i != j || words[0] == 2)
                        say_next(&r, names[t], "replace", names[children[i]], names[children[j]]);
            break;
        case STAR:
            say_next(&r, names[t], "insert", names[children[0]], NULL);
            say_next(&r, names[t], "delete", names[children[0]], NULL);
            if (words[0] == 2)
                say_next(&r, names[t], "replace", names[children[0]], names[children[0]]);
            break;
        }
    }
}

int main(void)
{
    static uint8_t bytes[8193], lost[8192];
    static uint16_t words[4096];
    size_t length = fread(bytes, 1, sizeof bytes, stdin);
    if (length == sizeof bytes) {
        puts("over 8,192 bytes");
        return 2;
    }

    size_t count = length / 2;
    for (size_t k = 0; k < count; k++)
        words[k] = (uint16_t)(bytes[2 * k] + 256 * bytes[2 * k + 1]);
    if (count > 1 && words[1] < count)
        count = words[1];
    const uint8_t *marks = bytes + 2 * count;
    size_t v = length - 2 * count;

    uint16_t new_numbers[OLD_TYPES];
    for (size_t t = 0; t < OLD_TYPES; t++)
        new_numbers[t] = new_number(old_names[t]);

    uint8_t out[NEW_PRIVILEGES];
    finnedscarf_outcome o =
        finnedscarf_carry_marks(words, count, marks, v, new_words, NEW_WORDS, new_numbers, OLD_TYPES, out, sizeof out, lost, v);
    if (o.number != FINNEDSCARF_DONE) {
        printf("refused with number %zu, place %zu\n", o.number, o.place);
        return 2;
    }
    say_bytes("carried", out, sizeof out);
    say_edits(new_words, new_names, (struct rest){out, out});
    say_bytes("lost", lost, v);
    say_edits(words, old_names, (struct rest){marks, lost});
    return memchr(lost, 1, v) != NULL;
}
