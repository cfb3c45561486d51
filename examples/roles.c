/*
 * roles FILE...: reads a policy from each file, the table's words (low byte first) and then the marks, all of one table, and completes them by
 * one call. Says for each file the completed marks, or the number with which that role is refused. Exits with 0 if no role is refused, 1 if
 * one is, 2 if the call is or a file cannot be taken.
 */
#include <stdio.h>
#include <stdlib.h>
#include <string.h>

#include "finnedscarf.h"
#include "policy.h"

static void say_role(const char *file, uint16_t number, const uint8_t *marks, size_t v)
{
    if (number != FINNEDSCARF_DONE) {
        printf("%s: refused with number %d\n", file, number);
        return;
    }
    printf("%s: ", file);
    for (size_t k = 0; k < v; k++)
        putchar('0' + marks[k]);
    putchar('\n');
}

int main(int argc, char **argv)
{
    static struct policy first, other;
    if (argc < 2)
        stop("usage", "roles FILE...");
    size_t roles = (size_t)argc - 1;
    uint16_t *numbers = calloc(roles, sizeof *numbers);
    uint8_t *marks = malloc(roles * MOST), *out = calloc(roles, MOST);
    if (!numbers || !marks || !out)
        stop("roles", "no memory");

    read_policy(argv[1], &first);
    size_t v = first.marks_length;
    for (size_t r = 0; r < roles; r++) {
        read_policy(argv[r + 1], &other);
        stop_if_other(argv[r + 1], &first, &other);
        memcpy(marks + r * v, marks_of(&other), v);
    }

    finnedscarf_outcome o = finnedscarf_complete_roles(first.words, first.words_length, marks, roles * v, numbers, roles, out, roles * v);
    if (o.number != FINNEDSCARF_DONE) {
        printf("refused with number %zu, place %zu\n", o.number, o.place);
        return 2;
    }
    int refused = 0;
    for (size_t r = 0; r < roles; r++) {
        say_role(argv[r + 1], numbers[r], out + r * v, v);
        refused = refused || numbers[r] != FINNEDSCARF_DONE;
    }
    return refused;
}
