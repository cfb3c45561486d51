/*
 * Completes very many roles by one call: more of them than 16 bits count, and with more marks in all than 16 or 32 bits count. All marks of a
 * role are alike, 0 to 4 in turn, so that it is known what comes of it: all unset or all forbidden is completed to all forbidden, all allowed
 * stays, and 3 and 4 are refused. (65,536 is no multiple of five: a role read or written at another one's place is seen.)
 */
#include <stdio.h>
#include <string.h>

#include "finnedscarf.h"

enum { MOST = 1048577, KEPT = 7, NUMBER_KEPT = 65535, KINDS = 5 };
enum { EMPTY = 0, TEXT = 1, SEQUENCE = 2, CHOICE = 3 };

static uint16_t words[379], numbers[MOST];
static uint8_t marks[MOST], out[MOST];

/* V and what is lent, as lengths, and the number of the answer. */
struct call {
    size_t v, roles, marks, out, number;
};
static const struct call calls[] = {
    {0, 1048577, 0, 0, FINNEDSCARF_DONE},
    {0, 1048577, 0, 3, FINNEDSCARF_DONE},
    {0, 1048577, 1, 3, FINNEDSCARF_MARKS_LENGTH},
    {1, 70000, 70000, 70000, FINNEDSCARF_DONE},
    {1, 70000, 70000, 70005, FINNEDSCARF_DONE},
    {4096, 17, 69632, 69632, FINNEDSCARF_DONE},
    /* 65,536 too few */
    {1, 70000, 4464, 70000, FINNEDSCARF_MARKS_LENGTH},
    {1, 70000, 70000, 4464, FINNEDSCARF_SHORT},
    {4096, 16, 0, 0, FINNEDSCARF_MARKS_LENGTH},
    {4096, 17, 4096, 4096, FINNEDSCARF_MARKS_LENGTH},
    {4096, 17, 69632, 4096, FINNEDSCARF_SHORT},
    /* 4,294,967,296 too few */
    {4096, 1048576, 0, 0, FINNEDSCARF_MARKS_LENGTH},
    {4096, 1048577, 4096, 4096, FINNEDSCARF_MARKS_LENGTH},
};

/* A lone empty type or a lone text: V is 0 or 1. */
static size_t write_lone(size_t v)
{
    const uint16_t table[11] = {1, 11, 1, 0, 8, 0, 11, (uint16_t)v, v ? TEXT : EMPTY, 0, 0};
    memcpy(words, table, sizeof table);
    return 11;
}

/* In format 2, a sequence of 16 choices, each of the same 16 empty types: V is 4,096. */
static size_t write_largest(void)
{
    const uint16_t header[11] = {2, 379, 33, 0, 8, 272, 107, 4096, SEQUENCE, 16, 0};
    memcpy(words, header, sizeof header);
    for (uint16_t t = 1; t < 33; t++) {
        uint16_t *record = words + 8 + 3 * t;
        record[0] = t < 17 ? CHOICE : EMPTY;
        record[1] = t < 17 ? 16 : 0;
        record[2] = t < 17 ? 16 * t : 272;
    }
    for (uint16_t k = 0; k < 272; k++)
        words[107 + k] = k < 16 ? 1 + k : 17 + k % 16;
    return 379;
}

static uint16_t number_of(struct call c, size_t r)
{
    if (c.number != FINNEDSCARF_DONE || r >= c.roles)
        return NUMBER_KEPT;
    return c.v && r % KINDS > FINNEDSCARF_FORBIDDEN ? FINNEDSCARF_MARK : FINNEDSCARF_DONE;
}

static uint8_t byte_of(struct call c, size_t k)
{
    static const uint8_t completed[KINDS] = {FINNEDSCARF_FORBIDDEN, FINNEDSCARF_ALLOWED, FINNEDSCARF_FORBIDDEN, KEPT, KEPT};
    return c.number == FINNEDSCARF_DONE && k < c.roles * c.v ? completed[k / c.v % KINDS] : KEPT;
}

static int is_right(struct call c)
{
    size_t length = c.v < 2 ? write_lone(c.v) : write_largest();
    for (size_t k = 0; k < c.marks; k++)
        marks[k] = c.v ? (uint8_t)(k / c.v % KINDS) : FINNEDSCARF_UNSET;
    for (size_t r = 0; r < MOST; r++)
        numbers[r] = NUMBER_KEPT;
    memset(out, KEPT, sizeof out);

    finnedscarf_outcome o = finnedscarf_complete_roles(words, length, marks, c.marks, numbers, c.roles, out, c.out);
    int right = o.number == c.number && !o.place && !o.count && !o.condition;
    for (size_t r = 0; r < MOST; r++)
        right = right && numbers[r] == number_of(c, r);
    for (size_t k = 0; k < MOST; k++)
        right = right && out[k] == byte_of(c, k);
    return right;
}

int main(void)
{
    for (size_t k = 0; k < sizeof calls / sizeof calls[0]; k++) {
        struct call c = calls[k];
        if (!is_right(c)) {
            printf("tests/many_roles: V %zu, %zu roles, %zu marks, a result of %zu: not as known\n", c.v, c.roles, c.marks, c.out);
            return 1;
        }
    }
    return 0;
}
