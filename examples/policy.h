/*
 * Policies in files, for the examples that read some: the table's words (low byte first) and then the marks, as samples/README.md has it.
 */
#ifndef EXAMPLES_POLICY_H
#define EXAMPLES_POLICY_H

#include <string.h>

#include "file.h"

enum { MOST = 8192 };

struct policy {
    uint8_t bytes[MOST + 1];
    uint16_t words[MOST / 2];
    size_t words_length, marks_length;
};

static void read_policy(const char *file, struct policy *p)
{
    size_t length = read_file(fopen(file, "rb"), file, p->bytes, sizeof p->bytes);
    if (length > MOST)
        stop(file, "over 8,192 bytes");

    size_t count = length / 2;
    for (size_t k = 0; k < count; k++)
        p->words[k] = (uint16_t)(p->bytes[2 * k] + 256 * p->bytes[2 * k + 1]);
    if (count > 1 && p->words[1] < count)
        count = p->words[1];
    p->words_length = count;
    p->marks_length = length - 2 * count;
}

static const uint8_t *marks_of(const struct policy *p)
{
    return p->bytes + 2 * p->words_length;
}

/* Stops if the policy of a file is not of the first one's table. */
static inline void stop_if_other(const char *file, const struct policy *first, const struct policy *own)
{
    if (own->words_length != first->words_length || memcmp(own->words, first->words, own->words_length * sizeof own->words[0]) != 0)
        stop(file, "another table than that of the first file");
    if (own->marks_length != first->marks_length)
        stop(file, "not as many marks as the first file has");
}

#endif
