/*
 * The vendor's role of samples/vendor.txt, as a store keeps it that has an allowed map and a forbidden map: mends it, completes the mended role,
 * and says both maps of each, the bit of privilege 0 first. Exits with 0, or with 2 if a call is refused.
 */
#include <stdio.h>

#include "finnedscarf.h"

enum { PRIVILEGES = 11, BYTES = (PRIVILEGES + 7) / 8 };

struct maps {
    uint8_t allowed[BYTES], forbidden[BYTES];
};

/* The schema, as it stands in samples/vendor.txt. */
static const uint16_t words[] = {1, 39, 8, 0, 8, 7, 32, 11, 4, 1, 0, 2, 3, 1, 1, 0, 4, 1, 0, 4, 3, 3, 4, 0, 0, 7, 0, 0, 7, 1, 0, 7,
                                 1, 2, 3, 4, 5, 6, 7};
enum { WORDS = sizeof words / sizeof words[0] };

/* The marks there: 0, 1, 4 and 6 are allowed, and 3, 5, 7 and 10 are forbidden. Privilege 8 has the lowest bit of byte 1. */
static const struct maps role = {{1 << 0 | 1 << 1 | 1 << 4 | 1 << 6, 0}, {1 << 3 | 1 << 5 | 1 << 7, 1 << (10 - 8)}};

static void say_map(const char *name, const uint8_t *map)
{
    printf("%-9s ", name);
    for (int p = 0; p < PRIVILEGES; p++)
        putchar('0' + (map[p / 8] >> p % 8 & 1));
    putchar('\n');
}

static void say(const struct maps *m)
{
    say_map("allowed", m->allowed);
    say_map("forbidden", m->forbidden);
}

static int refused(finnedscarf_outcome o)
{
    printf("refused with number %zu, place %zu\n", o.number, o.place);
    return 2;
}

int main(void)
{
    struct maps mended, completed;
    finnedscarf_outcome o = finnedscarf_mend_maps(words, WORDS, role.allowed, BYTES, role.forbidden, BYTES, mended.allowed, BYTES,
                                                  mended.forbidden, BYTES);
    if (o.number != FINNEDSCARF_DONE)
        return refused(o);
    printf("mended, %zu taken away\n", o.count);
    say(&mended);

    o = finnedscarf_complete_maps(words, WORDS, mended.allowed, BYTES, mended.forbidden, BYTES, completed.allowed, BYTES,
                                  completed.forbidden, BYTES);
    if (o.number != FINNEDSCARF_DONE)
        return refused(o);
    puts("completed");
    say(&completed);
    return 0;
}
