/*
 * tests/read_dtd COUNT: reads the DTD text on standard input into COUNT words, each 65535 before, and prints the fields of the answer, as
 * in second/README.md, and the words as they are afterwards.
 */
#include <stdio.h>
#include <stdlib.h>

#include "finnedscarf.h"

enum { MOST = 1800 };

int main(int argc, char **argv)
{
    static uint8_t text[65538];
    static uint16_t out[MOST];
    size_t count = argc == 2 ? strtoul(argv[1], NULL, 10) : MOST + 1;
    if (count > MOST)
        return 2;
    for (size_t k = 0; k < MOST; k++)
        out[k] = 65535;
    size_t length = fread(text, 1, sizeof text, stdin);

    finnedscarf_outcome o = finnedscarf_read_dtd(text, length, out, count);
    printf("%zu %zu %zu %zu %zu %zu %zu %zu %zu %zu ", o.number, o.place, o.count, o.condition, o.type, o.i, o.j, o.privilege, o.forbidden,
           o.chain_length);
    for (size_t k = 0; k < sizeof o.chain; k++)
        printf("%02x", o.chain[k]);
    for (size_t k = 0; k < count; k++)
        printf(" %u", out[k]);
    putchar('\n');
    return 0;
}
