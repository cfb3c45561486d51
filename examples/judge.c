/*
 * Reads a policy from standard input, the table's words (low byte first) and then the marks, and says the verdict. Exits with 0 if the
 * policy is clean, 1 if it has a breach, 2 if it is refused.
 */
#include <stdio.h>

#include "finnedscarf.h"
#include "verdict.h"

int main(void)
{
    static uint8_t bytes[8193];
    static uint16_t words[4096];
    size_t length = fread(bytes, 1, sizeof bytes, stdin);
    if (length == sizeof bytes) {
        puts("over 8,192 bytes");
        return 2;
    }

    size_t count = length / 2;
    for (size_t k = 0; k < count; k++)
        words[k] = (uint16_t)(bytes[2 * k] + 256 * bytes[2 * k + 1]);
    if (count > 1 && words[1] < count)
        count = words[1];

    finnedscarf_outcome o = finnedscarf_judge_policy(words, count, bytes + 2 * count, length - 2 * count);
    if (o.number != FINNEDSCARF_DONE) {
        printf("refused with number %zu, place %zu\n", o.number, o.place);
        return 2;
    }
    say_verdict(o);
    return o.condition != FINNEDSCARF_NONE;
}
