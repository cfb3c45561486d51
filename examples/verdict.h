/*
 * A verdict in words, for the examples that say one.
 */
#ifndef EXAMPLES_VERDICT_H
#define EXAMPLES_VERDICT_H

#include <stdio.h>

#include "finnedscarf.h"

static void say_chain(finnedscarf_outcome o)
{
    printf(" (");
    for (size_t k = 0; k < o.chain_length; k++)
        printf(k == 0 ? "%d" : " to %d", o.chain[k]);
    putchar(')');
}

static void say_breach(finnedscarf_outcome o)
{
    switch (o.condition) {
    case FINNEDSCARF_INSERT_DELETE:
        printf("condition 1 at type %zu: insert and delete, or in format 2 replace, are allowed, and privilege %zu, which they can "
               "imitate, is forbidden",
               o.type, o.privilege);
        break;
    case FINNEDSCARF_CHAIN:
        printf("condition 2 at type %zu: allowed replacements lead from position %zu to %zu", o.type, o.i, o.j);
        say_chain(o);
        printf(", and privilege %zu, that replacement, is forbidden", o.privilege);
        break;
    case FINNEDSCARF_CYCLE:
        printf("condition 3 at type %zu: allowed replacements lead from position %zu back to it", o.type, o.i);
        say_chain(o);
        printf(", and privilege %zu below the child there is forbidden", o.privilege);
        break;
    }
    if (o.forbidden > 1)
        printf(", the lowest of %zu", o.forbidden);
    putchar('\n');
}

/* Says the verdict of a call that is done. */
static void say_verdict(finnedscarf_outcome o)
{
    if (o.condition == FINNEDSCARF_NONE)
        puts("clean");
    else
        say_breach(o);
}

#endif
