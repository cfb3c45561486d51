/*
 * Files, for the examples that read some.
 */
#ifndef EXAMPLES_FILE_H
#define EXAMPLES_FILE_H

#include <stdint.h>
#include <stdio.h>
#include <stdlib.h>

static void stop(const char *file, const char *what)
{
    fprintf(stderr, "%s: %s\n", file, what);
    exit(2);
}

/* Reads a file as it was opened, or as much of it as there is room for. */
static size_t read_file(FILE *from, const char *file, uint8_t *bytes, size_t room)
{
    if (!from)
        stop(file, "cannot be read");
    size_t length = fread(bytes, 1, room, from);
    if (ferror(from))
        stop(file, "cannot be read");
    fclose(from);
    return length;
}

#endif
