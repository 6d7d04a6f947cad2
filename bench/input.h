/* Takes a message or a sheet from a file. */
#ifndef INPUT_H
#define INPUT_H

#include <stdint.h>
#include <stdio.h>
#include <stdlib.h>

static void fail(const char *what, const char *which)
{
    fprintf(stderr, "%s: %s\n", what, which);
    exit(1);
}

static size_t take(const char *name, uint8_t *out, size_t room)
{
    FILE *f = fopen(name, "rb");
    if (f == NULL)
        fail("not readable", name);
    size_t n = fread(out, 1, room, f);
    fclose(f);
    return n;
}

#endif
