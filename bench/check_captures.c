/* check_captures SIZE: the report of the file of captures on standard input, by plain C, in parts of that size. */
#include "plain.h"

#include <stdio.h>
#include <stdlib.h>

int main(int argc, char **argv)
{
    static uint8_t part[65536], message[1472];
    static uint64_t verdicts[8], held[256], bytes[256];
    static char text[16384];
    size_t size = argc == 2 ? strtoul(argv[1], NULL, 10) : sizeof part, n;
    if (size == 0 || size > sizeof part)
        return 2;
    plain_captures p = plain_captures_begin();
    while ((n = fread(part, 1, size, stdin)) > 0)
        p = plain_captures_feed(p, part, n, message, verdicts, held, bytes);
    return fwrite(text, 1, plain_captures_report(p, verdicts, held, bytes, text), stdout) == 0;
}
