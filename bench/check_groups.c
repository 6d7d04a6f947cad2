/* Makes every call of crates/grouped/stdin with the plain calls on grouped sheets, and prints as the program `grouped` does (tests/grouped/README.md). */
#include "plain.h"

#include <stdio.h>
#include <stdlib.h>

static size_t number(void)
{
    int high = getchar();
    return (size_t)high << 8 | (size_t)getchar();
}

static void take(uint8_t *to, size_t n)
{
    if (fread(to, 1, n, stdin) != n)
        exit(2);
}

static unsigned sum(const uint8_t *s, size_t n)
{
    unsigned total = 0;
    for (size_t i = 0; i < n; i++)
        total = (total * 31 + s[i]) % 1000003;
    return total;
}

static void refused(uint32_t refusal, size_t place, const uint8_t *out, size_t room)
{
    printf("refused %u %zu\nbuffer sum %u\n-\n", refusal, place, sum(out, room));
}

int main(void)
{
    static uint8_t file[65536], class[65536], out[65536];
    for (int which; (which = getchar()) != EOF;) {
        size_t room = number();
        int first = getchar();
        size_t letters = number(), n = number();
        take(class, letters);
        take(file, n);
        for (size_t i = 0; i < room; i++)
            out[i] = (uint8_t)(first + i);
        if (which == 0) {
            plain_checked c = plain_check_grouped(file, n);
            if (c.refusal)
                refused(c.refusal, c.place, out, room);
            else
                printf("passed\n-\n");
            continue;
        }
        plain_filled g = which == 1   ? plain_choose(file, n, class, letters, out, room)
                         : which == 2 ? plain_group(file, n, out, room)
                                      : plain_ungroup(file, n, out, room);
        if (g.refusal) {
            refused(g.refusal, g.place, out, room);
            continue;
        }
        printf("given %zu\nbytes ", g.size);
        for (size_t i = 0; i < g.size; i++)
            printf("%02x", out[i]);
        printf("\nrest sum %u\n-\n", sum(out + g.size, room - g.size));
    }
    return 0;
}
