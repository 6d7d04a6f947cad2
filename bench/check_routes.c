/* Makes every call of crates/route_cases/stdin with the plain calls on routes, and prints as the program `route_cases` does (tests/routes/README.md). */
#include "plain.h"

#include <stdio.h>
#include <stdlib.h>

static size_t number(void)
{
    int high = getchar();
    return (size_t)high << 8 | (size_t)getchar();
}

static unsigned sum(const uint8_t *s, size_t n)
{
    unsigned total = 0;
    for (size_t i = 0; i < n; i++)
        total = (total * 31 + s[i]) % 1000003;
    return total;
}

static plain_route step(const uint8_t *bytes, size_t n, size_t at)
{
    plain_route r = plain_route_step(bytes, n, at);
    if (r.given)
        printf("route %u %u %u %zu\n", r.destination, r.width, r.router, r.next);
    else
        printf("done %zu\n", r.next);
    return r;
}

static void walk(const uint8_t *bytes, size_t n)
{
    size_t at = 0;
    for (plain_route r; r = step(bytes, n, at), r.given;)
        at = r.next;
}

static void write_routes(const uint8_t *bytes, size_t n, uint8_t *out, size_t room)
{
    plain_filled f = plain_routes_write(bytes, n, out, room);
    if (f.refusal) {
        printf("refused %u %zu rest sum %u\n", f.refusal, f.place, sum(out, room));
        return;
    }
    printf("given %zu ", f.size);
    for (size_t i = 0; i < f.size; i++)
        printf("%02x", out[i]);
    printf(" rest sum %u\n", sum(out + f.size, room - f.size));
    walk(out, f.size);
}

/* 2: every code known; 3: 121 alone; 4: every code but 121. */
static void ask(int call, const uint8_t *m, size_t n)
{
    const uint64_t bit = (uint64_t)1 << (121 - 64), all = UINT64_MAX;
    const uint64_t known[3][4] = {{all, all, all, all}, {0, bit, 0, 0}, {all, ~bit, all, all}};
    plain_ignored i = plain_routes_ignored(m, n, known[call - 2]);
    if (i.refusal)
        printf("refused %u %zu\n", i.refusal, i.place);
    else
        printf(i.ignored ? "yes\n" : "no\n");
}

int main(void)
{
    static uint8_t in[65536], out[65536];
    for (int call; (call = getchar()) != EOF;) {
        size_t room = number();
        int first = getchar();
        if (number() != 0)
            return 2;
        size_t n = number();
        if (fread(in, 1, n, stdin) != n)
            return 2;
        for (size_t i = 0; i < room; i++)
            out[i] = (uint8_t)(first + i);
        if (call == 0)
            walk(in, n);
        else if (call == 1)
            write_routes(in, n, out, room);
        else if (call <= 4)
            ask(call, in, n);
        else
            step(in, n, room);
        puts("-");
    }
    return 0;
}
