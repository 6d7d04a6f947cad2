/*
 * stream plain|rust|library: takes the file of captures on standard input, 64 KiB at a time, and prints how many MB a second that was.
 * The library's side is left out unless LIBRARY is defined, Rust's unless RUST is.
 */
#define _POSIX_C_SOURCE 199309L

#include "dhcpopt.h"
#include "plain.h"

#include <stdio.h>
#include <string.h>
#include <time.h>
#include <unistd.h>

static uint8_t part[65536], message[1472];
static uint64_t verdicts[8], held[256], bytes[256];

static void feed_plain(size_t n)
{
    static plain_captures p;
    p = plain_captures_feed(p, part, n, message, verdicts, held, bytes);
}

#ifdef LIBRARY
static void feed_library(size_t n)
{
    static dhcpopt_captures p;
    p = dhcpopt_captures_feed(part, n, p, message, verdicts, held, bytes);
}
#else
#define feed_library NULL
#endif

#ifdef RUST
void *independent_captures_begin(void);
void independent_captures_feed(void *tally, const uint8_t *part, size_t n);
static void feed_rust(size_t n)
{
    static void *tally;
    if (tally == NULL)
        tally = independent_captures_begin();
    independent_captures_feed(tally, part, n);
}
#else
#define feed_rust NULL
#endif

int main(int argc, char **argv)
{
    static const struct {
        const char *name;
        void (*feed)(size_t);
    } sides[] = {{"plain", feed_plain}, {"rust", feed_rust}, {"library", feed_library}};
    struct timespec a, b;
    size_t total = 0;
    ssize_t n;
    void (*feed)(size_t) = NULL;
    for (size_t k = 0; k < 3; k++)
        if (argc == 2 && strcmp(argv[1], sides[k].name) == 0)
            feed = sides[k].feed;
    if (feed == NULL)
        return 2;
    clock_gettime(CLOCK_MONOTONIC, &a);
    while ((n = read(0, part, sizeof part)) > 0) {
        feed((size_t)n);
        total += (size_t)n;
    }
    clock_gettime(CLOCK_MONOTONIC, &b);
    printf("%.0f\n", (double)total / 1e6 / ((double)(b.tv_sec - a.tv_sec) + (double)(b.tv_nsec - a.tv_nsec) / 1e9));
    return 0;
}
