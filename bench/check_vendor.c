/*
 * Runs the plain reader and writer of vendor information on cases worked by hand from request 05 of document 02, each over 0xA5.
 *
 * Bytes are given in hex; `61*10` is ten bytes 61. What is given is followed by bytes as they were.
 */
#include "plain.h"

#include <stdio.h>
#include <stdlib.h>
#include <string.h>

enum { UNTOUCHED = 0xA5, SIZE = 5000 };

typedef plain_filled call(const uint8_t *, size_t, uint8_t *, size_t);

typedef struct {
    call *make;
    const char *in;
    size_t room;
    uint32_t refusal;
    size_t place;
    const char *out; /* NULL: refused */
} trial;

#define READ plain_vendor_records
#define WRITE plain_vendor_write

static const trial trials[] = {
    /* Nothing; the bytes run out between items; 255 ends, and what follows is not read. */
    {READ, "", 0, 0, 0, ""},
    {READ, "00 00", 0, 0, 0, ""},
    {READ, "FF", 0, 0, 0, ""},
    {READ, "FF 01", 0, 0, 0, ""},
    {READ, "01 01 07", 4, 0, 0, "01 00 01 07"},
    {READ, "01 01 07 FF 09", 9, 0, 0, "01 00 01 07"},
    {READ, "00 01 00 00 02 01 00 00", 9, 0, 0, "01 00 00 02 00 01 00"},
    /* Any code, 52 too, and again; 255 and 0 as data. */
    {READ, "34 01 FF 34 02 00 FF FE 00", 12, 0, 0, "34 00 01 FF 34 00 02 00 FF FE 00 00"},
    {READ, "07 FF 01*255", 258, 0, 0, "07 00 FF 01*255"},
    {READ, "07 FF 01*255 07 FF 02*255", 600, 0, 0, "07 00 FF 01*255 07 00 FF 02*255"},
    /* 17 at the code, before 11. */
    {READ, "01", 9, 17, 0, NULL},
    {READ, "01 00 02", 9, 17, 2, NULL},
    {READ, "00 01 02 07", 0, 17, 1, NULL},
    {READ, "01 00 07 FF 01*254", 0, 17, 2, NULL},
    /* 11 with the sheet's length. */
    {READ, "01 01 07", 3, 11, 3, NULL},
    {READ, "01 00", 0, 11, 0, NULL},

    {WRITE, "", 0, 0, 0, ""},
    {WRITE, "01 00 01 07", 3, 0, 0, "01 01 07"},
    {WRITE, "34 00 00 34 00 01 FF FE 00 00", 9, 0, 0, "34 00 34 01 FF FE 00"},
    /* 16, then record by record 12, 10, 13. */
    {WRITE, "00*4097", 0, 16, 4097, NULL},
    {WRITE, "00*4096", 0, 10, 0, NULL},
    {WRITE, "00", 9, 12, 0, NULL},
    {WRITE, "00 00", 9, 12, 0, NULL},
    {WRITE, "FF 00 01", 9, 12, 0, NULL},
    {WRITE, "01 00 00 02 01 00 61*255", 9, 12, 3, NULL},
    {WRITE, "01 00 00 00 00 00", 9, 10, 3, NULL},
    {WRITE, "FF 01 00 61*256", 9, 10, 0, NULL},
    {WRITE, "01 01 00 61*256", 9, 13, 0, NULL},
    {WRITE, "01 00 00 01 04 00 61*1024", 0, 13, 3, NULL},
    {WRITE, "01 01 00 61*256 00 00 00", 9, 13, 0, NULL},
    /* 11 with the output's length: the output too small, or over 255 bytes. */
    {WRITE, "01 00 01 07", 2, 11, 2, NULL},
    {WRITE, "01 00 00", 0, 11, 0, NULL},
    {WRITE, "01 00 FD 61*253", 255, 0, 0, "01 FD 61*253"},
    {WRITE, "01 00 FD 61*253", 254, 11, 254, NULL},
    {WRITE, "01 00 FE 61*254", 300, 11, 300, NULL},
    {WRITE, "01 00 FF 61*255", 300, 11, 300, NULL},
    {WRITE, "01 00 7D 61*125 02 00 7E 62*126", 300, 0, 0, "01 7D 61*125 02 7E 62*126"},
    {WRITE, "01 00 7D 61*125 02 00 7F 62*127", 300, 11, 300, NULL},
};

static size_t bytes(uint8_t *out, const char *text)
{
    size_t n = 0;
    for (char *rest; *text != 0; text = rest + strspn(rest, " ")) {
        uint8_t b = (uint8_t)strtoul(text, &rest, 16);
        size_t times = *rest == '*' ? strtoul(rest + 1, &rest, 10) : 1;
        memset(out + n, b, times);
        n += times;
    }
    return n;
}

static int run(const trial *t)
{
    static uint8_t in[SIZE], out[SIZE], expected[SIZE];
    size_t n = bytes(in, t->in);
    memset(out, UNTOUCHED, SIZE);
    memset(expected, UNTOUCHED, SIZE);
    size_t size = t->out == NULL ? 0 : bytes(expected, t->out);
    plain_filled f = t->make(in, n, out, t->room);
    if (f.refusal == t->refusal && f.place == t->place && f.size == size && memcmp(out, expected, SIZE) == 0)
        return 0;
    fprintf(stderr, "check_vendor: `%s`, room %zu: refusal %u, size %zu, place %zu\n", t->in, t->room, f.refusal, f.size, f.place);
    return 1;
}

int main(void)
{
    size_t count = sizeof trials / sizeof trials[0];
    int wrong = 0;
    for (size_t i = 0; i < count; i++)
        wrong += run(&trials[i]);
    printf("plain_vendor.c: %zu cases, %d wrong\n", count, wrong);
    return wrong != 0;
}
