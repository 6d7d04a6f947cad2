/*
 * Runs the plain reader and writer of relay information on cases worked by hand from request 09 of document 02, each over 0xA5.
 *
 * Bytes are given in hex; `61*10` is ten bytes 61. What is given is followed by bytes as they were.
 */
#include "plain.h"

#include <stdio.h>
#include <stdlib.h>
#include <string.h>

enum { UNTOUCHED = 0xA5, SIZE = 5000 };

/* What is to be read: records, or a refusal; and the parts of circuit id and remote id, a start of 0 where there is none. */
typedef struct {
    const char *in;
    size_t room;
    uint32_t refusal;
    size_t place;
    const char *out; /* NULL: refused */
    size_t circuit_start, circuit_length, remote_start, remote_length;
} reading;

static const reading readings[] = {
    /* Circuit id and remote id, where their data stand; in either order, each alone, neither. */
    {"01 02 0A 0B 02 01 0C", 9, 0, 0, "01 00 02 0A 0B 02 00 01 0C", 2, 2, 6, 1},
    {"02 01 0C 01 02 0A 0B", 9, 0, 0, "02 00 01 0C 01 00 02 0A 0B", 5, 2, 2, 1},
    {"01 01 07", 9, 0, 0, "01 00 01 07", 2, 1, 0, 0},
    {"02 01 07", 9, 0, 0, "02 00 01 07", 0, 0, 2, 1},
    {"09 03 01 01 02", 9, 0, 0, "09 00 03 01 01 02", 0, 0, 0, 0},
    /* The first of that code, of length 0 too. */
    {"01 00 01 01 07 02 01 08 02 00", 30, 0, 0, "01 00 00 01 00 01 07 02 00 01 08 02 00 00", 2, 0, 7, 1},
    /* No pads, no END: 0 and 255 are codes. In order, and again. */
    {"00 00", 3, 0, 0, "00 00 00", 0, 0, 0, 0},
    {"FF 00 01 00", 9, 0, 0, "FF 00 00 01 00 00", 4, 0, 0, 0},
    {"00 01 FF FF 02 00 FF 00 00", 30, 0, 0, "00 00 01 FF FF 00 02 00 FF 00 00 00", 0, 0, 0, 0},
    {"07 FF 61*255", 258, 0, 0, "07 00 FF 61*255", 0, 0, 0, 0},
    {"07 FF 61*255 01 FF 62*255", 600, 0, 0, "07 00 FF 61*255 01 00 FF 62*255", 259, 255, 0, 0},
    /* 8: no sub-options at all at 0; one that runs past at its code, before 11. */
    {"", 0, 8, 0, NULL, 0, 0, 0, 0},
    {"", 9, 8, 0, NULL, 0, 0, 0, 0},
    {"01", 9, 8, 0, NULL, 0, 0, 0, 0},
    {"01 01", 9, 8, 0, NULL, 0, 0, 0, 0},
    {"01 00 00", 9, 8, 2, NULL, 0, 0, 0, 0},
    {"01 00 FF", 9, 8, 2, NULL, 0, 0, 0, 0},
    {"01 01 07 02 02 08", 0, 8, 3, NULL, 0, 0, 0, 0},
    {"01 FF 61*254", 300, 8, 0, NULL, 0, 0, 0, 0},
    /* 11 with the sheet's length. */
    {"01 01 07", 3, 11, 3, NULL, 0, 0, 0, 0},
    {"01 00", 0, 11, 0, NULL, 0, 0, 0, 0},
    {"01 00 02 00", 5, 11, 5, NULL, 0, 0, 0, 0},
};

typedef struct {
    const char *in;
    size_t room;
    uint32_t refusal;
    size_t place;
    const char *out; /* NULL: refused */
} writing;

static const writing writings[] = {
    {"01 00 02 0A 0B 02 00 01 0C", 7, 0, 0, "01 02 0A 0B 02 01 0C"},
    /* No tag is a 10. */
    {"00 00 00 FF 00 01 FF 34 00 00 00 00 00", 30, 0, 0, "00 00 FF 01 FF 34 00 00 00"},
    /* No sub-options at all. */
    {"", 0, 8, 0, NULL},
    {"", 9, 8, 0, NULL},
    /* 16, then record by record 12, 13. */
    {"00*4097", 0, 16, 4097, NULL},
    {"00*4096", 0, 12, 4095, NULL},
    {"00", 9, 12, 0, NULL},
    {"01 00", 9, 12, 0, NULL},
    {"01 00 01", 9, 12, 0, NULL},
    {"01 00 00 02 01 00 61*255", 9, 12, 3, NULL},
    {"01 01 00 61*256", 9, 13, 0, NULL},
    {"FF 00 00 01 04 00 61*1024", 0, 13, 3, NULL},
    {"01 01 00 61*256 02", 9, 13, 0, NULL},
    /* 11 with the output's length: the output too small, or over 255 bytes. */
    {"01 00 01 07", 2, 11, 2, NULL},
    {"01 00 00", 0, 11, 0, NULL},
    {"01 00 FD 61*253", 255, 0, 0, "01 FD 61*253"},
    {"01 00 FD 61*253", 254, 11, 254, NULL},
    {"01 00 FE 61*254", 300, 11, 300, NULL},
    {"01 00 FF 61*255", 300, 11, 300, NULL},
    {"01 00 7D 61*125 02 00 7E 62*126", 300, 0, 0, "01 7D 61*125 02 7E 62*126"},
    {"01 00 7D 61*125 02 00 7F 62*127", 300, 11, 300, NULL},
};

static size_t bytes(uint8_t *out, const char *text)
{
    size_t n = 0;
    for (char *rest; *text != 0; text = rest + strspn(rest, " ")) {
        uint8_t b = (uint8_t)strtoul(text, &rest, 16);
        size_t times = *rest == '*' ? strtoul(rest + 1, &rest, 10) : 1;
        memset(out + n, b, times);
        n += times;
    }
    return n;
}

static uint8_t in[SIZE], out[SIZE], expected[SIZE];

/* Sets the three, and gives what is to be given. */
static size_t begin(const char *given)
{
    memset(out, UNTOUCHED, SIZE);
    memset(expected, UNTOUCHED, SIZE);
    return given == NULL ? 0 : bytes(expected, given);
}

static int read_one(const reading *t)
{
    size_t n = bytes(in, t->in), size = begin(t->out);
    plain_relay r = plain_relay_records(in, n, out, t->room);
    int right = r.refusal == t->refusal && r.place == t->place && r.size == size && memcmp(out, expected, SIZE) == 0;
    right &= r.circuit_start == t->circuit_start && r.circuit_length == t->circuit_length;
    right &= r.remote_start == t->remote_start && r.remote_length == t->remote_length;
    if (!right)
        fprintf(stderr, "check_relay: reading `%s`, room %zu: refusal %u, size %zu, place %zu\n", t->in, t->room, r.refusal, r.size, r.place);
    return !right;
}

static int write_one(const writing *t)
{
    size_t n = bytes(in, t->in), size = begin(t->out);
    plain_filled f = plain_relay_write(in, n, out, t->room);
    int right = f.refusal == t->refusal && f.place == t->place && f.size == size && memcmp(out, expected, SIZE) == 0;
    if (!right)
        fprintf(stderr, "check_relay: writing `%s`, room %zu: refusal %u, size %zu, place %zu\n", t->in, t->room, f.refusal, f.size, f.place);
    return !right;
}

int main(void)
{
    size_t reads = sizeof readings / sizeof readings[0], writes = sizeof writings / sizeof writings[0];
    int wrong = 0;
    for (size_t i = 0; i < reads; i++)
        wrong += read_one(&readings[i]);
    for (size_t i = 0; i < writes; i++)
        wrong += write_one(&writings[i]);
    printf("plain_relay.c: %zu cases, %d wrong\n", reads + writes, wrong);
    return wrong != 0;
}
