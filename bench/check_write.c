/*
 * Runs the plain writer on cases worked by hand from document 01 and requests 02 and 03 of document 02, each over a buffer of 0xA5.
 *
 * Bytes are given in hex; `61*10` is ten bytes 61. A field that is given is followed by zeros, one that is not given stays as it was.
 */
#include "plain.h"

#include <stdio.h>
#include <stdlib.h>
#include <string.h>

enum { UNTOUCHED = 0xA5, SIZE = 1480 };

typedef struct {
    const char *sheet;
    size_t room;
    uint8_t permission;
    uint32_t refusal;
    size_t given; /* the place of a refusal, otherwise the plan */
    const char *options, *file, *sname;
} trial;

#define MASK "01 00 04 FF FF FF 00 "
#define ROUTER "03 00 04 C0 00 02 01 "
#define TYPE "35 00 01 05 "
#define TEN "0C 00 0A 61*10 "
#define LONG(tag) tag " 00 FF 01*255 "

static const trial trials[] = {
    /* The paper's cases 9 and 10. */
    {TYPE, 244, 0, 0, 0, "35 01 05 FF", 0, 0},
    {TYPE, 243, 0, 11, 243, 0, 0, 0},
    {"33 00 04 00 00 0E 10", 244, 1, 0, 1, "34 01 01 FF", "33 04 00 00 0E 10 FF", 0},

    /* The call itself: 1, 2, 15, 16 in this order. */
    {"00*4097", 239, 4, 1, 239, 0, 0, 0},
    {"", 0, 0, 1, 0, 0, 0, 0},
    {"00*4097", 1473, 4, 2, 1473, 0, 0, 0},
    {"00*4097", 1472, 4, 15, 0, 0, 0, 0},
    {"", 300, 255, 15, 0, 0, 0, 0},
    {"00*4097", 1472, 3, 16, 4097, 0, 0, 0},
    {LONG("4D") LONG("4E") LONG("4F") LONG("50") LONG("51") LONG("52") LONG("53") LONG("54") LONG("55") LONG("56") LONG("57")
         LONG("58") LONG("59") LONG("5A") LONG("5B") "5C 00 DF 01*223", /* 4,096 bytes; 82 (hex 52) is not last */
     1472, 3, 23, 1290, 0, 0, 0},
    {LONG("4D") LONG("4E") LONG("4F") LONG("50") LONG("51") LONG("60") LONG("53") LONG("54") LONG("55") LONG("56") LONG("57")
         LONG("58") LONG("59") LONG("5A") LONG("5B") "5C 00 DF 01*223", /* 4,096 bytes */
     1472, 3, 11, 1472, 0, 0, 0},

    /* No records. 52 and END take four bytes. */
    {"", 241, 0, 0, 0, "FF", 0, 0},
    {"", 240, 0, 11, 240, 0, 0, 0},
    {"", 240, 3, 11, 240, 0, 0, 0},
    {"", 1472, 3, 0, 0, "FF", 0, 0},
    {TYPE, 243, 3, 11, 243, 0, 0, 0},

    /* 12, before 10 and 13. */
    {"0C 04 01 61*1024", 1472, 0, 12, 0, 0, 0, 0},
    {"35", 300, 0, 12, 0, 0, 0, 0},
    {"35 00", 300, 0, 12, 0, 0, 0, 0},
    {"35 00 01", 300, 0, 12, 0, 0, 0, 0},
    {"FE 00", 300, 0, 12, 0, 0, 0, 0},
    {"00 00", 300, 0, 12, 0, 0, 0, 0},
    {"FF 01 00 61*255", 300, 0, 12, 0, 0, 0, 0},
    {TYPE "0C 00 03 61 62", 300, 0, 12, 4, 0, 0, 0},

    /* 10, before 13, 7 and 8. */
    {"00 00 00", 300, 0, 10, 0, 0, 0, 0},
    {"34 00 01 01", 300, 3, 10, 0, 0, 0, 0},
    {"FF 00 00", 300, 0, 10, 0, 0, 0, 0},
    {"FF 01 00 61*256", 1472, 0, 10, 0, 0, 0, 0},
    {"FF 04 01 61*1025", 1472, 0, 10, 0, 0, 0, 0},
    {TYPE "34 00 02 09 09", 300, 0, 10, 4, 0, 0, 0},

    /* 13, before 7 and 8. */
    {"0C 04 01 61*1025", 1472, 0, 13, 0, 0, 0, 0},
    {TYPE "35 04 01 05*1025", 1472, 0, 13, 4, 0, 0, 0},
    {TYPE "35 01 00 05*256", 1472, 0, 7, 4, 0, 0, 0},
    {"35 01 00 05*256", 1472, 0, 8, 0, 0, 0, 0},
    {"21 01 00 00*256", 1472, 0, 9, 0, 0, 0, 0},
    {"0C 00 FF 61*255", 498, 0, 0, 0, "0C FF 61*255 FF", 0, 0},
    {"0C 00 FF 61*255", 497, 3, 11, 497, 0, 0, 0},

    /* 7, before 8 and 9. Codes 32 or 64 apart are not the same. */
    {TYPE TYPE, 300, 0, 7, 4, 0, 0, 0},
    {TYPE "35 00 02 05 05", 300, 0, 7, 4, 0, 0, 0},
    {TYPE "35 00 01 FF", 300, 0, 7, 4, 0, 0, 0},
    {"FE 00 00 FE 00 00", 300, 0, 7, 3, 0, 0, 0},
    {"3E 00 00 5E 00 00 7E 00 00 BE 00 00 FE 00 00", 252, 0, 0, 0, "3E 00 5E 00 7E 00 BE 00 FE 00 FF", 0, 0},

    /* 8, before 9. A code without a row has any length. */
    {"01 00 03 FF FF FF", 300, 0, 8, 0, 0, 0, 0},
    {"03 00 00", 300, 0, 8, 0, 0, 0, 0},
    {"4C 00 00", 300, 0, 8, 0, 0, 0, 0},
    {"44 00 00", 243, 0, 0, 0, "44 00 FF", 0, 0},
    {"44 00 06 C0 00 02 01 C0 00", 300, 0, 8, 0, 0, 0, 0},
    {"21 00 0C 00*12", 300, 0, 8, 0, 0, 0, 0},
    {"15 00 00", 300, 0, 8, 0, 0, 0, 0},
    {"13 00 02 02 02", 300, 0, 8, 0, 0, 0, 0},
    {"35 00 00", 300, 0, 8, 0, 0, 0, 0},
    {"0D 00 01 01", 300, 0, 8, 0, 0, 0, 0},
    {"19 00 03 00 00 00", 300, 0, 8, 0, 0, 0, 0},
    {"33 00 05 00*5", 300, 0, 8, 0, 0, 0, 0},
    {"02 00 02 00 00", 300, 0, 8, 0, 0, 0, 0},
    {"0C 00 00", 300, 0, 8, 0, 0, 0, 0},
    {"2B 00 00", 300, 0, 8, 0, 0, 0, 0},
    {TYPE "3D 00 01 01", 300, 0, 8, 4, 0, 0, 0},
    {"3D 00 02 01 02 3C 00 01 07", 248, 0, 0, 0, "3D 02 01 02 3C 01 07 FF", 0, 0},
    {"3F 00 00 4D 00 00", 245, 0, 0, 0, "3F 00 4D 00 FF", 0, 0},

    /* 9. */
    {"35 00 01 00", 300, 0, 9, 0, 0, 0, 0},
    {"35 00 01 FF", 300, 0, 9, 0, 0, 0, 0},
    {"35 00 01 08 17 00 01 FF 25 00 01 01", 300, 0, 0, 0, "35 01 08 17 01 FF 25 01 01 FF", 0, 0},
    {"17 00 01 00", 300, 0, 9, 0, 0, 0, 0},
    {"2E 00 01 03", 300, 0, 9, 0, 0, 0, 0},
    {"2E 00 01 08 13 00 01 00 27 00 01 01", 300, 0, 0, 0, "2E 01 08 13 01 00 27 01 01 FF", 0, 0},
    {"13 00 01 02", 300, 0, 9, 0, 0, 0, 0},
    {"1A 00 02 00 43", 300, 0, 9, 0, 0, 0, 0},
    {"16 00 02 02 3F", 300, 0, 9, 0, 0, 0, 0},
    {"1A 00 02 00 44 16 00 02 02 40 0D 00 02 00 00", 300, 0, 0, 0, "1A 02 00 44 16 02 02 40 0D 02 00 00 FF", 0, 0},
    {"39 00 02 02 3F", 300, 0, 9, 0, 0, 0, 0},
    {"19 00 02 00 43", 300, 0, 9, 0, 0, 0, 0},
    {"19 00 06 00 44 02 40 02 3F", 300, 0, 9, 0, 0, 0, 0},
    {"19 00 06 00 44 02 40 02 40", 300, 0, 0, 0, "19 06 00 44 02 40 02 40 FF", 0, 0},
    {"21 00 08 00 00 00 00 C0 00 02 01", 300, 0, 9, 0, 0, 0, 0},
    {"21 00 10 00 00 00 01 00*4 00*4 C0 00 02 01", 300, 0, 9, 0, 0, 0, 0},
    {"15 00 08 00*8 21 00 08 00 00 00 01 00*4", 300, 0, 0, 0, "15 08 00*8 21 08 00 00 00 01 00*4 FF", 0, 0},

    /* 9: a text has bytes from 1 to 127, trailing zeros left off; opaque data any. */
    {"0C 00 01 7F 0F 00 04 01 1F 00 00 42 00 02 00 00", 300, 0, 0, 0, "0C 01 7F 0F 04 01 1F 00 00 42 02 00 00 FF", 0, 0},
    {"0C 00 01 80", 300, 0, 9, 0, 0, 0, 0},
    {"0C 00 03 C8 61 62", 300, 0, 9, 0, 0, 0, 0},
    {"43 00 03 61 C8 62", 300, 0, 9, 0, 0, 0, 0},
    {TYPE "38 00 04 61 FF 00 00", 300, 0, 9, 4, 0, 0, 0},
    {"0E 00 03 61 00 62", 300, 0, 9, 0, 0, 0, 0},
    {"40 00 02 00 61", 300, 0, 9, 0, 0, 0, 0},
    {"0C 01 2C 61*299 80", 1472, 0, 9, 0, 0, 0, 0},
    {"0C 01 2C 61*255 00 61*44", 1472, 0, 9, 0, 0, 0, 0},
    {TEN "0C 00 01 80", 300, 0, 7, 13, 0, 0, 0},
    {"3C 00 03 C8 00 61 2B 00 01 80", 300, 0, 0, 0, "3C 03 C8 00 61 2B 01 80 FF", 0, 0},

    /* The first faulty record is named, whatever is wrong with a later one. */
    {"35 00 01 FF 00", 300, 0, 9, 0, 0, 0, 0},
    {"35 00 02 05 05 00 00 00", 300, 0, 8, 0, 0, 0, 0},

    /* 14, after every record and before 11. */
    {ROUTER MASK, 300, 0, 14, 0, 0, 0, 0},
    {TYPE ROUTER TEN MASK, 240, 0, 14, 4, 0, 0, 0},
    {ROUTER MASK "35 00 01 FF", 300, 0, 9, 14, 0, 0, 0},
    {MASK ROUTER, 253, 0, 0, 0, "01 04 FF FF FF 00 03 04 C0 00 02 01 FF", 0, 0},
    {ROUTER TYPE, 250, 0, 0, 0, "03 04 C0 00 02 01 35 01 05 FF", 0, 0},
    {TYPE MASK, 250, 0, 0, 0, "35 01 05 01 04 FF FF FF 00 FF", 0, 0},

    /* The end of options, and what is tried next. */
    {TEN, 253, 3, 0, 0, "0C 0A 61*10 FF", 0, 0},
    {TEN, 252, 0, 11, 252, 0, 0, 0},
    {TEN, 252, 1, 0, 1, "34 01 01 FF", "0C 0A 61*10 FF", 0},
    {TEN, 252, 2, 0, 2, "34 01 02 FF", 0, "0C 0A 61*10 FF"},
    {TEN, 252, 3, 0, 1, "34 01 01 FF", "0C 0A 61*10 FF", 0},
    {TYPE TEN, 247, 1, 0, 1, "34 01 01 35 01 05 FF", "0C 0A 61*10 FF", 0},
    {TYPE TEN, 246, 1, 0, 1, "34 01 01 FF", "35 01 05 0C 0A 61*10 FF", 0},
    {TYPE TEN, 247, 2, 0, 2, "34 01 02 35 01 05 FF", 0, "0C 0A 61*10 FF"},

    /* file and sname just full, and one byte short. */
    {"0C 00 7D 61*125", 244, 1, 0, 1, "34 01 01 FF", "0C 7D 61*125 FF", 0},
    {"0C 00 7E 61*126", 244, 3, 11, 244, 0, 0, 0},
    {"0C 00 3D 61*61", 244, 2, 0, 2, "34 01 02 FF", 0, "0C 3D 61*61 FF"},
    {"0C 00 3E 61*62", 244, 2, 11, 244, 0, 0, 0},
    {"0C 00 3C 61*60", 244, 3, 0, 1, "34 01 01 FF", "0C 3C 61*60 FF", 0},
    {"0C 00 3D 61*61", 244, 3, 0, 1, "34 01 01 FF", "0C 3D 61*61 FF", 0},
    {"0C 00 3E 61*62", 244, 3, 0, 1, "34 01 01 FF", "0C 3E 61*62 FF", 0},
    {"0C 00 7D 61*125", 244, 3, 0, 1, "34 01 01 FF", "0C 7D 61*125 FF", 0},
    {"0C 00 7D 61*125 0E 00 3D 62*61", 244, 3, 0, 3, "34 01 03 FF", "0C 7D 61*125 FF", "0E 3D 62*61 FF"},
    {"0C 00 7D 61*125 0E 00 3E 62*62", 244, 3, 11, 244, 0, 0, 0},
    {"0C 00 7D 61*125 0E 00 3D 62*61", 244, 1, 11, 244, 0, 0, 0},
    {"0C 00 7D 61*125 0E 00 3D 62*61", 244, 2, 11, 244, 0, 0, 0},
    {"0C 00 3D 61*61 0E 00 7D 62*125", 244, 3, 11, 244, 0, 0, 0},

    /* No going back: 53 would still fit into options. */
    {TEN "0E 00 7D 62*125 " TYPE, 260, 3, 0, 3, "34 01 03 0C 0A 61*10 FF", "0E 7D 62*125 FF", "35 01 05 FF"},
    {TEN "0E 00 7D 62*125 " TYPE, 260, 1, 11, 260, 0, 0, 0},

    /* A record over 255 bytes: pieces of 255 and a last one, the smallest buffer and a byte less. */
    {"0C 01 00 61*255 62", 501, 0, 0, 0, "0C FF 61*255 0C 01 62 FF", 0, 0},
    {"0C 01 00 61*256", 500, 3, 11, 500, 0, 0, 0},
    {"0C 01 FE 61*255 62*255", 755, 0, 0, 0, "0C FF 61*255 0C FF 62*255 FF", 0, 0},
    {"0C 01 FE 61*510", 754, 3, 11, 754, 0, 0, 0},
    {"0C 01 FF 61*255 62*255 63", 758, 3, 0, 0, "0C FF 61*255 0C FF 62*255 0C 01 63 FF", 0, 0},
    {"0C 04 00 61*255 62*255 63*255 64*255 65*4", 1275, 0, 0, 0,
     "0C FF 61*255 0C FF 62*255 0C FF 63*255 0C FF 64*255 0C 04 65*4 FF", 0, 0},
    {"0C 04 00 61*255 62*255 63*255 64*255 65*4", 1274, 3, 0, 1, "34 01 01 0C FF 61*255 0C FF 62*255 0C FF 63*255 0C FF 64*255 FF",
     "0C 04 65*4 FF", 0},
    {"0C 04 00 61*1024", 1271, 3, 11, 1271, 0, 0, 0},

    /* The last piece in file or sname, just full and one byte short; what stands behind it stays behind. */
    {"0C 01 2C 61*255 62*45", 501, 1, 0, 1, "34 01 01 0C FF 61*255 FF", "0C 2D 62*45 FF", 0},
    {"0C 01 2C 61*255 62*45 " TYPE, 510, 2, 0, 2, "34 01 02 0C FF 61*255 FF", 0, "0C 2D 62*45 35 01 05 FF"},
    {"0C 01 7C 61*255 62*125", 501, 3, 0, 1, "34 01 01 0C FF 61*255 FF", "0C 7D 62*125 FF", 0},
    {"0C 01 7D 61*255 62*126", 501, 3, 11, 501, 0, 0, 0},
    {"0C 01 3C 61*255 62*61", 501, 2, 0, 2, "34 01 02 0C FF 61*255 FF", 0, "0C 3D 62*61 FF"},
    {"0C 01 3D 61*255 62*62", 501, 2, 11, 501, 0, 0, 0},
    {"0C 01 7C 61*255 62*125 " TYPE, 501, 3, 0, 3, "34 01 03 0C FF 61*255 FF", "0C 7D 62*125 FF", "35 01 05 FF"},
    {"0C 01 2C 61*300", 500, 3, 11, 500, 0, 0, 0},

    /* Data is written whole, whatever it holds. */
    {"0C 00 03 61 62 00", 246, 0, 0, 0, "0C 03 61 62 00 FF", 0, 0},
    {"2B 00 04 FF 00 34 FF", 260, 0, 0, 0, "2B 04 FF 00 34 FF FF", 0, 0},
};

static size_t bytes(uint8_t *out, const char *text)
{
    size_t n = 0;
    for (char *rest; *text != 0; text = rest + strspn(rest, " ")) {
        uint8_t b = (uint8_t)strtoul(text, &rest, 16);
        size_t times = *rest == '*' ? strtoul(rest + 1, &rest, 10) : 1;
        memset(out + n, b, times);
        n += times;
    }
    return n;
}

static void expect_field(uint8_t *field, size_t size, const char *text)
{
    if (text != NULL) {
        memset(field, 0, size);
        bytes(field, text);
    }
}

static int run(const trial *t)
{
    static uint8_t sheet[4200], m[SIZE], expected[SIZE];
    size_t n = bytes(sheet, t->sheet);
    memset(m, UNTOUCHED, SIZE);
    memset(expected, UNTOUCHED, SIZE);
    if (t->refusal == 0) {
        expect_field(expected + 236, 4, "63 82 53 63");
        expect_field(expected + 240, t->room - 240, t->options);
        expect_field(expected + 108, 128, t->file);
        expect_field(expected + 44, 64, t->sname);
    }
    plain_wrote w = plain_write(sheet, n, m, t->room, t->permission);
    size_t place = t->refusal == 0 ? 0 : t->given;
    size_t plan = t->refusal == 0 ? t->given : 0;
    if (w.refusal == t->refusal && w.place == place && w.plan == plan && memcmp(m, expected, SIZE) == 0)
        return 0;
    fprintf(stderr, "check_write: `%s`, buffer %zu, permission %u: refusal %u, plan %u, place %zu\n", t->sheet, t->room,
            t->permission, w.refusal, w.plan, w.place);
    return 1;
}

int main(void)
{
    size_t count = sizeof trials / sizeof trials[0];
    int wrong = 0;
    for (size_t i = 0; i < count; i++)
        wrong += run(&trials[i]);
    printf("plain_write.c: %zu cases, %d wrong\n", count, wrong);
    return wrong != 0;
}
