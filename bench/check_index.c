/*
 * Runs the plain index on cases worked by hand from request 07 of document 02.
 *
 * Bytes are given in hex; `61*10` is ten bytes 61. They stand from 240, 108 and 44 on; all others are zero, and the cookie is right.
 */
#include "plain.h"

#include <stdio.h>
#include <stdlib.h>
#include <string.h>

enum { UNTOUCHED = 0xA5A5, NUMBERS = 300, MOST = 6, PIECES = 65535, ROOM = 1500 };

static const uint64_t every[4] = {UINT64_MAX, UINT64_MAX, UINT64_MAX, UINT64_MAX};

typedef struct {
    const char *options; /* NULL: `size` zeros, the cookie among them */
    const char *file, *sname;
    size_t size; /* 0: to the last of the options */
} text;

/* An index is built over 0xA5A5; entries that are not named are 0. */
typedef struct {
    text in;
    size_t count;
    uint32_t refusal;
    size_t place;
    struct {
        uint8_t code;
        uint16_t at;
    } entries[MOST];
} build;

#define OFFER {"35 01 05 00 33 04 00 00 0E 10 FF 0C 01 61", "", "", 0}
#define OVERLOADED {"34 01 03 2B 01 07 FF", "33 04 00 00 0E 10 2B 00 FF", "FE 00 0C 01 61 FF 35", 0}

static const build builds[] = {
    /* The place of the code's byte, 0 if absent: also what stands behind END, and in a field that is not active. */
    {{"FF", "", "", 0}, 256, 0, 0, {{0}}},
    {{"00 00 FF 01", "", "", 0}, 256, 0, 0, {{0}}},
    {OFFER, 256, 0, 0, {{53, 240}, {51, 244}}},
    {{"35 01 05 FF", "33 00 FF", "33 00 FF", 0}, 256, 0, 0, {{53, 240}}},
    {{"FE FF 33*255 FF", "", "", 1472}, 256, 0, 0, {{254, 240}}},
    {{"01 FF 0*255 02 FF 0*255 03 FF 0*255 04 FF 0*255 05 C6 0*198 06 00 FF", "", "", 0}, 256, 0, 0, {{1, 240}, {2, 497}, {3, 754}, {4, 1011}, {5, 1268}, {6, 1468}}},
    /* 65,535 if it comes in pieces, in one field or in several; 52 as any other. */
    {{"0C 00 0C 00 FF", "", "", 0}, 256, 0, 0, {{12, PIECES}}},
    {{"0C 01 61 35 01 05 0C 01 62 0C 01 63 FF", "", "", 0}, 256, 0, 0, {{12, PIECES}, {53, 243}}},
    {OVERLOADED, 256, 0, 0, {{52, 240}, {43, PIECES}, {51, 108}, {254, 44}, {12, 46}}},
    {{"34 01 02 FF", "33 00 FF", "0C 00 0C 00 FF", 0}, 256, 0, 0, {{52, 240}, {12, PIECES}}},
    /* 1, 2, 3, then 18, then the reader's. */
    {{NULL, "", "", 239}, 255, 1, 239, {{0}}},
    {{NULL, "", "", 1473}, 255, 2, 1473, {{0}}},
    {{NULL, "", "", 300}, 255, 3, 236, {{0}}},
    {OFFER, 255, 18, 255, {{0}}},
    {OFFER, 257, 18, 257, {{0}}},
    {OFFER, 0, 18, 0, {{0}}},
    {{"35 01 05", "", "", 0}, 257, 18, 257, {{0}}},
    {{"35 01 05", "", "", 0}, 256, 5, 243, {{0}}},
    {{"", "", "", 0}, 256, 5, 240, {{0}}},
    {{"35 01 05 33 04 00 FF", "", "", 0}, 256, 4, 243, {{0}}},
    {{"34 01 04 FF", "", "", 0}, 256, 6, 240, {{0}}},
    {{"34 01 01 34 01 01 FF", "FF", "", 0}, 256, 7, 243, {{0}}},
    {{"34 01 01 FF", "00", "", 0}, 256, 5, 236, {{0}}},
    {{"34 01 02 FF", "", "34 01 02 FF", 0}, 256, 6, 44, {{0}}},
};

/* A code is looked up through an index that has one entry, and zeros else. */
typedef struct {
    text in;
    size_t count;
    uint8_t code;
    uint16_t entry;
    plain_answer answer;
} sought;

#define REFUSED(number, at) {.status = PLAIN_REFUSED, .refusal = number, .place = at}
#define LEASE(from, at, first, value) \
    {.status = PLAIN_NUMBER, .kind = PLAIN_UNSIGNED32, .field = from, .offset = (at) - (first), .start = (at) + 2, .number = value}
#define BROKEN(number, from, at, first) \
    {.status = PLAIN_BROKEN, .refusal = number, .place = at, .field = from, .offset = (at) - (first), .start = (at) + 2}
/* 51 as code, length and data wherever it can stand: 53 bytes are needed. */
#define FULL {"33*60", "33*128", "33*64", 0}

static const sought lookups[] = {
    /* 0 says absent, 65,535 uses the plain walk. */
    {OFFER, 256, 51, 0, {0}},
    {OFFER, 256, 51, PIECES, LEASE(PLAIN_OPTIONS, 244, 240, 3600)},
    {OFFER, 256, 12, PIECES, {0}},
    {OVERLOADED, 256, 43, PIECES, {.status = PLAIN_PART, .kind = PLAIN_OPAQUE, .field = PLAIN_OPTIONS, .offset = 3, .start = 245, .length = 1, .whole = 1, .several = 1}},
    {{"35 01 05", "", "", 0}, 256, 53, 0, {0}},
    {{"35 01 05", "", "", 0}, 256, 53, PIECES, REFUSED(5, 243)},
    /* Any other entry: in one of the fields, active or not, behind END too, one piece of several, inside data. */
    {OFFER, 256, 51, 244, LEASE(PLAIN_OPTIONS, 244, 240, 3600)},
    {OFFER, 256, 12, 251, {.status = PLAIN_PART, .kind = PLAIN_TEXT, .field = PLAIN_OPTIONS, .offset = 11, .start = 253, .length = 1}},
    {OVERLOADED, 256, 43, 243, {.status = PLAIN_PART, .kind = PLAIN_OPAQUE, .field = PLAIN_OPTIONS, .offset = 3, .start = 245, .length = 1}},
    {OVERLOADED, 256, 43, 114, BROKEN(8, PLAIN_FILE, 114, 108)},
    {OVERLOADED, 256, 254, 44, {.status = PLAIN_UNKNOWN, .field = PLAIN_SNAME, .start = 46}},
    {{"FF", "33 04 00 00 00 07", "", 0}, 256, 51, 108, LEASE(PLAIN_FILE, 108, 108, 7)},
    {{"FF", "00*122 33 04 00 00 00 07", "", 0}, 256, 51, 230, LEASE(PLAIN_FILE, 230, 108, 7)},
    {{"FF", "", "00*58 33 04 00 00 00 07", 0}, 256, 51, 102, LEASE(PLAIN_SNAME, 102, 44, 7)},
    {{"2B 06 33 04 00 00 00 07", "", "", 0}, 256, 51, 242, LEASE(PLAIN_OPTIONS, 242, 240, 7)},
    {{"35 01 09", "", "", 0}, 256, 53, 240, BROKEN(9, PLAIN_OPTIONS, 240, 240)},
    {FULL, 256, 51, 44, BROKEN(8, PLAIN_SNAME, 44, 44)},
    {FULL, 256, 51, 55, BROKEN(8, PLAIN_SNAME, 55, 44)},
    {FULL, 256, 51, 183, BROKEN(8, PLAIN_FILE, 183, 108)},
    {FULL, 256, 51, 247, BROKEN(8, PLAIN_OPTIONS, 247, 240)},
    /* 19 at the entry: in no field, another code, length or data out of the field. */
    {OFFER, 256, 51, 1, REFUSED(19, 1)},
    {{"FF", "", "", 0}, 256, 99, 236, REFUSED(19, 236)},
    {{"FF", "", "", 0}, 256, 99, 239, REFUSED(19, 239)},
    {FULL, 256, 51, 43, REFUSED(19, 43)},
    {FULL, 256, 51, 300, REFUSED(19, 300)},
    {FULL, 256, 51, 65534, REFUSED(19, 65534)},
    {OFFER, 256, 51, 240, REFUSED(19, 240)},
    {FULL, 256, 52, 240, REFUSED(19, 240)},
    {FULL, 256, 51, 56, REFUSED(19, 56)},
    {FULL, 256, 51, 107, REFUSED(19, 107)},
    {FULL, 256, 51, 184, REFUSED(19, 184)},
    {FULL, 256, 51, 235, REFUSED(19, 235)},
    {FULL, 256, 51, 248, REFUSED(19, 248)},
    {FULL, 256, 51, 299, REFUSED(19, 299)},
    {{"FF", "00", "00*63 33", 0}, 256, 51, 107, REFUSED(19, 107)},
    {{"35 01 05", "", "", 0}, 256, 53, 241, REFUSED(19, 241)},
    /* 10, then 1, 2, 3, then 18. */
    {{NULL, "", "", 239}, 255, 0, 1, REFUSED(10, 0)},
    {OFFER, 256, 255, 251, REFUSED(10, 0)},
    {{NULL, "", "", 239}, 255, 51, 1, REFUSED(1, 239)},
    {{NULL, "", "", 1473}, 255, 51, 1, REFUSED(2, 1473)},
    {{NULL, "", "", 300}, 255, 51, 1, REFUSED(3, 236)},
    {OFFER, 255, 51, 1, REFUSED(18, 255)},
    {OFFER, 257, 51, PIECES, REFUSED(18, 257)},
    {OFFER, 0, 51, 0, REFUSED(18, 0)},
};

static size_t bytes(uint8_t *out, const char *from)
{
    size_t n = 0;
    for (char *rest; *from != 0; from = rest + strspn(rest, " ")) {
        uint8_t b = (uint8_t)strtoul(from, &rest, 16);
        size_t times = *rest == '*' ? strtoul(rest + 1, &rest, 10) : 1;
        memset(out + n, b, times);
        n += times;
    }
    return n;
}

static size_t message(uint8_t m[ROOM], const text *t)
{
    memset(m, 0, ROOM);
    if (t->options == NULL)
        return t->size;
    static const uint8_t cookie[4] = {99, 130, 83, 99};
    memcpy(m + 236, cookie, sizeof cookie);
    size_t n = 240 + bytes(m + 240, t->options);
    bytes(m + 108, t->file);
    bytes(m + 44, t->sname);
    return t->size == 0 ? n : t->size;
}

static int same(plain_answer a, plain_answer b)
{
    return a.status == b.status && a.kind == b.kind && a.refusal == b.refusal && a.field == b.field && a.number == b.number &&
           a.place == b.place && a.offset == b.offset && a.start == b.start && a.length == b.length && a.whole == b.whole &&
           a.several == b.several;
}

/* An index of the same bytes answers as the plain lookup does. */
static int answers(const uint8_t *m, size_t n, const uint16_t *index)
{
    for (unsigned c = 0; c < 256; c++)
        if (!same(plain_index_lookup(m, n, index, 256, every, (uint8_t)c), plain_lookup(m, n, every, (uint8_t)c)))
            return 0;
    return 1;
}

static int run_build(const build *b)
{
    static uint8_t m[ROOM];
    static uint16_t index[NUMBERS], expected[NUMBERS];
    size_t n = message(m, &b->in);
    for (size_t i = 0; i < NUMBERS; i++)
        index[i] = expected[i] = UNTOUCHED;
    if (b->refusal == 0)
        memset(expected, 0, 256 * sizeof expected[0]);
    for (size_t i = 0; i < MOST && b->entries[i].code != 0; i++)
        expected[b->entries[i].code] = b->entries[i].at;
    plain_filled f = plain_index_build(m, n, index, b->count);
    size_t size = b->refusal == 0 ? 512 : 0;
    if (f.refusal == b->refusal && f.place == b->place && f.size == size && memcmp(index, expected, sizeof index) == 0 &&
        (b->refusal != 0 || answers(m, n, index)))
        return 0;
    fprintf(stderr, "check_index: building %zu: refusal %u, size %zu, place %zu\n", (size_t)(b - builds), f.refusal, f.size, f.place);
    return 1;
}

static int run_lookup(const sought *s)
{
    static uint8_t m[ROOM];
    size_t n = message(m, &s->in);
    uint16_t index[NUMBERS] = {0};
    index[s->code] = s->entry;
    plain_answer a = plain_index_lookup(m, n, index, s->count, every, s->code);
    if (same(a, s->answer))
        return 0;
    fprintf(stderr, "check_index: lookup %zu: status %u, refusal %u, place %zu, start %zu\n", (size_t)(s - lookups), a.status, a.refusal,
            a.place, a.start);
    return 1;
}

int main(void)
{
    size_t of_builds = sizeof builds / sizeof builds[0], of_lookups = sizeof lookups / sizeof lookups[0];
    int wrong = 0;
    for (size_t i = 0; i < of_builds; i++)
        wrong += run_build(&builds[i]);
    for (size_t i = 0; i < of_lookups; i++)
        wrong += run_lookup(&lookups[i]);
    printf("plain_index.c: %zu cases, %d wrong\n", of_builds + of_lookups, wrong);
    return wrong != 0;
}
