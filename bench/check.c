/* Reads crates/vectors/stdin and prints, by the plain reader alone, what crates/vectors/stdout holds. */
#include "plain.h"

#include <stdbool.h>
#include <stdio.h>
#include <stdlib.h>
#include <string.h>

enum { ROOM = 4096, UNTOUCHED = 0xA5, COPIED = 1472, SHEET = 2048 };

static const char *const kinds[] = {"",          "address",    "addresses", "pairs", "flag",  "octet", "number16",
                                    "numbers16", "unsigned32", "signed32",  "text",  "opaque",
                                    "relay", "routes"};
static const char *const fields[] = {"", "options", "file", "sname"};
static const uint64_t every[4] = {UINT64_MAX, UINT64_MAX, UINT64_MAX, UINT64_MAX};
static const uint64_t none[4];

static uint8_t m[65536];
static size_t n;
static unsigned cases;

static void hold(bool right, const char *what)
{
    if (!right) {
        fprintf(stderr, "check: case %u: %s\n", cases, what);
        exit(1);
    }
}

static bool untouched(const uint8_t *p, size_t length)
{
    for (size_t i = 0; i < length; i++)
        if (p[i] != UNTOUCHED)
            return false;
    return true;
}

/* Start is the field's first byte plus offset plus two; and what an answer does not give is 0. */
static void hold_members(plain_answer a)
{
    static const size_t first[] = {0, 240, 108, 44};
    bool refused = a.status == PLAIN_REFUSED, there = a.status != PLAIN_ABSENT && !refused;
    bool number = a.status == PLAIN_NUMBER, part = a.status == PLAIN_PART, broken = a.status == PLAIN_BROKEN;
    hold(there ? a.field >= PLAIN_OPTIONS && a.field <= PLAIN_SNAME : a.field == PLAIN_NO_FIELD, "field");
    hold(there ? a.start == first[a.field] + a.offset + 2 : a.start == 0 && a.offset == 0, "offset and start");
    hold((a.kind != PLAIN_NO_ROW) == (number || part), "kind");
    hold((a.refusal != 0) == (refused || broken), "refusal");
    hold(broken ? a.place == first[a.field] + a.offset : refused || a.place == 0, "place");
    hold(number || a.number == 0, "number");
    hold(part || a.status == PLAIN_UNKNOWN || a.length == 0, "length");
    hold(a.several <= there && (a.several || a.whole == 0), "several");
}

static unsigned long mixed(const uint8_t *p, size_t length)
{
    unsigned long sum = 0;
    for (size_t i = 0; i < length; i++)
        sum = (sum * 31 + p[i]) % 1000003;
    return sum;
}

/* A lent buffer of rising bytes, and the line of what a call gave of it. */
static uint8_t *lent(size_t room)
{
    static uint8_t out[ROOM];
    for (size_t i = 0; i < room; i++)
        out[i] = (uint8_t)(160 + i);
    return out;
}

static void given(plain_filled f, const uint8_t *out, size_t room)
{
    if (f.refusal != 0)
        printf(" refused %u %zu", f.refusal, f.place);
    else
        printf(" %zu %lu", f.size, mixed(out, f.size));
    printf(" rest %lu\n", mixed(out + f.size, room - f.size));
}

static void print_present(plain_codes p)
{
    printf("present %llu %llu %llu %llu count %u lowest %u refusal %u %zu\n", (unsigned long long)p.words[0], (unsigned long long)p.words[1],
           (unsigned long long)p.words[2], (unsigned long long)p.words[3], p.count, p.lowest, p.refusal, p.place);
}

static void print_copy(uint8_t c)
{
    uint8_t *out = lent(COPIED);
    plain_filled f = plain_copy(m, n, c, out, COPIED);
    printf("copy %u", c);
    given(f, out, COPIED);
}

static void print_records(void)
{
    uint8_t *out = lent(SHEET);
    plain_filled f = plain_records(m, n, out, SHEET);
    printf("records");
    given(f, out, SHEET);
}

/* A refused message is refused alike by every call. */
static void refused(plain_codes p)
{
    static uint8_t out[ROOM];
    memset(out, UNTOUCHED, ROOM);
    plain_filled f = plain_records(m, n, out, ROOM);
    hold(f.refusal == p.refusal && f.place == p.place && f.size == 0 && untouched(out, ROOM), "records of a refused message");
    hold((p.words[0] | p.words[1] | p.words[2] | p.words[3]) == 0 && p.count == 0 && p.lowest == 0, "codes of a refused message");
    for (unsigned c = 1; c < 255; c++) {
        plain_answer a = plain_lookup(m, n, every, (uint8_t)c);
        plain_extent e = plain_data(m, n, (uint8_t)c);
        f = plain_copy(m, n, (uint8_t)c, out, ROOM);
        hold(f.refusal == p.refusal && f.place == p.place && f.size == 0 && untouched(out, ROOM), "copy of a refused message");
        hold(a.status == PLAIN_REFUSED && a.refusal == p.refusal && a.place == p.place, "lookup in a refused message");
        hold_members(a);
        hold(e.start == 0 && e.length == 0, "data of a refused message");
    }
    printf("refused %u %zu\n", p.refusal, p.place);
    print_present(p);
    print_copy(53);
    print_records();
}

static plain_piece pieces[ROOM];
static size_t count;

/* Holds lookup, data and copy of a code to its pieces in the list. */
static void hold_pieces(plain_codes p, uint8_t c)
{
    static uint8_t joined[ROOM], out[ROOM];
    const plain_piece *first = NULL;
    size_t met = 0, whole = 0;
    for (size_t i = 0; i < count; i++)
        if (pieces[i].code == c) {
            if (met++ == 0)
                first = &pieces[i];
            memcpy(joined + whole, m + pieces[i].start, pieces[i].length);
            whole += pieces[i].length;
        }
    plain_answer a = plain_lookup(m, n, none, c);
    plain_extent e = plain_data(m, n, c);
    hold_members(a);
    memset(out, UNTOUCHED, ROOM);
    plain_filled f = plain_copy(m, n, c, out, ROOM);
    hold((p.words[c / 64] >> (c % 64) & 1) == (met > 0), "present and list");
    hold(a.status == (met > 0 ? PLAIN_UNKNOWN : PLAIN_ABSENT), "lookup and list");
    hold(met == 1 && whole > 0 ? e.start == first->start && e.length == whole : e.start == 0 && e.length == 0, "data and list");
    if (met == 0) {
        hold(f.refusal == 11 && f.place == 0 && f.size == 0 && untouched(out, ROOM), "copy of an absent code");
        return;
    }
    hold(a.field == first->field && a.offset == first->offset && a.start == first->start && a.length == whole, "first piece");
    hold(a.several == (met > 1) && a.whole == (met > 1 ? whole : 0), "several pieces");
    hold(f.refusal == 0 && f.place == 0 && f.size == whole && memcmp(out, joined, whole) == 0 && untouched(out + whole, ROOM - whole),
         "copy");
    hold(plain_copy(m, n, c, out, whole).size == whole, "copy, exact room");
    if (whole > 0) {
        memset(out, UNTOUCHED, ROOM);
        f = plain_copy(m, n, c, out, whole - 1);
        hold(f.refusal == 11 && f.place == whole - 1 && f.size == 0 && untouched(out, ROOM), "copy, too little room");
    }
}

static void accepted(plain_codes p)
{
    static uint8_t out[ROOM];
    count = plain_list(m, n, pieces);
    unsigned codes = 0;
    for (unsigned c = 1; c < 255; c++) {
        hold_pieces(p, (uint8_t)c);
        codes += p.words[c / 64] >> (c % 64) & 1;
    }
    hold(codes == p.count, "count");
    printf("accepted %zu\n", count);
    for (size_t i = 0; i < count; i++)
        printf("%u %zu %zu %s\n", pieces[i].code, pieces[i].start, pieces[i].length, fields[pieces[i].field]);
    print_present(p);
    for (size_t i = 0; i < count; i++) {
        uint8_t c = pieces[i].code;
        plain_answer a = plain_lookup(m, n, every, c);
        hold_members(a);
        if (a.status == PLAIN_NUMBER)
            printf("%u %s %lld", c, kinds[a.kind], (long long)a.number);
        else if (a.status == PLAIN_PART)
            printf("%u %s %zu", c, kinds[a.kind], a.length);
        else if (a.status == PLAIN_UNKNOWN)
            printf("%u unknown %zu", c, a.length);
        else
            printf("%u broken %u %zu", c, a.refusal, a.place);
        printf(" %s %zu %zu", fields[a.field], a.offset, a.start);
        if (a.several)
            printf(" several %zu", a.whole);
        puts("");
        print_copy(c);
    }
    memset(out, UNTOUCHED, ROOM);
    plain_filled f = plain_records(m, n, out, ROOM);
    hold(f.refusal == 0 && untouched(out + f.size, ROOM - f.size), "records");
    print_records();
    hold(plain_records(m, n, out, f.size).size == f.size, "records, exact room");
    if (f.size > 0) {
        memset(out, UNTOUCHED, ROOM);
        f = plain_records(m, n, out, f.size - 1);
        hold(f.refusal == 11 && untouched(out, ROOM), "records, too little room");
    }
}

int main(void)
{
    for (;; cases++) {
        uint8_t head[8]; /* six zeros, and the length */
        if (fread(head, 1, sizeof head, stdin) < sizeof head)
            break;
        n = (size_t)head[6] << 8 | head[7];
        if (fread(m, 1, n, stdin) != n)
            hold(false, "cut off");
        hold(plain_lookup(m, n, every, 0).refusal == 10 && plain_lookup(m, n, every, 255).refusal == 10, "lookup of 0 or 255");
        hold(plain_copy(m, n, 0, m, n).refusal == 10 && plain_copy(m, n, 255, m, n).refusal == 10, "copy of 0 or 255");
        plain_codes p = plain_present(m, n);
        if (p.refusal != 0)
            refused(p);
        else
            accepted(p);
        plain_profiled profiled = plain_profile(m, n);
        printf("profile %u refusal %u %zu\n-\n", profiled.broken, profiled.refusal, profiled.place);
    }
    return 0;
}
