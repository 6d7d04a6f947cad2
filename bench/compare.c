/*
 * compare messages FILE...   makes every reading call on each message by the library and in plain C, and stops where they differ;
 *                            looks up three codes also with any byte changed
 * compare index FILE...      builds an index of each message with both, also with any byte changed, and looks up every code through it and through
 *                            others; an index of the same bytes must give the answers of the plain lookup
 * compare profile FILE...    judges each message by the reply profile with both: also with any byte changed, and with codes turned into one another
 * compare grouped FILE...    checks each grouped file, chooses from it and takes it back with both: cut off anywhere, any byte changed; its
 *                            bytes moved as a sheet
 * compare captures FILE...   takes a file of three records of the message, of which any byte is changed, with both, cut into two parts: the
 *                            numbers and the reports
 * compare sheets FILE...     writes each sheet with both: every buffer size, every permission, cut off anywhere, any byte changed
 * compare relay FILE...      the same as sub-options
 * compare routes FILE...     walks each as routes with both, from every place, and writes it as nine bytes a route: every room, cut off anywhere, any byte
 *                            changed; asks each as a message whether 3 and 33 are ignored, with any byte changed
 * compare vendor FILE...     reads each as items with both, and writes it as records of items: every room, cut off anywhere, any byte changed
 */
#include "input.h"
#include "dhcpopt.h"
#include "plain.h"

#include <string.h>

enum { ROOM = 4096, FILE_ROOM = 4104, COPY_ROOM = 1480, UNTOUCHED = 0xA5, LONGEST = 1472 };

static uint8_t in[FILE_ROOM];
static size_t size;

static const uint64_t every[4] = {UINT64_MAX, UINT64_MAX, UINT64_MAX, UINT64_MAX};

static void compare_answers(const char *name, uint8_t code, plain_answer p, dhcpopt_answer l)
{
    if (p.status != l.status || p.kind != l.kind || p.refusal != l.refusal || p.field != l.field || p.number != l.number ||
        p.place != l.place || p.offset != l.offset || p.start != l.start || p.length != l.length || p.whole != l.whole ||
        p.several != l.several) {
        fprintf(stderr,
                "lookup of %u: plain %u %u %u %u %lld %zu %zu %zu %zu %zu %u, library %u %u %u %u %lld %zu %zu %zu %zu %zu %u\n", code,
                p.status, p.kind, p.refusal, p.field, (long long)p.number, p.place, p.offset, p.start, p.length, p.whole, p.several,
                l.status, l.kind, l.refusal, l.field, (long long)l.number, l.place, l.offset, l.start, l.length, l.whole, l.several);
        fail("answers differ", name);
    }
}

static void compare_lookup(const char *name, const uint64_t known[4], uint8_t code)
{
    compare_answers(name, code, plain_lookup(in, size, known, code),
                    dhcpopt_lookup(in, size, known[0], known[1], known[2], known[3], code));
}

/* Through an index of count numbers; fresh: it was built from the same bytes. */
static void compare_indexed(const char *name, const uint16_t *index, size_t count, const uint64_t known[4], uint8_t code, int fresh)
{
    dhcpopt_answer l = dhcpopt_index_lookup(in, size, index, count, known[0], known[1], known[2], known[3], code);
    compare_answers(name, code, plain_index_lookup(in, size, index, count, known, code), l);
    if (fresh)
        compare_answers(name, code, plain_lookup(in, size, known, code), l);
}

/* Both build into count numbers; the index is left there. */
static uint32_t compare_build(const char *name, uint16_t index[258], size_t count)
{
    static uint16_t a[258], b[258];
    memset(a, UNTOUCHED, sizeof a);
    memset(b, UNTOUCHED, sizeof b);
    plain_filled p = plain_index_build(in, size, a, count);
    dhcpopt_filled l = dhcpopt_index_build(in, size, b, count);
    if (p.refusal != l.refusal || p.size != l.size || p.place != l.place || memcmp(a, b, sizeof a) != 0)
        fail("indexes differ", name);
    memcpy(index, b, sizeof b);
    return l.refusal;
}

static void compare_index(const char *name)
{
    static const uint64_t some[4] = {0x5555555555555555, 0x3333333333333333, 0x0F0F0F0F0F0F0F0F, 0x00FF00FF00FF00FF};
    static uint16_t fresh[258], any[258];
    compare_build(name, fresh, 0);
    compare_build(name, fresh, 255);
    compare_build(name, fresh, 257);
    uint32_t refusal = compare_build(name, fresh, 256);
    for (unsigned c = 0; c < 256; c++) {
        compare_indexed(name, fresh, 256, every, (uint8_t)c, refusal == 0);
        compare_indexed(name, fresh, 256, some, (uint8_t)c, refusal == 0);
        compare_indexed(name, fresh, 255, every, (uint8_t)c, 0);
        compare_indexed(name, fresh, 257, every, (uint8_t)c, 0);
    }
    /* Every entry that a message may have, and past it: the code that stands there, another, and all that stand in the message. */
    for (unsigned e = 0; e <= 65535; e = e == size + 300 ? 65530 : e + 1) {
        for (unsigned c = 0; c < 256; c++)
            any[c] = (uint16_t)e;
        compare_indexed(name, any, 256, every, e < size ? in[e] : 51, 0);
        compare_indexed(name, any, 256, every, 51, 0);
        compare_indexed(name, any, 256, some, 43, 0);
    }
    /* A byte changed: the old index, and one that is built anew. */
    for (size_t i = 44; i < size; i++) {
        uint8_t was = in[i];
        for (unsigned x = 0; x < 256; x += 15) {
            in[i] = (uint8_t)x;
            refusal = compare_build(name, any, 256);
            static const uint8_t codes[] = {0, 1, 12, 43, 51, 52, 53, 255};
            for (size_t k = 0; k < sizeof codes; k++) {
                compare_indexed(name, fresh, 256, every, codes[k], 0);
                compare_indexed(name, any, 256, every, codes[k], refusal == 0);
            }
            compare_indexed(name, fresh, 256, every, was, 0);
            compare_indexed(name, any, 256, every, (uint8_t)x, refusal == 0);
        }
        in[i] = was;
    }
}

static void compare_copy(const char *name, uint8_t code, size_t room)
{
    static uint8_t a[COPY_ROOM], b[COPY_ROOM];
    memset(a, UNTOUCHED, COPY_ROOM);
    memset(b, UNTOUCHED, COPY_ROOM);
    plain_filled p = plain_copy(in, size, code, a, room);
    dhcpopt_filled l = dhcpopt_copy(in, size, code, b, room);
    if (p.refusal != l.refusal || p.size != l.size || p.place != l.place || memcmp(a, b, COPY_ROOM) != 0)
        fail("copies differ", name);
}

static void compare_records(const char *name, size_t room)
{
    static uint8_t a[ROOM], b[ROOM];
    memset(a, UNTOUCHED, ROOM);
    memset(b, UNTOUCHED, ROOM);
    plain_filled p = plain_records(in, size, a, room);
    dhcpopt_filled l = dhcpopt_records(in, size, b, room);
    if (p.refusal != l.refusal || p.size != l.size || p.place != l.place || memcmp(a, b, ROOM) != 0)
        fail("records differ", name);
}

static void compare_message(const char *name)
{
    static const uint64_t none[4];
    static const uint64_t some[4] = {0x5555555555555555, 0x3333333333333333, 0x0F0F0F0F0F0F0F0F, 0x00FF00FF00FF00FF};
    static uint8_t out[ROOM];
    for (unsigned c = 0; c < 256; c++) {
        compare_lookup(name, every, (uint8_t)c);
        compare_lookup(name, none, (uint8_t)c);
        compare_lookup(name, some, (uint8_t)c);
        plain_extent p = plain_data(in, size, (uint8_t)c);
        dhcpopt_extent l = dhcpopt_data(in, size, (uint8_t)c);
        if (p.start != l.start || p.length != l.length)
            fail("data differs", name);
        plain_filled f = plain_copy(in, size, (uint8_t)c, out, ROOM);
        compare_copy(name, (uint8_t)c, LONGEST);
        compare_copy(name, (uint8_t)c, f.size);
        if (f.size > 0)
            compare_copy(name, (uint8_t)c, f.size - 1);
        compare_copy(name, (uint8_t)c, 0);
    }
    plain_codes p = plain_present(in, size);
    dhcpopt_codes l = dhcpopt_present(in, size);
    if (memcmp(p.words, l.words, sizeof p.words) != 0 || p.count != l.count || p.lowest != l.lowest || p.refusal != l.refusal ||
        p.place != l.place)
        fail("codes present differ", name);
    plain_filled f = plain_records(in, size, out, ROOM);
    compare_records(name, ROOM);
    compare_records(name, f.size);
    if (f.size > 0)
        compare_records(name, f.size - 1);
    compare_records(name, 0);
}

/* Any byte behind the header changed to any other: 51 and 43, which most of these messages hold, and the code that the byte may now be. */
static void compare_changed(const char *name)
{
    for (size_t i = 44; i < size; i++) {
        uint8_t was = in[i];
        for (unsigned x = 0; x < 256; x++) {
            in[i] = (uint8_t)x;
            compare_lookup(name, every, 51);
            compare_lookup(name, every, 43);
            compare_lookup(name, every, (uint8_t)x);
        }
        in[i] = was;
    }
}

/* Both write the first n bytes of the sheet. */
static void compare_write(const char *name, size_t n, size_t room, uint8_t permission)
{
    static uint8_t a[LONGEST + 8], b[LONGEST + 8];
    memset(a, UNTOUCHED, sizeof a);
    memset(b, UNTOUCHED, sizeof b);
    plain_wrote p = plain_write(in, n, a, room, permission);
    dhcpopt_wrote l = dhcpopt_write(in, n, b, room, permission);
    if (p.refusal != l.refusal || p.plan != l.plan || p.place != l.place || memcmp(a, b, sizeof a) != 0) {
        fprintf(stderr, "write of %zu bytes, buffer %zu, permission %u: plain %u %u %zu, library %u %u %zu\n", n, room, permission,
                p.refusal, p.plan, p.place, l.refusal, l.plan, l.place);
        fail("written differs", name);
    }
}

static void compare_sheet(const char *name)
{
    for (uint8_t permission = 0; permission <= 4; permission++) {
        for (size_t room = 239; room <= LONGEST + 1; room++)
            compare_write(name, size, room, permission);
        for (size_t n = 0; n <= size; n++)
            compare_write(name, n, 300, permission);
    }
    for (size_t i = 0; i < size; i++) {
        uint8_t was = in[i];
        for (unsigned x = 0; x < 256; x++) {
            in[i] = (uint8_t)x;
            compare_write(name, size, 300, 3);
            compare_write(name, size, 720, 3);
        }
        in[i] = was;
    }
    for (size_t n = ROOM - 1; n <= ROOM + 1; n++)
        compare_write(name, n, LONGEST, 3);
}

/* Both read the first n bytes as items, and write them as records of items. */
static void compare_items(const char *name, size_t n, size_t room)
{
    static uint8_t a[ROOM], b[ROOM];
    memset(a, UNTOUCHED, ROOM);
    memset(b, UNTOUCHED, ROOM);
    plain_filled p = plain_vendor_records(in, n, a, room);
    dhcpopt_filled l = dhcpopt_vendor_records(in, n, b, room);
    if (p.refusal != l.refusal || p.size != l.size || p.place != l.place || memcmp(a, b, ROOM) != 0)
        fail("items read differ", name);
    p = plain_vendor_write(in, n, a, room);
    l = dhcpopt_vendor_write(in, n, b, room);
    if (p.refusal != l.refusal || p.size != l.size || p.place != l.place || memcmp(a, b, ROOM) != 0)
        fail("items written differ", name);
}

/* As compare_items, of sub-options. */
static void compare_sub_options(const char *name, size_t n, size_t room)
{
    static uint8_t a[ROOM], b[ROOM];
    memset(a, UNTOUCHED, ROOM);
    memset(b, UNTOUCHED, ROOM);
    plain_relay r = plain_relay_records(in, n, a, room);
    dhcpopt_relay q = dhcpopt_relay_records(in, n, b, room);
    if (r.refusal != q.refusal || r.size != q.size || r.place != q.place || r.circuit_start != q.circuit.start ||
        r.circuit_length != q.circuit.length || r.remote_start != q.remote.start || r.remote_length != q.remote.length ||
        memcmp(a, b, ROOM) != 0)
        fail("sub-options read differ", name);
    plain_filled p = plain_relay_write(in, n, a, room);
    dhcpopt_filled l = dhcpopt_relay_write(in, n, b, room);
    if (p.refusal != l.refusal || p.size != l.size || p.place != l.place || memcmp(a, b, ROOM) != 0)
        fail("sub-options written differ", name);
}

/* Of the file: every room, cut off anywhere, any byte changed. */
static void compare_inside(const char *name, void (*compare)(const char *, size_t, size_t))
{
    for (size_t room = 0; room <= 2 * size; room++)
        compare(name, size, room);
    for (size_t n = 0; n <= size; n++)
        compare(name, n, ROOM);
    for (size_t i = 0; i < size; i++) {
        uint8_t was = in[i];
        for (unsigned x = 0; x < 256; x++) {
            in[i] = (uint8_t)x;
            compare(name, size, ROOM);
            compare(name, size, 255);
        }
        in[i] = was;
    }
}

/* The first n bytes as the data of an option 121, from every place; as routes to be written; and as a message. */
static void compare_route_bytes(const char *name, size_t n, size_t room)
{
    static const uint64_t known[3][4] = {{UINT64_MAX, UINT64_MAX, UINT64_MAX, UINT64_MAX}, {0, (uint64_t)1 << (121 - 64), 0, 0}, {UINT64_MAX, 0, 0, 0}};
    static uint8_t a[ROOM], b[ROOM];
    memset(a, UNTOUCHED, ROOM);
    memset(b, UNTOUCHED, ROOM);
    for (size_t at = 0; at < n + 3; at++) {
        plain_route r = plain_route_step(in, n, at);
        dhcpopt_route q = dhcpopt_route_step(in, n, at);
        if (r.given != q.given || r.destination != q.destination || r.width != q.width || r.router != q.router || r.next != q.next)
            fail("routes differ", name);
    }
    plain_filled p = plain_routes_write(in, n, a, room);
    dhcpopt_filled l = dhcpopt_routes_write(in, n, b, room);
    if (p.refusal != l.refusal || p.size != l.size || p.place != l.place || memcmp(a, b, ROOM) != 0)
        fail("routes written differ", name);
    for (size_t i = 0; i < 3; i++) {
        plain_ignored j = plain_routes_ignored(in, n, known[i]);
        dhcpopt_ignored k = dhcpopt_routes_ignored(in, n, known[i][0], known[i][1], known[i][2], known[i][3]);
        if (j.refusal != k.refusal || j.ignored != k.ignored || j.place != k.place)
            fail("whether 3 and 33 are ignored differs", name);
    }
}

static void equal_filled(const char *name, const char *call, plain_filled p, dhcpopt_filled l, const uint8_t *a, const uint8_t *b, size_t room)
{
    if (p.refusal != l.refusal || p.size != l.size || p.place != l.place || memcmp(a, b, room) != 0) {
        fprintf(stderr, "%s: plain %u %zu %zu, library %u %zu %zu\n", call, p.refusal, p.size, p.place, l.refusal, l.size, l.place);
        fail("grouped differs", name);
    }
}

/* Every call on grouped sheets, on the first n bytes. */
static void compare_grouped(const char *name, size_t n, size_t room)
{
    static const char *const classes[] = {"", "meter", "scale"};
    static uint8_t a[FILE_ROOM], b[FILE_ROOM];
    memset(a, UNTOUCHED, sizeof a);
    memset(b, UNTOUCHED, sizeof b);
    plain_checked p = plain_check_grouped(in, n);
    dhcpopt_checked l = dhcpopt_check_grouped(in, n);
    if (p.refusal != l.refusal || p.place != l.place) {
        fprintf(stderr, "check: plain %u %zu, library %u %zu\n", p.refusal, p.place, l.refusal, l.place);
        fail("checked differs", name);
    }
    for (size_t i = 0; i < 3; i++) {
        const uint8_t *class = (const uint8_t *)classes[i];
        size_t letters = strlen(classes[i]);
        equal_filled(name, "choose", plain_choose(in, n, class, letters, a, room), dhcpopt_choose(in, n, class, letters, b, room), a, b, sizeof a);
    }
    equal_filled(name, "ungroup", plain_ungroup(in, n, a, room), dhcpopt_ungroup(in, n, b, room), a, b, sizeof a);
    equal_filled(name, "group", plain_group(in + 4, n < 4 ? 0 : n - 4, a, room), dhcpopt_group(in + 4, n < 4 ? 0 : n - 4, b, room), a, b, sizeof a);
}

static void compare_file(const char *name)
{
    for (size_t n = 0; n <= size; n++)
        compare_grouped(name, n, FILE_ROOM);
    for (size_t room = 0; room <= 64; room++)
        compare_grouped(name, size, room);
    for (size_t i = 0; i < size && i < 400; i++) {
        uint8_t was = in[i];
        for (unsigned x = 0; x < 256; x++) {
            in[i] = (uint8_t)x;
            compare_grouped(name, size, FILE_ROOM);
        }
        in[i] = was;
    }
}

/* The tally of the first n bytes of a file, of which the first part has so many. */
static void compare_tally(const char *name, const uint8_t *file, size_t n, size_t first)
{
    static uint64_t v[2][8], h[2][256], b[2][256];
    static uint8_t kept[2][1472], text[2][16384];
    memset(v, 0, sizeof v);
    memset(h, 0, sizeof h);
    memset(b, 0, sizeof b);
    plain_captures p = plain_captures_begin();
    p = plain_captures_feed(p, file, first, kept[0], v[0], h[0], b[0]);
    p = plain_captures_feed(p, file + first, n - first, kept[0], v[0], h[0], b[0]);
    dhcpopt_captures l = dhcpopt_captures_begin(v[1], h[1], b[1]);
    l = dhcpopt_captures_feed(file, first, l, kept[1], v[1], h[1], b[1]);
    l = dhcpopt_captures_feed(file + first, n - first, l, kept[1], v[1], h[1], b[1]);
    if (memcmp(v[0], v[1], sizeof v[0]) != 0 || memcmp(h[0], h[1], sizeof h[0]) != 0 || memcmp(b[0], b[1], sizeof b[0]) != 0)
        fail("captures: other numbers", name);
    size_t size_p = plain_captures_report(p, v[0], h[0], b[0], (char *)text[0]);
    size_t size_l = dhcpopt_captures_report(l, v[1], h[1], b[1], text[1]);
    if (size_p != size_l || memcmp(text[0], text[1], size_p) != 0)
        fail("captures: another report", name);
}

static void compare_captures(const char *name)
{
    static uint8_t file[3 * (LONGEST + 3)];
    size_t n = 0;
    for (int k = 0; k < 3; k++) {
        file[n++] = 1;
        file[n++] = (uint8_t)(size >> 8);
        file[n++] = (uint8_t)size;
        memcpy(file + n, in, size);
        n += size;
    }
    for (size_t i = 0; i <= n; i++) {
        compare_tally(name, file, n, i);
        compare_tally(name, file, i, i / 2);
    }
    for (size_t i = 0; i < n; i++) {
        uint8_t was = file[i];
        for (int k = 0; k < 18; k++) {
            file[i] = (uint8_t)(k < 9 ? was + k : k * 29);
            compare_tally(name, file, n, n - i);
        }
        file[i] = was;
    }
}

static void compare_profiled(const char *name)
{
    plain_profiled p = plain_profile(in, size);
    dhcpopt_profile_answer l = dhcpopt_profile(in, size);
    if (p.broken != l.broken || p.refusal != l.refusal || p.place != l.place) {
        fprintf(stderr, "plain %u %u %zu, library %u %u %zu\n", p.broken, p.refusal, p.place, l.broken, l.refusal, l.place);
        fail("profiles differ", name);
    }
}

static void compare_profile(const char *name)
{
    static const uint8_t bytes[] = {0, 1, 2, 3, 4, 5, 6, 8, 12, 50, 51, 52, 53, 54, 55, 57, 255};
    compare_profiled(name);
    for (size_t i = 44; i < size; i++) {
        uint8_t was = in[i];
        for (size_t k = 0; k < sizeof bytes; k++) {
            in[i] = bytes[k];
            compare_profiled(name);
        }
        in[i] = was;
    }
}

int main(int argc, char **argv)
{
    if (argc < 3)
        fail("usage", "compare messages|index|profile|sheets|vendor|relay|routes|grouped|captures FILE...");
    for (int i = 2; i < argc; i++) {
        memset(in, 0, sizeof in);
        size = take(argv[i], in, sizeof in);
        if (strcmp(argv[1], "sheets") == 0)
            compare_sheet(argv[i]);
        else if (strcmp(argv[1], "index") == 0)
            compare_index(argv[i]);
        else if (strcmp(argv[1], "profile") == 0)
            compare_profile(argv[i]);
        else if (strcmp(argv[1], "vendor") == 0)
            compare_inside(argv[i], compare_items);
        else if (strcmp(argv[1], "relay") == 0)
            compare_inside(argv[i], compare_sub_options);
        else if (strcmp(argv[1], "routes") == 0)
            compare_inside(argv[i], compare_route_bytes);
        else if (strcmp(argv[1], "grouped") == 0)
            compare_file(argv[i]);
        else if (strcmp(argv[1], "captures") == 0)
            compare_captures(argv[i]);
        else {
            compare_message(argv[i]);
            compare_changed(argv[i]);
        }
    }
    return 0;
}
