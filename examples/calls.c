/*
 * Makes each call and checks every member of its answer, so that a wrong declaration in dhcpopt.h is found out.
 * It is C11 and C++17 alike. The messages are those of document 01's bench table, with the case's number.
 */
#include "dhcpopt.h"

#include <stdio.h>
#include <string.h>

static int failed;

#define CHECK(what) check((what) != 0, #what, __LINE__)

static void check(int holds, const char *what, int line)
{
    if (!holds) {
        printf("line %d: not so: %s\n", line, what);
        failed = 1;
    }
}

static uint8_t message[DHCPOPT_LONGEST_MESSAGE];
static const dhcpopt_known NONE = {{0, 0, 0, 0}};

/* Zeros, the cookie, and the bytes given in options, file and sname. The result is the message's size. */
static size_t make(const char *options, size_t size, const char *file, size_t file_size, const char *sname, size_t sname_size)
{
    static const uint8_t cookie[DHCPOPT_COOKIE_SIZE] = {99, 130, 83, 99};
    memset(message, 0, sizeof message);
    memcpy(message + DHCPOPT_SNAME_OFFSET, sname, sname_size);
    memcpy(message + DHCPOPT_FILE_OFFSET, file, file_size);
    memcpy(message + DHCPOPT_COOKIE_OFFSET, cookie, sizeof cookie);
    memcpy(message + DHCPOPT_OPTIONS_OFFSET, options, size);
    return DHCPOPT_OPTIONS_OFFSET + size;
}

#define MESSAGE(options) make(options, sizeof(options) - 1, "", 0, "", 0)
#define OVERLOADED(options, file, sname) make(options, sizeof(options) - 1, file, sizeof(file) - 1, sname, sizeof(sname) - 1)

/* What an answer says, and where its option stands. */
typedef struct {
    uint32_t status, kind, refusal;
    int64_t number;
    size_t place, length;
} content;

typedef struct {
    uint32_t field;
    size_t offset, start;
} origin;

static int says(dhcpopt_answer a, content c, origin o)
{
    return a.status == c.status && a.kind == c.kind && a.refusal == c.refusal && a.number == c.number && a.place == c.place &&
           a.length == c.length && a.field == o.field && a.offset == o.offset && a.start == o.start;
}

/* Of a code in one piece, and of one in several, which have so many bytes together. */
static int answers(dhcpopt_answer a, content c, origin o)
{
    return says(a, c, o) && a.several == 0 && a.whole == 0;
}

static int joins(dhcpopt_answer a, content c, origin o, size_t whole)
{
    return says(a, c, o) && a.several == 1 && a.whole == whole;
}

static const origin NOWHERE = {DHCPOPT_FIELD_NONE, 0, 0};

static int refuses(dhcpopt_answer a, uint32_t refusal, size_t place)
{
    content c = {DHCPOPT_STATUS_REFUSED, 0, refusal, 0, place, 0};
    return answers(a, c, NOWHERE);
}

static int is_absent(dhcpopt_answer a)
{
    content c = {DHCPOPT_STATUS_ABSENT, 0, 0, 0, 0, 0};
    return answers(a, c, NOWHERE);
}

static int is_part(dhcpopt_extent e, size_t start, size_t length)
{
    return e.start == start && e.length == length;
}

static void lookup(void)
{
    dhcpopt_known all = dhcpopt_known_all();
    size_t n = MESSAGE("\x35\x01\x05\xff"); /* 2 */
    CHECK(is_absent(dhcpopt_lookup_known(message, n, all, 51)));
    CHECK(refuses(dhcpopt_lookup_known(message, n, all, 0), DHCPOPT_REFUSED_BAD_CODE, 0));
    CHECK(refuses(dhcpopt_lookup_known(message, 239, all, 53), DHCPOPT_REFUSED_TOO_SHORT, 239));
    n = OVERLOADED("\x34\x01\x01\xff", "\x33\x04\x00\x00\x0e\x10\xff", ""); /* 6 */
    CHECK(is_part(dhcpopt_data(message, n, 51), 110, 4));
    n = OVERLOADED("\x34\x01\x01\xff", "", "");
    CHECK(refuses(dhcpopt_lookup_known(message, n, all, 51), DHCPOPT_REFUSED_NO_END, 236));
    n = MESSAGE("\x34\x01\x01\x34\x01\x01\xff"); /* a second 52 */
    CHECK(refuses(dhcpopt_lookup_known(message, n, all, 53), DHCPOPT_REFUSED_DUPLICATE, 243));
}

/* Each answer that comes from an option, in each field, and each also at length 0 where it can be. */
static const struct {
    uint8_t code;
    content says;
    origin from;
} FOUND[] = {
    {52, {DHCPOPT_STATUS_NUMBER, DHCPOPT_KIND_BYTE, 0, 3, 0, 0}, {DHCPOPT_FIELD_OPTIONS, 0, 242}},
    {12, {DHCPOPT_STATUS_PART, DHCPOPT_KIND_TEXT, 0, 0, 0, 2}, {DHCPOPT_FIELD_OPTIONS, 3, 245}},
    {254, {DHCPOPT_STATUS_UNKNOWN, 0, 0, 0, 0, 0}, {DHCPOPT_FIELD_OPTIONS, 8, 250}},
    {53, {DHCPOPT_STATUS_BROKEN, 0, DHCPOPT_REFUSED_BAD_VALUE, 0, 250, 0}, {DHCPOPT_FIELD_OPTIONS, 10, 252}},
    {1, {DHCPOPT_STATUS_BROKEN, 0, DHCPOPT_REFUSED_BAD_LENGTH, 0, 253, 0}, {DHCPOPT_FIELD_OPTIONS, 13, 255}},
    {51, {DHCPOPT_STATUS_NUMBER, DHCPOPT_KIND_UINT32, 0, 3600, 0, 0}, {DHCPOPT_FIELD_FILE, 1, 111}},
    {68, {DHCPOPT_STATUS_PART, DHCPOPT_KIND_ADDRESS_LIST, 0, 0, 0, 0}, {DHCPOPT_FIELD_FILE, 7, 117}},
    {224, {DHCPOPT_STATUS_UNKNOWN, 0, 0, 0, 0, 2}, {DHCPOPT_FIELD_FILE, 9, 119}},
    {46, {DHCPOPT_STATUS_BROKEN, 0, DHCPOPT_REFUSED_BAD_VALUE, 0, 121, 0}, {DHCPOPT_FIELD_FILE, 13, 123}},
    {16, {DHCPOPT_STATUS_BROKEN, 0, DHCPOPT_REFUSED_BAD_LENGTH, 0, 124, 0}, {DHCPOPT_FIELD_FILE, 16, 126}},
    {2, {DHCPOPT_STATUS_NUMBER, DHCPOPT_KIND_INT32, 0, -3600, 0, 0}, {DHCPOPT_FIELD_SNAME, 0, 46}},
    {3, {DHCPOPT_STATUS_PART, DHCPOPT_KIND_ADDRESS_LIST, 0, 0, 0, 4}, {DHCPOPT_FIELD_SNAME, 6, 52}},
    {253, {DHCPOPT_STATUS_UNKNOWN, 0, 0, 0, 0, 0}, {DHCPOPT_FIELD_SNAME, 12, 58}},
    {19, {DHCPOPT_STATUS_BROKEN, 0, DHCPOPT_REFUSED_BAD_VALUE, 0, 58, 0}, {DHCPOPT_FIELD_SNAME, 14, 60}},
    {28, {DHCPOPT_STATUS_BROKEN, 0, DHCPOPT_REFUSED_BAD_LENGTH, 0, 61, 0}, {DHCPOPT_FIELD_SNAME, 17, 63}},
};

static void origins(void)
{
    size_t n = OVERLOADED("\x34\x01\x03\x0c\x03" "ab\x00\xfe\x00\x35\x01\xff\x01\x00\xff",
                          "\x00\x33\x04\x00\x00\x0e\x10\x44\x00\xe0\x02\x07\x0d\x2e\x01\xff\x10\x00\xff",
                          "\x02\x04\xff\xff\xf1\xf0\x03\x04\xc0\x00\x02\x01\xfd\x00\x13\x01\xff\x1c\x03\x01\x02\x03\xff");
    for (size_t i = 0; i < sizeof FOUND / sizeof FOUND[0]; i++) {
        CHECK(answers(dhcpopt_lookup_known(message, n, dhcpopt_known_all(), FOUND[i].code), FOUND[i].says, FOUND[i].from));
        content unknown = {DHCPOPT_STATUS_UNKNOWN, 0, 0, 0, 0, message[FOUND[i].from.start - 1]};
        CHECK(answers(dhcpopt_lookup_known(message, n, NONE, FOUND[i].code), unknown, FOUND[i].from));
    }
    CHECK(strcmp(dhcpopt_field_name(DHCPOPT_FIELD_OPTIONS), "options") == 0 && strcmp(dhcpopt_field_name(DHCPOPT_FIELD_FILE), "file") == 0);
    CHECK(strcmp(dhcpopt_field_name(DHCPOPT_FIELD_SNAME), "sname") == 0 && strcmp(dhcpopt_field_name(DHCPOPT_FIELD_NONE), "") == 0);
}

/* Every kind of answer in several pieces; each names the first. Request 02 makes case 8 broken, as below. */
static const struct {
    uint8_t code;
    content says;
    origin from;
    size_t whole;
} JOINED[] = {
    {53, {DHCPOPT_STATUS_BROKEN, 0, DHCPOPT_REFUSED_BAD_LENGTH, 0, 243, 0}, {DHCPOPT_FIELD_OPTIONS, 3, 245}, 2},
    {12, {DHCPOPT_STATUS_PART, DHCPOPT_KIND_TEXT, 0, 0, 0, 2}, {DHCPOPT_FIELD_OPTIONS, 6, 248}, 4},
    {51, {DHCPOPT_STATUS_NUMBER, DHCPOPT_KIND_UINT32, 0, 3600, 0, 0}, {DHCPOPT_FIELD_OPTIONS, 10, 252}, 4},
    {224, {DHCPOPT_STATUS_UNKNOWN, 0, 0, 0, 0, 0}, {DHCPOPT_FIELD_FILE, 9, 119}, 0},
};

static void pieces(void)
{
    static const uint8_t text[6] = {'a', 'b', 0, 0, 238, 238};
    uint8_t out[6];
    size_t n = OVERLOADED("\x34\x01\x03\x35\x01\x05\x0c\x02" "ab\x33\x01\x00\xff", "\x35\x01\x05\x33\x02\x00\x0e\x0c\x00\xe0\x00\xff",
                          "\x33\x01\x10\x0c\x02\x00\x00\xe0\x00\xff");
    for (size_t i = 0; i < sizeof JOINED / sizeof JOINED[0]; i++) {
        CHECK(joins(dhcpopt_lookup_known(message, n, dhcpopt_known_all(), JOINED[i].code), JOINED[i].says, JOINED[i].from, JOINED[i].whole));
        content unknown = {DHCPOPT_STATUS_UNKNOWN, 0, 0, 0, 0, JOINED[i].whole};
        CHECK(joins(dhcpopt_lookup_known(message, n, NONE, JOINED[i].code), unknown, JOINED[i].from, JOINED[i].whole));
        CHECK(is_part(dhcpopt_data(message, n, JOINED[i].code), 0, 0));
    }
    CHECK(is_part(dhcpopt_text_known(message, n, dhcpopt_known_all(), 12), 0, 0));
    CHECK(dhcpopt_present(message, n).count == 5);
    memset(out, 238, sizeof out);
    dhcpopt_filled f = dhcpopt_copy(message, n, 12, out, 3);
    CHECK(f.refusal == DHCPOPT_REFUSED_NO_ROOM && f.size == 0 && f.place == 3);
    f = dhcpopt_copy(message, n, 15, out, sizeof out);
    CHECK(f.refusal == DHCPOPT_REFUSED_NO_ROOM && f.size == 0 && f.place == 0);
    f = dhcpopt_copy(message, n, 255, out, sizeof out);
    CHECK(f.refusal == DHCPOPT_REFUSED_BAD_CODE && f.size == 0 && f.place == 0);
    f = dhcpopt_copy(message, 239, 12, out, sizeof out);
    CHECK(f.refusal == DHCPOPT_REFUSED_TOO_SHORT && f.size == 0 && f.place == 239);
    f = dhcpopt_copy(message, n, 224, out, 0);
    CHECK(f.refusal == DHCPOPT_NOT_REFUSED && f.size == 0 && f.place == 0);
    CHECK(out[0] == 238 && memcmp(out, out + 1, sizeof out - 1) == 0);
    f = dhcpopt_copy(message, n, 12, out, sizeof out);
    CHECK(f.refusal == DHCPOPT_NOT_REFUSED && f.size == 4 && f.place == 0);
    CHECK(memcmp(out, text, sizeof out) == 0);
    f = dhcpopt_copy(message, n, 52, out, sizeof out); /* one piece is copied as well */
    CHECK(f.refusal == DHCPOPT_NOT_REFUSED && f.size == 1 && f.place == 0 && out[0] == 3);
    n = MESSAGE("\x35\x01\x05\x35\x01\x05\xff"); /* 8 */
    content broken = {DHCPOPT_STATUS_BROKEN, 0, DHCPOPT_REFUSED_BAD_LENGTH, 0, 240, 0};
    origin first = {DHCPOPT_FIELD_OPTIONS, 0, 242};
    CHECK(joins(dhcpopt_lookup_known(message, n, dhcpopt_known_all(), 53), broken, first, 2));
}

static void parts(void)
{
    size_t n = MESSAGE("\x0c\x03" "ab\x00\x42\x01" "x\xff"); /* 4, and 66, a code of the set's second word */
    CHECK(is_part(dhcpopt_data(message, n, 12), 242, 3));
    CHECK(is_part(dhcpopt_text_known(message, n, dhcpopt_known_all(), 12), 242, 2));
    CHECK(is_part(dhcpopt_text_known(message, n, dhcpopt_known_with(NONE, 12), 12), 242, 2));
    CHECK(is_part(dhcpopt_text_known(message, n, dhcpopt_known_with(NONE, 66), 66), 247, 1));
    CHECK(is_part(dhcpopt_text_known(message, n, dhcpopt_known_with(NONE, 12), 66), 0, 0));
    CHECK(is_part(dhcpopt_data(message, n, 51), 0, 0));
}

/* Each byte of a text is 1 to 127, its trailing zeros left off: of one piece, of two that are joined, and of a sheet. */
static void texts(void)
{
    static const uint8_t name[6] = {12, 0, 3, 'm', 0xc3, 0xa9};
    dhcpopt_known all = dhcpopt_known_all();
    content text = {DHCPOPT_STATUS_PART, DHCPOPT_KIND_TEXT, 0, 0, 0, 2};
    content broken = {DHCPOPT_STATUS_BROKEN, 0, DHCPOPT_REFUSED_BAD_VALUE, 0, 240, 0};
    origin first = {DHCPOPT_FIELD_OPTIONS, 0, 242};
    size_t n = MESSAGE("\x0c\x03" "m\x7f\x00\xff");
    CHECK(answers(dhcpopt_lookup_known(message, n, all, 12), text, first));
    CHECK(is_part(dhcpopt_text_known(message, n, all, 12), 242, 2));
    n = MESSAGE("\x0c\x03" "m\x80\x00\xff");
    CHECK(answers(dhcpopt_lookup_known(message, n, all, 12), broken, first));
    CHECK(is_part(dhcpopt_text_known(message, n, all, 12), 0, 0));
    CHECK(is_part(dhcpopt_data(message, n, 12), 242, 3));
    n = MESSAGE("\x0c\x02" "m\x00\x0c\x01" "x\xff");
    CHECK(joins(dhcpopt_lookup_known(message, n, all, 12), broken, first, 3));
    memset(message, 170, sizeof message);
    dhcpopt_wrote w = dhcpopt_write(name, sizeof name, message, 300, DHCPOPT_OVERLOAD_NONE);
    CHECK(w.refusal == DHCPOPT_REFUSED_BAD_VALUE && w.plan == 0 && w.place == 0);
    CHECK(message[0] == 170 && memcmp(message, message + 1, sizeof message - 1) == 0);
}

static void address_step(void)
{
    static const uint8_t list[9] = {192, 0, 2, 1, 192, 0, 2, 2, 7};
    dhcpopt_address a = dhcpopt_address_step(list, sizeof list, 0);
    CHECK(a.given == 1 && a.address == 0xC0000201 && a.next == 4);
    a = dhcpopt_address_step(list, sizeof list, a.next);
    CHECK(a.given == 1 && a.address == 0xC0000202 && a.next == 8);
    a = dhcpopt_address_step(list, sizeof list, a.next);
    CHECK(a.given == 0 && a.address == 0 && a.next == 8);
}

static void present(void)
{
    size_t n = MESSAGE("\x35\x01\x05\x42\x01" "x\x80\x00\xfe\x00\x0c\x01" "a\xff");
    dhcpopt_codes c = dhcpopt_present(message, n);
    CHECK(c.words[0] == (UINT64_C(1) << 53 | UINT64_C(1) << 12) && c.words[1] == 4 && c.words[2] == 1);
    CHECK(c.words[3] == UINT64_C(1) << 62);
    CHECK(c.count == 5 && c.lowest == 12 && c.refusal == DHCPOPT_NOT_REFUSED && c.place == 0);
    c = dhcpopt_present(message, n - 1);
    CHECK(c.words[0] == 0 && c.words[1] == 0 && c.words[2] == 0 && c.words[3] == 0 && c.count == 0 && c.lowest == 0);
    CHECK(c.refusal == DHCPOPT_REFUSED_NO_END && c.place == n - 1);
}

/* 43 in two pieces, 53 between them, 52 for file, and there 51; behind END 53 once more. */
static void indexed(void)
{
    dhcpopt_known all = dhcpopt_known_all();
    size_t n = OVERLOADED("\x2b\x01\x07\x35\x01\x05\x2b\x01\x08\x34\x01\x01\xff\x35\x01\x02", "\x33\x04\x00\x00\x0e\x10\xff", "");
    uint16_t index[257];
    memset(index, 238, sizeof index);
    dhcpopt_filled f = dhcpopt_index_build(message, n, index, 255);
    CHECK(f.refusal == DHCPOPT_REFUSED_BAD_INDEX_COUNT && f.size == 0 && f.place == 255);
    f = dhcpopt_index_build(message, n, index, 257);
    CHECK(f.refusal == DHCPOPT_REFUSED_BAD_INDEX_COUNT && f.size == 0 && f.place == 257);
    f = dhcpopt_index_build(message, 239, index, 255);
    CHECK(f.refusal == DHCPOPT_REFUSED_TOO_SHORT && f.size == 0 && f.place == 239);
    CHECK(index[0] == 61166 && memcmp(index, index + 1, sizeof index - sizeof index[0]) == 0);
    f = dhcpopt_index_build(message, n, index, DHCPOPT_INDEX_COUNT);
    CHECK(f.refusal == DHCPOPT_NOT_REFUSED && f.size == 512 && f.place == 0);
    CHECK(index[43] == DHCPOPT_INDEX_PIECES && index[53] == 243 && index[52] == 249 && index[51] == 108);
    CHECK(index[0] == 0 && index[12] == DHCPOPT_INDEX_ABSENT && index[255] == 0 && index[256] == 61166);
    for (unsigned c = 0; c < 256; c++) {
        dhcpopt_answer a = dhcpopt_index_lookup_known(message, n, index, 256, all, (uint8_t)c);
        dhcpopt_answer b = dhcpopt_lookup_known(message, n, all, (uint8_t)c);
        CHECK(a.status == b.status && a.kind == b.kind && a.refusal == b.refusal && a.field == b.field && a.number == b.number);
        CHECK(a.place == b.place && a.offset == b.offset && a.start == b.start && a.length == b.length);
        CHECK(a.whole == b.whole && a.several == b.several);
    }
    CHECK(refuses(dhcpopt_index_lookup_known(message, n, index, 257, all, 53), DHCPOPT_REFUSED_BAD_INDEX_COUNT, 257));
    CHECK(refuses(dhcpopt_index_lookup_known(message, n, index, 255, all, 0), DHCPOPT_REFUSED_BAD_CODE, 0));
    index[53] = 240; /* another code */
    CHECK(refuses(dhcpopt_index_lookup_known(message, n, index, 256, all, 53), DHCPOPT_REFUSED_BAD_INDEX_ENTRY, 240));
    index[53] = 236; /* the cookie */
    CHECK(refuses(dhcpopt_index_lookup_known(message, n, index, 256, all, 53), DHCPOPT_REFUSED_BAD_INDEX_ENTRY, 236));
    index[53] = 253; /* behind END */
    CHECK(dhcpopt_index_lookup_known(message, n, index, 256, all, 53).number == 2);
    index[53] = DHCPOPT_INDEX_PIECES;
    CHECK(dhcpopt_index_lookup_known(message, n, index, 256, all, 53).number == 5);
    index[53] = DHCPOPT_INDEX_ABSENT;
    CHECK(is_absent(dhcpopt_index_lookup_known(message, n, index, 256, all, 53)));
}

/* 3 in options before 1 in file, a broken 51, 57 there and 54 missing. */
static void profile(void)
{
    size_t n = OVERLOADED("\x35\x01\x05\x34\x01\x01\x03\x04\x0a\x00\x00\x01\x33\x01\x07\x39\x00\xff", "\x01\x04\xff\xff\xff\x00\xff", "");
    dhcpopt_profile_answer a = dhcpopt_profile(message, n);
    CHECK(a.broken == (DHCPOPT_PROFILE_NO_LEASE_TIME | DHCPOPT_PROFILE_NO_SERVER_ID | DHCPOPT_PROFILE_MAXIMUM_SIZE |
                       DHCPOPT_PROFILE_ROUTER_BEFORE_MASK));
    CHECK(a.refusal == DHCPOPT_NOT_REFUSED && a.place == 0);
    n = OVERLOADED("\x35\x01\x02\x33\x04\x00\x00\x0e\x10\x36\x04\x0a\x00\x00\x01\x01\x04\xff\xff\xff\x00\x03\x04\x0a\x00\x00\x01\xff", "", "");
    a = dhcpopt_profile(message, n);
    CHECK(a.broken == 0 && a.refusal == DHCPOPT_NOT_REFUSED && a.place == 0);
    a = dhcpopt_profile(message, n - 1);
    CHECK(a.broken == 0 && a.refusal == DHCPOPT_REFUSED_NO_END && a.place == n - 1);
    n = OVERLOADED("\x35\x01\x06\xff", "", "");
    a = dhcpopt_profile(message, n);
    CHECK(a.broken == 0 && a.refusal == DHCPOPT_REFUSED_NO_REPLY && a.place == 0);
    for (unsigned bit = 0; bit < 8; bit++)
        CHECK(dhcpopt_profile_rule_name(bit)[0] != '\0');
    CHECK(dhcpopt_profile_rule_name(8)[0] == '\0');
}

/* A default route and a network, whose last byte has bits past its width. */
static void routes(void)
{
    static const uint8_t data[13] = {0, 10, 0, 0, 1, 20, 192, 168, 31, 10, 0, 0, 2};
    dhcpopt_route r = dhcpopt_route_step(data, sizeof data, 0);
    CHECK(r.given == 1 && r.destination == 0 && r.width == 0 && r.router == 0x0A000001 && r.next == 5);
    r = dhcpopt_route_step(data, sizeof data, r.next);
    CHECK(r.given == 1 && r.destination == 0xC0A81000 && r.width == 20 && r.router == 0x0A000002 && r.next == 13);
    r = dhcpopt_route_step(data, sizeof data, r.next);
    CHECK(r.given == 0 && r.destination == 0 && r.width == 0 && r.router == 0 && r.next == 13);
    r = dhcpopt_route_step(data, 12, 5); /* cut short */
    CHECK(r.given == 0 && r.destination == 0 && r.width == 0 && r.router == 0 && r.next == 5);
    r = dhcpopt_route_step(data, sizeof data, 6); /* 192 is too wide */
    CHECK(r.given == 0 && r.destination == 0 && r.width == 0 && r.router == 0 && r.next == 6);
    r = dhcpopt_route_step(data, sizeof data, SIZE_MAX);
    CHECK(r.given == 0 && r.next == SIZE_MAX);
    CHECK(dhcpopt_route_step(data, 0, 0).given == 0);

    uint8_t nine[3 * DHCPOPT_GIVEN_ROUTE], out[20];
    static const uint8_t wanted[20] = {0, 10, 0, 0, 1, 20, 192, 168, 16, 10, 0, 0, 2, 238, 238, 238, 238, 238, 238, 238};
    dhcpopt_put_route(nine, 0, 0, 0x0A000001);
    dhcpopt_put_route(nine + 9, 0xC0A81000, 20, 0x0A000002);
    dhcpopt_put_route(nine + 18, 0xC0A81001, 20, 0x0A000002);
    CHECK(nine[0] == 0 && nine[5] == 10 && nine[8] == 1 && nine[9] == 20 && nine[10] == 192 && nine[13] == 0 && nine[22] == 1 && nine[26] == 2);
    memset(out, 238, sizeof out);
    dhcpopt_filled f = dhcpopt_routes_write(nine, sizeof nine, out, sizeof out); /* a bit is set past the width */
    CHECK(f.refusal == DHCPOPT_REFUSED_BAD_ROUTE && f.size == 0 && f.place == 2);
    f = dhcpopt_routes_write(nine, 17, out, 0); /* cut short; 26 before 11 */
    CHECK(f.refusal == DHCPOPT_REFUSED_BAD_ROUTE && f.size == 0 && f.place == 1);
    f = dhcpopt_routes_write(nine, 0, out, sizeof out);
    CHECK(f.refusal == DHCPOPT_REFUSED_BAD_ROUTE && f.size == 0 && f.place == 0);
    f = dhcpopt_routes_write(nine, 18, out, 12);
    CHECK(f.refusal == DHCPOPT_REFUSED_NO_ROOM && f.size == 0 && f.place == 12);
    CHECK(out[0] == 238 && memcmp(out, out + 1, sizeof out - 1) == 0);
    f = dhcpopt_routes_write(nine, 18, out, 13);
    CHECK(f.refusal == DHCPOPT_NOT_REFUSED && f.size == 13 && f.place == 0 && memcmp(out, wanted, sizeof out) == 0);
    nine[18] = 33;
    nine[22] = 0;
    CHECK(dhcpopt_routes_write(nine, sizeof nine, out, sizeof out).place == 2);
}

/* Whether 3 and 33 are ignored: 121 right, in pieces over two fields, broken by 8 and by 9, not known, absent; a message that is refused. */
static void routes_ignored(void)
{
    static const dhcpopt_known alone = {{0, UINT64_C(1) << (121 - 64), 0, 0}};
    size_t n = OVERLOADED("\x34\x01\x01\x79\x02\x00\x0a\xff", "\x79\x03\x00\x00\x01\xff", "");
    dhcpopt_ignored i = dhcpopt_routes_ignored_known(message, n, dhcpopt_known_all());
    CHECK(i.refusal == DHCPOPT_NOT_REFUSED && i.ignored == 1 && i.place == 0);
    i = dhcpopt_routes_ignored(message, n, 0, UINT64_C(1) << (121 - 64), 0, 0);
    CHECK(i.refusal == DHCPOPT_NOT_REFUSED && i.ignored == 1 && i.place == 0);
    i = dhcpopt_routes_ignored_known(message, n, NONE);
    CHECK(i.refusal == DHCPOPT_NOT_REFUSED && i.ignored == 0 && i.place == 0);
    dhcpopt_answer a = dhcpopt_lookup_known(message, n, alone, DHCPOPT_CODE_CLASSLESS_STATIC_ROUTE);
    CHECK(a.status == DHCPOPT_STATUS_PART && a.kind == DHCPOPT_KIND_ROUTES && a.length == 5 && a.several == 1 && a.whole == 5);
    CHECK(a.refusal == 0 && a.field == DHCPOPT_FIELD_OPTIONS && a.number == 0 && a.place == 0 && a.offset == 3 && a.start == 245);
    n = MESSAGE("\x35\x01\x05\x79\x06\x00\x0a\x00\x00\x01\x00\xff");
    i = dhcpopt_routes_ignored_known(message, n, dhcpopt_known_all());
    CHECK(i.refusal == DHCPOPT_REFUSED_BAD_LENGTH && i.ignored == 0 && i.place == 243);
    message[245] = 33;
    i = dhcpopt_routes_ignored_known(message, n, alone);
    CHECK(i.refusal == DHCPOPT_REFUSED_BAD_VALUE && i.ignored == 0 && i.place == 243);
    i = dhcpopt_routes_ignored_known(message, n, NONE);
    CHECK(i.refusal == DHCPOPT_NOT_REFUSED && i.ignored == 0 && i.place == 0);
    i = dhcpopt_routes_ignored_known(message, n - 1, dhcpopt_known_all());
    CHECK(i.refusal == DHCPOPT_REFUSED_NO_END && i.ignored == 0 && i.place == n - 1);
    i = dhcpopt_routes_ignored_known(message, 100, dhcpopt_known_all());
    CHECK(i.refusal == DHCPOPT_REFUSED_TOO_SHORT && i.ignored == 0 && i.place == 100);
    n = MESSAGE("\x03\x04\x0a\x00\x00\x01\xff");
    i = dhcpopt_routes_ignored_known(message, n, dhcpopt_known_all());
    CHECK(i.refusal == DHCPOPT_NOT_REFUSED && i.ignored == 0 && i.place == 0);
}

static void records(void)
{
    static const uint8_t wanted[9] = {51, 0, 4, 0, 0, 14, 16, 238, 238};
    uint8_t out[9];
    size_t n = OVERLOADED("\x34\x01\x01\xff", "\x33\x04\x00\x00\x0e\x10\xff", "");
    memset(out, 238, sizeof out);
    dhcpopt_filled f = dhcpopt_records(message, n, out, 6);
    CHECK(f.refusal == DHCPOPT_REFUSED_NO_ROOM && f.size == 0 && f.place == 6);
    CHECK(out[0] == 238 && memcmp(out, out + 1, sizeof out - 1) == 0);
    f = dhcpopt_records(message, n, out, sizeof out);
    CHECK(f.refusal == DHCPOPT_NOT_REFUSED && f.size == 7 && f.place == 0);
    CHECK(memcmp(out, wanted, sizeof out) == 0);
}

static void write_sheet(void)
{
    static const uint8_t type[4] = {53, 0, 1, 5};                 /* 9 */
    static const uint8_t lease[7] = {51, 0, 4, 0, 0, 14, 16};     /* 10 */
    uint8_t wanted[244];
    memset(message, 170, sizeof message);
    dhcpopt_wrote w = dhcpopt_write(type, sizeof type, message, 243, DHCPOPT_OVERLOAD_NONE);
    CHECK(w.refusal == DHCPOPT_REFUSED_NO_ROOM && w.plan == 0 && w.place == 243);
    w = dhcpopt_write(type, sizeof type, message, 244, 4);
    CHECK(w.refusal == DHCPOPT_REFUSED_BAD_PERMISSION && w.plan == 0 && w.place == 0);
    CHECK(message[0] == 170 && memcmp(message, message + 1, sizeof message - 1) == 0);
    w = dhcpopt_write(lease, sizeof lease, message, 244, DHCPOPT_OVERLOAD_FILE);
    CHECK(w.refusal == DHCPOPT_NOT_REFUSED && w.plan == DHCPOPT_OVERLOAD_FILE && w.place == 0);
    memset(wanted, 170, DHCPOPT_FILE_OFFSET);
    memset(wanted + DHCPOPT_FILE_OFFSET, 0, DHCPOPT_FILE_SIZE);
    memcpy(wanted + DHCPOPT_FILE_OFFSET, "\x33\x04\x00\x00\x0e\x10\xff", 7);
    memcpy(wanted + DHCPOPT_COOKIE_OFFSET, "\x63\x82\x53\x63\x34\x01\x01\xff", 8);
    CHECK(memcmp(message, wanted, sizeof wanted) == 0 && message[244] == 170);
}

/* A record of the most bytes: four pieces of 255 and one of 4, each a code, a length and data, take 1,034 bytes. */
static void write_long(void)
{
    static uint8_t sheet[3 + DHCPOPT_LONGEST_RECORD + 1] = {43, 4, 0};
    uint8_t back[sizeof sheet];
    size_t at = DHCPOPT_OPTIONS_OFFSET;
    for (size_t i = 0; i < DHCPOPT_LONGEST_RECORD; i++)
        sheet[3 + i] = (uint8_t)(i % 251);
    dhcpopt_wrote w = dhcpopt_write(sheet, sizeof sheet - 1, message, 240 + 1034, DHCPOPT_OVERLOAD_NONE);
    CHECK(w.refusal == DHCPOPT_REFUSED_NO_ROOM && w.place == 240 + 1034);
    w = dhcpopt_write(sheet, sizeof sheet - 1, message, 240 + 1034 + 1, DHCPOPT_OVERLOAD_NONE);
    CHECK(w.refusal == DHCPOPT_NOT_REFUSED && w.plan == DHCPOPT_OVERLOAD_NONE && w.place == 0);
    for (size_t done = 0; done < DHCPOPT_LONGEST_RECORD; done += DHCPOPT_LONGEST_PIECE) {
        size_t length = done == 1020 ? 4 : 255;
        CHECK(message[at] == 43 && message[at + 1] == length && memcmp(message + at + 2, sheet + 3 + done, length) == 0);
        at += 2 + length;
    }
    CHECK(at == 240 + 1034 && message[at] == 255);
    dhcpopt_filled f = dhcpopt_records(message, at + 1, back, sizeof back);
    CHECK(f.refusal == DHCPOPT_NOT_REFUSED && f.size == 3 + 1024 && memcmp(back, sheet, f.size) == 0);
    sheet[2] = 1;
    w = dhcpopt_write(sheet, sizeof sheet, message, sizeof message, DHCPOPT_OVERLOAD_BOTH);
    CHECK(w.refusal == DHCPOPT_REFUSED_RECORD_TOO_LONG && w.plan == 0 && w.place == 0);
}

/* Inside option 43: a pad, 52 twice, 255 as data, END; and the same records written. */
static void vendor(void)
{
    static const uint8_t bytes[] = {0, 52, 1, 255, 52, 0, 255, 9}, cut[] = {7, 0, 8, 2, 1};
    static const uint8_t wanted[9] = {52, 0, 1, 255, 52, 0, 0, 238, 238}, items[7] = {52, 1, 255, 52, 0, 238, 238};
    static const uint8_t faulty[] = {1, 0, 0, 255, 0, 0};
    uint8_t out[9];
    memset(out, 238, sizeof out);
    dhcpopt_filled f = dhcpopt_vendor_records(bytes, sizeof bytes, out, 6);
    CHECK(f.refusal == DHCPOPT_REFUSED_NO_ROOM && f.size == 0 && f.place == 6);
    f = dhcpopt_vendor_records(cut, sizeof cut, out, 0);
    CHECK(f.refusal == DHCPOPT_REFUSED_ITEM_TRUNCATED && f.size == 0 && f.place == 2);
    CHECK(out[0] == 238 && memcmp(out, out + 1, sizeof out - 1) == 0);
    f = dhcpopt_vendor_records(bytes, sizeof bytes, out, sizeof out);
    CHECK(f.refusal == DHCPOPT_NOT_REFUSED && f.size == 7 && f.place == 0 && memcmp(out, wanted, sizeof out) == 0);
    f = dhcpopt_vendor_records(bytes, 0, out, 0);
    CHECK(f.refusal == DHCPOPT_NOT_REFUSED && f.size == 0 && f.place == 0);

    memset(out, 238, sizeof out);
    f = dhcpopt_vendor_write(wanted, 7, out, 4);
    CHECK(f.refusal == DHCPOPT_REFUSED_NO_ROOM && f.size == 0 && f.place == 4);
    f = dhcpopt_vendor_write(faulty, sizeof faulty, out, sizeof out);
    CHECK(f.refusal == DHCPOPT_REFUSED_BAD_CODE && f.size == 0 && f.place == 3);
    f = dhcpopt_vendor_write(faulty, 5, out, sizeof out);
    CHECK(f.refusal == DHCPOPT_REFUSED_RECORD_TRUNCATED && f.size == 0 && f.place == 3);
    CHECK(out[0] == 238 && memcmp(out, out + 1, sizeof out - 1) == 0);
    f = dhcpopt_vendor_write(wanted, 7, out, sizeof out);
    CHECK(f.refusal == DHCPOPT_NOT_REFUSED && f.size == 5 && f.place == 0 && memcmp(out, items, sizeof items) == 0);
}

/* No more than DHCPOPT_LONGEST_VENDOR bytes: a record of 253 data bytes is the longest that fits, one of 255 is no longer a 13. */
static void vendor_limits(void)
{
    static uint8_t sheet[3 + DHCPOPT_LONGEST_ITEM + 1] = {7, 0, 253}, out[2 * sizeof sheet], back[sizeof sheet];
    dhcpopt_filled f = dhcpopt_vendor_write(sheet, 3 + 253, out, DHCPOPT_LONGEST_VENDOR);
    CHECK(f.refusal == DHCPOPT_NOT_REFUSED && f.size == DHCPOPT_LONGEST_VENDOR);
    f = dhcpopt_vendor_records(out, f.size, back, sizeof back);
    CHECK(f.refusal == DHCPOPT_NOT_REFUSED && f.size == 3 + 253 && memcmp(back, sheet, f.size) == 0);
    sheet[2] = DHCPOPT_LONGEST_ITEM;
    f = dhcpopt_vendor_write(sheet, 3 + DHCPOPT_LONGEST_ITEM, out, sizeof out);
    CHECK(f.refusal == DHCPOPT_REFUSED_NO_ROOM && f.place == sizeof out);
    sheet[1] = 1;
    sheet[2] = 0;
    f = dhcpopt_vendor_write(sheet, 3 + 256, out, sizeof out);
    CHECK(f.refusal == DHCPOPT_REFUSED_RECORD_TOO_LONG && f.place == 0);
    static uint8_t longer[DHCPOPT_LONGEST_SHEET + 1];
    f = dhcpopt_vendor_write(longer, sizeof longer, out, sizeof out);
    CHECK(f.refusal == DHCPOPT_REFUSED_SHEET_TOO_LONG && f.place == DHCPOPT_LONGEST_SHEET + 1);
}

/* A group for all with one for "a" and one for "b" in it. */
static void grouped(void)
{
    static const uint8_t file[22] = {0, 0, 19, 0, 53, 0, 1, 5, 0, 0, 5, 1, 'a', 12, 0, 0, 0, 0, 2, 1, 'b', 9};
    static const uint8_t type[4] = {53, 0, 1, 5};
    static const uint8_t moved[8] = {0, 0, 5, 0, 53, 0, 1, 5};
    uint8_t out[9];
    dhcpopt_checked c = dhcpopt_check_grouped(file, sizeof file);
    CHECK(c.refusal == DHCPOPT_REFUSED_BAD_GROUP && c.place == 21);
    c = dhcpopt_check_grouped(file, 3);
    CHECK(c.refusal == DHCPOPT_REFUSED_BAD_GROUP && c.place == 0);
    c = dhcpopt_check_grouped((const uint8_t *)"\x34\x00\x00", 3); /* 20, not 10 */
    CHECK(c.refusal == DHCPOPT_REFUSED_BAD_GROUP && c.place == 0);
    uint8_t whole[21];
    memcpy(whole, file, sizeof whole);
    whole[2] = 18;
    c = dhcpopt_check_grouped(whole, sizeof whole);
    CHECK(c.refusal == DHCPOPT_NOT_REFUSED && c.place == 0);
    memset(out, 238, sizeof out);
    dhcpopt_filled f = dhcpopt_choose(whole, sizeof whole, (const uint8_t *)"a", 1, out, 6);
    CHECK(f.refusal == DHCPOPT_REFUSED_NO_ROOM && f.size == 0 && f.place == 6);
    f = dhcpopt_ungroup(whole, sizeof whole, out, sizeof out);
    CHECK(f.refusal == DHCPOPT_REFUSED_NO_WAY_BACK && f.size == 0 && f.place == 0);
    f = dhcpopt_group(file, 4, out, sizeof out);
    CHECK(f.refusal == DHCPOPT_REFUSED_RECORD_TRUNCATED && f.size == 0 && f.place == 0);
    CHECK(out[0] == 238 && memcmp(out, out + 1, sizeof out - 1) == 0);
    f = dhcpopt_choose(whole, sizeof whole, (const uint8_t *)"a", 1, out, sizeof out);
    CHECK(f.refusal == DHCPOPT_NOT_REFUSED && f.size == 7 && f.place == 0);
    CHECK(memcmp(out, type, 4) == 0 && out[4] == 12 && out[5] == 0 && out[6] == 0 && out[7] == 238);
    f = dhcpopt_choose(whole, sizeof whole, (const uint8_t *)"b", 1, out, sizeof out);
    CHECK(f.refusal == DHCPOPT_NOT_REFUSED && f.size == 4 && out[4] == 12);
    f = dhcpopt_group(type, sizeof type, out, sizeof out);
    CHECK(f.refusal == DHCPOPT_NOT_REFUSED && f.size == 8 && f.place == 0);
    CHECK(memcmp(out, moved, sizeof moved) == 0 && out[8] == 238);
    f = dhcpopt_ungroup(moved, sizeof moved, out, sizeof out);
    CHECK(f.refusal == DHCPOPT_NOT_REFUSED && f.size == 4 && f.place == 0 && memcmp(out, type, 4) == 0 && out[4] == 53);
}

/* The helpers of the header: the names, a sheet in the making with every room, and the steps. */
static void names(void)
{
    CHECK(DHCPOPT_CODE_SUBNET_MASK == 1 && DHCPOPT_CODE_LEASE_TIME == 51 && DHCPOPT_CODE_CLIENT_IDENTIFIER == 61 && DHCPOPT_CODE_STDA_SERVER == 76);
    CHECK(DHCPOPT_TYPE_DISCOVER == 1 && DHCPOPT_TYPE_OFFER == 2 && DHCPOPT_TYPE_ACK == 5 && DHCPOPT_TYPE_NAK == 6 && DHCPOPT_TYPE_INFORM == 8);
    CHECK(strcmp(dhcpopt_code_name(51), "IP address lease time") == 0 && strcmp(dhcpopt_code_name(1), "subnet mask") == 0);
    CHECK(strcmp(dhcpopt_code_name(0), "") == 0 && strcmp(dhcpopt_code_name(63), "") == 0 && strcmp(dhcpopt_code_name(255), "") == 0);
    CHECK(strcmp(dhcpopt_kind_name(DHCPOPT_KIND_NONE), "") == 0 && strcmp(dhcpopt_kind_name(DHCPOPT_KIND_OPAQUE), "opaque") == 0);
    CHECK(strcmp(dhcpopt_kind_name(DHCPOPT_KIND_ADDRESS_PAIRS), "address pairs") == 0 && strcmp(dhcpopt_kind_name(UINT32_MAX), "") == 0);
    CHECK(strcmp(dhcpopt_refusal_name(DHCPOPT_NOT_REFUSED), "") == 0 && strcmp(dhcpopt_refusal_name(UINT32_MAX), "") == 0);
    CHECK(strcmp(dhcpopt_refusal_name(5), "no end") == 0 && strcmp(dhcpopt_refusal_name(22), "no way back") == 0);
    CHECK(strcmp(dhcpopt_refusal_name(26), "bad route") == 0 && strcmp(dhcpopt_kind_name(13), "routes") == 0);
    /* A code has a name exactly where the lookup, every code known, does not call it unknown. */
    for (unsigned c = 1; c < 255; c++) {
        size_t n = make("", 0, "", 0, "", 0);
        message[n++] = (uint8_t)c;
        message[n++] = c == 52;
        if (c == 52)
            message[n++] = 1;
        message[n++] = 255;
        message[DHCPOPT_FILE_OFFSET] = 255;
        dhcpopt_answer a = dhcpopt_lookup_known(message, n, dhcpopt_known_all(), (uint8_t)c);
        CHECK(a.status != DHCPOPT_STATUS_REFUSED && a.status != DHCPOPT_STATUS_ABSENT);
        CHECK((dhcpopt_code_name((uint8_t)c)[0] != 0) == (a.status != DHCPOPT_STATUS_UNKNOWN));
    }
}

/* The records of the helpers, one of each, 53 bytes in all. */
static int put_all(dhcpopt_sheet *s)
{
    static const uint32_t routers[2] = {0xC0000201, 0xFFFEFD80};
    int put = dhcpopt_put_u8(s, DHCPOPT_CODE_MESSAGE_TYPE, DHCPOPT_TYPE_OFFER);
    put += dhcpopt_put_u16(s, DHCPOPT_CODE_INTERFACE_MTU, 0x05DC);
    put += dhcpopt_put_u32(s, DHCPOPT_CODE_TIME_OFFSET, (uint32_t)-3600);
    put += dhcpopt_put_address(s, DHCPOPT_CODE_SUBNET_MASK, 0xFFFFFF00);
    put += dhcpopt_put_addresses(s, DHCPOPT_CODE_ROUTER, routers, 2);
    put += dhcpopt_put_text(s, DHCPOPT_CODE_HOST_NAME, "meter");
    put += dhcpopt_put(s, 224, NULL, 0);
    put += dhcpopt_put_addresses(s, DHCPOPT_CODE_MOBILE_IP_HOME_AGENT, NULL, 0);
    put += dhcpopt_put(s, 225, "\x00\xff", 2);
    return put;
}

static void sheets(void)
{
    static const uint8_t wanted[] = {53, 0, 1, 2, 26, 0, 2, 5, 220, 2, 0, 4, 255, 255, 241, 240, 1, 0, 4, 255, 255, 255, 0,
                                     3, 0, 8, 192, 0, 2, 1, 255, 254, 253, 128, 12, 0, 5, 'm', 'e', 't', 'e', 'r',
                                     224, 0, 0, 68, 0, 0, 225, 0, 2, 0, 255};
    static const size_t ends[] = {0, 4, 9, 16, 23, 34, 42, 45, 48, 53};
    uint8_t bytes[60];
    /* With every room: the records that fit before the first that does not, and no byte behind them. */
    for (size_t room = 0; room <= sizeof bytes; room++) {
        int fit = 0;
        while (fit < 9 && ends[fit + 1] <= room)
            fit++;
        memset(bytes, 238, sizeof bytes);
        dhcpopt_sheet s = dhcpopt_sheet_begin(bytes, room);
        CHECK(put_all(&s) == fit && s.size == ends[fit] && s.full == (fit < 9) && s.room == room && s.bytes == bytes);
        CHECK(memcmp(bytes, wanted, s.size) == 0);
        for (size_t i = s.size; i < sizeof bytes; i++)
            CHECK(bytes[i] == 238);
    }
    /* Lengths at which a bound that is added up would wrap, and one over what two bytes of length say. */
    static uint8_t large[70000], data[65536];
    dhcpopt_sheet s = dhcpopt_sheet_begin(large, sizeof large);
    CHECK(dhcpopt_put(&s, 43, data, 65535) == 1 && s.size == 65538 && large[1] == 255 && large[2] == 255);
    s = dhcpopt_sheet_begin(large, sizeof large);
    CHECK(dhcpopt_put(&s, 43, data, 65536) == 0 && s.size == 0 && s.full == 1);
    CHECK(dhcpopt_put_u8(&s, 53, 2) == 0 && s.size == 0); /* nothing more is put */
    s = dhcpopt_sheet_begin(large, sizeof large);
    CHECK(dhcpopt_put(&s, 43, data, SIZE_MAX) == 0 && s.size == 0 && s.full == 1);
    static const uint32_t none[1] = {0};
    s = dhcpopt_sheet_begin(large, sizeof large);
    CHECK(dhcpopt_put_addresses(&s, 3, none, SIZE_MAX / 4 + 1) == 0 && s.size == 0 && s.full == 1); /* four times that is 0 */
    s = dhcpopt_sheet_begin(large, sizeof large);
    CHECK(dhcpopt_put_addresses(&s, 3, none, 16384) == 0 && s.size == 0 && s.full == 1);
    s = dhcpopt_sheet_begin(large, 3);
    s.size = 4; /* a size past the room, which no helper makes */
    CHECK(dhcpopt_put(&s, 43, NULL, 0) == 0 && s.size == 4 && s.full == 1);

    /* What was put is stepped over, and every cut of it ends at the record that is cut. */
    s = dhcpopt_sheet_begin(bytes, sizeof bytes);
    CHECK(put_all(&s) == 9);
    for (size_t size = 0; size <= s.size; size++) {
        size_t i = 0;
        dhcpopt_record r = dhcpopt_record_step(bytes, size, 0);
        for (; r.given; r = dhcpopt_record_step(bytes, size, r.next), i++)
            CHECK(i < 9 && r.tag == bytes[ends[i]] && r.start == ends[i] + 3 && r.next == ends[i + 1] && r.length == r.next - r.start);
        CHECK(r.given == 0 && r.tag == 0 && r.start == 0 && r.length == 0 && r.next == ends[i] && (i == 9 || ends[i + 1] > size));
    }
    CHECK(dhcpopt_record_step(bytes, 3, 4).given == 0 && dhcpopt_record_step(bytes, 3, SIZE_MAX).next == SIZE_MAX);

    /* The writer takes what the helpers put. */
    dhcpopt_wrote w = dhcpopt_write(bytes, s.size, message, 300, DHCPOPT_OVERLOAD_NONE);
    CHECK(w.refusal == DHCPOPT_NOT_REFUSED && w.plan == DHCPOPT_OVERLOAD_NONE);
    dhcpopt_codes c = dhcpopt_present(message, 300);
    for (unsigned code = 0; code < 256; code++) {
        int there = code == 53 || code == 26 || code == 2 || code == 1 || code == 3 || code == 12 || code == 224 || code == 68 || code == 225;
        CHECK(dhcpopt_has(c, (uint8_t)code) == there);
    }
    c = dhcpopt_present(message, 239);
    CHECK(c.refusal == DHCPOPT_REFUSED_TOO_SHORT && dhcpopt_has(c, 53) == 0);
}

static void address_pairs(void)
{
    static const uint8_t list[20] = {192, 0, 2, 1, 255, 255, 255, 0, 10, 0, 0, 1, 255, 0, 0, 0, 7, 7, 7, 7};
    for (size_t size = 0; size <= sizeof list; size++) {
        size_t i = 0;
        dhcpopt_address_pair p = dhcpopt_address_pair_step(list, size, 0);
        for (; p.given; p = dhcpopt_address_pair_step(list, size, p.next), i++) {
            CHECK(p.given == 1 && p.next == 8 * (i + 1));
            CHECK(i == 0 ? p.first == 0xC0000201 && p.second == 0xFFFFFF00 : p.first == 0x0A000001 && p.second == 0xFF000000);
        }
        CHECK(p.given == 0 && p.first == 0 && p.second == 0 && p.next == 8 * i && i == size / 8);
    }
    CHECK(dhcpopt_address_pair_step(list, 8, SIZE_MAX - 2).given == 0);
}

/* A file of captures: a message with a lease time of 3,600 seconds, one that is refused by 5, and a record of another tag. */
static void captures(void)
{
    static uint64_t verdicts[DHCPOPT_CAPTURES_VERDICTS], held[DHCPOPT_CAPTURES_CODES], bytes[DHCPOPT_CAPTURES_CODES];
    static uint8_t kept[DHCPOPT_CAPTURES_MESSAGE], text[DHCPOPT_CAPTURES_TEXT], file[512];
    static const char report[] = "messages 2\naccepted 1\nrefusals 1 0\nrefusals 2 0\nrefusals 3 0\nrefusals 4 0\nrefusals 5 1\nrefusals 6 0\n"
                                 "refusals 7 0\ncode 51 1 4\ncode 52 1 1\nlease 3600 3600\nrefused 24 493\n";
    size_t size = OVERLOADED("\x34\1\1\xff", "\x33\4\0\0\x0e\x10\xff", ""), i = 0;
    verdicts[1] = held[0] = bytes[255] = 7;
    dhcpopt_captures p = dhcpopt_captures_begin(verdicts, held, bytes);
    CHECK(p.began == 0 && p.messages == 0 && p.size == 0 && p.read == 0 && p.stage == 0 && p.leases == 0 && p.smallest == 0);
    CHECK(p.largest == 0 && p.high == 0 && verdicts[1] == 0 && held[0] == 0 && bytes[255] == 0);
    file[i++] = 1, file[i++] = 0, file[i++] = (uint8_t)size;
    memcpy(file + i, message, size);
    i += size;
    file[i++] = 1, file[i++] = 0, file[i++] = (uint8_t)(size - 1);
    memcpy(file + i, message, size - 1);
    i += size - 1;
    /* in parts: up to the high length byte of the second record, ten bytes of its message, the rest */
    p = dhcpopt_captures_feed(file, 249, p, kept, verdicts, held, bytes);
    CHECK(p.began == 247 && p.messages == 1 && p.stage == 2 && p.high == 0 && p.size == 0 && p.read == 0);
    p = dhcpopt_captures_feed(file + 249, 11, p, kept, verdicts, held, bytes);
    CHECK(p.began == 247 && p.messages == 1 && p.stage == 0 && p.size == 243 && p.read == 10);
    p = dhcpopt_captures_feed(file + 260, i - 260, p, kept, verdicts, held, bytes);
    CHECK(p.began == 493 && p.messages == 2 && p.stage == 0 && p.size == 0 && p.read == 0);
    CHECK(p.leases == 1 && p.smallest == 3600 && p.largest == 3600);
    CHECK(verdicts[0] == 1 && verdicts[5] == 1 && held[51] == 1 && bytes[51] == 4 && held[52] == 1 && bytes[52] == 1 && held[53] == 0);
    p = dhcpopt_captures_feed(kept, 0, p, kept, verdicts, held, bytes);
    CHECK(p.began == 493 && p.stage == 0);
    file[0] = 2;
    p = dhcpopt_captures_feed(file, 1, p, kept, verdicts, held, bytes);
    CHECK(p.began == 493 && p.stage == 3 && p.messages == 2);
    memset(text, 238, sizeof text);
    CHECK(dhcpopt_captures_report(p, verdicts, held, bytes, text) == sizeof report - 1);
    CHECK(memcmp(text, report, sizeof report - 1) == 0 && text[sizeof report - 1] == 238);
}

int main(void)
{
    lookup();
    origins();
    pieces();
    parts();
    texts();
    names();
    sheets();
    address_step();
    address_pairs();
    present();
    indexed();
    profile();
    routes();
    routes_ignored();
    records();
    write_sheet();
    write_long();
    vendor();
    vendor_limits();
    grouped();
    captures();
    if (!failed)
        printf("every member is as declared\n");
    return failed;
}
