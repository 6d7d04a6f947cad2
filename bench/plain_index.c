/* An index of a message, and a lookup through it (request 07 of document 02), in plain C. */
#include "plain_kinds.h"

#include <stdbool.h>
#include <string.h>

enum { ENTRIES = 256, IN_PIECES = 65535 };

/* A refusal, 0 if there is none, and its place; and the value of option 52. */
typedef struct {
    uint32_t refusal, over;
    size_t place;
} verdict;

static bool refuse(verdict *v, uint32_t refusal, size_t place)
{
    v->refusal = refusal;
    v->place = place;
    return false;
}

/* Length, cookie and the count of numbers. */
static bool head(verdict *v, const uint8_t *m, size_t n, size_t count)
{
    if (n < OPTIONS)
        return refuse(v, 1, n);
    if (n > LONGEST)
        return refuse(v, 2, n);
    if (m[COOKIE] != 99 || m[COOKIE + 1] != 130 || m[COOKIE + 2] != 83 || m[COOKIE + 3] != 99)
        return refuse(v, 3, COOKIE);
    if (count != ENTRIES)
        return refuse(v, 18, count);
    return true;
}

/* Puts the options of the field from i to end into the index. */
static bool index_field(verdict *v, uint16_t *entries, const uint8_t *m, size_t i, size_t end)
{
    bool options = i == OPTIONS;
    while (i < end) {
        uint8_t c = m[i];
        if (c == END)
            return true;
        if (c == PAD) {
            i++;
            continue;
        }
        if (end - i < 2 || end - i - 2 < m[i + 1])
            return refuse(v, 4, i);
        if (c == OVERLOAD) {
            if (!options || m[i + 1] != 1 || m[i + 2] < 1 || m[i + 2] > 3)
                return refuse(v, 6, i);
            if (v->over != 0)
                return refuse(v, 7, i);
            v->over = m[i + 2];
        }
        entries[c] = entries[c] == 0 ? (uint16_t)i : IN_PIECES;
        i += 2 + (size_t)m[i + 1];
    }
    return refuse(v, 5, end);
}

plain_filled plain_index_build(const uint8_t *m, size_t n, uint16_t *index, size_t count)
{
    plain_filled f = {0};
    verdict v = {0};
    uint16_t entries[ENTRIES];
    if (head(&v, m, n, count)) {
        memset(entries, 0, sizeof entries);
        if (index_field(&v, entries, m, OPTIONS, n) && (!(v.over & 1) || index_field(&v, entries, m, FILE_FIELD, COOKIE)) &&
            (!(v.over & 2) || index_field(&v, entries, m, SNAME, FILE_FIELD))) {
            memcpy(index, entries, sizeof entries);
            f.size = sizeof entries;
            return f;
        }
    }
    f.refusal = v.refusal;
    f.place = v.place;
    return f;
}

/* The first place after the field that holds a place; 0: none does. */
static size_t field_end(size_t n, size_t at)
{
    if (at >= OPTIONS)
        return n;
    if (at >= COOKIE || at < SNAME)
        return 0;
    return at < FILE_FIELD ? FILE_FIELD : COOKIE;
}

/* What is answered of the n data bytes of a code whose byte is at a place, in one piece. */
static plain_answer answer_at(const uint8_t *m, size_t at, size_t n, const uint64_t known[4], uint8_t code)
{
    plain_answer a = {0};
    const uint8_t *d = m + at + 2;
    a.field = at >= OPTIONS ? PLAIN_OPTIONS : at >= FILE_FIELD ? PLAIN_FILE : PLAIN_SNAME;
    a.offset = at - (at >= OPTIONS ? OPTIONS : at >= FILE_FIELD ? FILE_FIELD : SNAME);
    a.start = at + 2;
    uint32_t kind = known[code / 64] >> (code % 64) & 1 ? kind_of(code) : PLAIN_NO_ROW;
    if (kind == PLAIN_NO_ROW) {
        a.status = PLAIN_UNKNOWN;
        a.length = n;
        return a;
    }
    if (!length_fits(kind, code, n) || !value_fits(kind, code, d, n)) {
        a.status = PLAIN_BROKEN;
        a.refusal = length_fits(kind, code, n) ? VALUE_FAULT(kind, d, n) : 8;
        a.place = at;
        return a;
    }
    a.kind = kind;
    a.status = PLAIN_NUMBER;
    switch (kind) {
    case PLAIN_ADDRESS: case PLAIN_UNSIGNED32:
        a.number = number32(d);
        return a;
    case PLAIN_SIGNED32:
        a.number = (int32_t)number32(d);
        return a;
    case PLAIN_FLAG: case PLAIN_OCTET:
        a.number = d[0];
        return a;
    case PLAIN_NUMBER16:
        a.number = number16(d);
        return a;
    default:
        a.status = PLAIN_PART;
        a.length = n;
        if (kind == PLAIN_TEXT)
            while (a.length > 0 && d[a.length - 1] == 0)
                a.length--;
        return a;
    }
}

plain_answer plain_index_lookup(const uint8_t *m, size_t n, const uint16_t *index, size_t count, const uint64_t known[4], uint8_t code)
{
    plain_answer a = {0};
    verdict v = {0};
    if (code == PAD || code == END)
        refuse(&v, 10, 0);
    else if (head(&v, m, n, count)) {
        size_t at = index[code];
        if (at == 0)
            return a;
        if (at == IN_PIECES)
            return plain_lookup(m, n, known, code);
        size_t end = field_end(n, at);
        if (end >= at + 2 && m[at] == code && end - at - 2 >= m[at + 1])
            return answer_at(m, at, m[at + 1], known, code);
        refuse(&v, 19, at);
    }
    a.status = PLAIN_REFUSED;
    a.refusal = v.refusal;
    a.place = v.place;
    return a;
}
