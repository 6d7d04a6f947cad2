/* The meter's reply profile (request 13 of document 02), in plain C: one checked walk that notes where each code stands, then the rules. */
#include "plain_kinds.h"

#include <stdbool.h>
#include <string.h>

enum { IN_PIECES = 65535 };

/* The kinds of the codes that are named here are known. */
__attribute__((unused)) static uint32_t (*const unused)(uint8_t) = kind_of;

typedef struct {
    uint32_t refusal, over;
    size_t place;
} verdict;

static bool refuse(verdict *v, uint32_t refusal, size_t place)
{
    v->refusal = refusal;
    v->place = place;
    return false;
}

/* Notes the options of the field from i to end: the place of each code, IN_PIECES from its second piece on. */
static bool note_field(verdict *v, uint16_t *at, const uint8_t *m, size_t i, size_t end)
{
    bool options = i == OPTIONS;
    while (i < end) {
        uint8_t c = m[i];
        if (c == END)
            return true;
        if (c == PAD) {
            i++;
            continue;
        }
        if (end - i < 2 || end - i - 2 < m[i + 1])
            return refuse(v, 4, i);
        if (c == OVERLOAD) {
            if (!options || m[i + 1] != 1 || m[i + 2] < 1 || m[i + 2] > 3)
                return refuse(v, 6, i);
            if (v->over != 0)
                return refuse(v, 7, i);
            v->over = m[i + 2];
        }
        at[c] = at[c] == 0 ? (uint16_t)i : IN_PIECES;
        i += 2 + (size_t)m[i + 1];
    }
    return refuse(v, 5, end);
}

/* One checked walk. */
static bool note(verdict *v, uint16_t *at, const uint8_t *m, size_t n)
{
    if (n < OPTIONS)
        return refuse(v, 1, n);
    if (n > LONGEST)
        return refuse(v, 2, n);
    if (m[COOKIE] != 99 || m[COOKIE + 1] != 130 || m[COOKIE + 2] != 83 || m[COOKIE + 3] != 99)
        return refuse(v, 3, COOKIE);
    return note_field(v, at, m, OPTIONS, n) && (!(v->over & 1) || note_field(v, at, m, FILE_FIELD, COOKIE)) &&
           (!(v->over & 2) || note_field(v, at, m, SNAME, FILE_FIELD));
}

static plain_answer walk_for(const uint8_t *m, size_t n, uint8_t code)
{
    static const uint64_t every[4] = {UINT64_MAX, UINT64_MAX, UINT64_MAX, UINT64_MAX};
    return plain_lookup(m, n, every, code);
}

/* "present and well-formed" */
static bool formed(const uint16_t *at, const uint8_t *m, size_t n, uint8_t code, uint32_t kind)
{
    if (at[code] == 0)
        return false;
    if (at[code] == IN_PIECES) {
        plain_answer a = walk_for(m, n, code);
        return a.status == PLAIN_NUMBER || a.status == PLAIN_PART;
    }
    const uint8_t *p = m + at[code];
    return length_fits(kind, code, p[1]) && value_fits(kind, code, p + 2, p[1]);
}

/* "message types 2 (offer) and 5 (acknowledge to a request)" */
static bool reply(const uint16_t *at, const uint8_t *m, size_t n)
{
    uint32_t type = 0;
    if (at[53] == IN_PIECES) {
        plain_answer a = walk_for(m, n, 53);
        type = a.status == PLAIN_NUMBER ? (uint32_t)a.number : 0;
    } else if (at[53] != 0 && m[at[53] + 1] == 1) {
        type = m[at[53] + 2];
    }
    return type == 2 || type == 5;
}

/* A number that grows in reading order: options, file, sname. */
static size_t turn(const uint16_t *at, const uint8_t *m, size_t n, uint8_t code)
{
    size_t place = at[code] == IN_PIECES ? walk_for(m, n, code).start - 2 : at[code];
    return place >= OPTIONS ? place : place >= FILE_FIELD ? place + LONGEST : place + 2 * LONGEST;
}

plain_profiled plain_profile(const uint8_t *m, size_t n)
{
    plain_profiled r = {0};
    verdict v = {0};
    uint16_t at[256];
    memset(at, 0, sizeof at);
    if (!note(&v, at, m, n)) {
        r.refusal = v.refusal;
        r.place = v.place;
        return r;
    }
    if (!reply(at, m, n)) {
        r.refusal = 25;
        return r;
    }
    r.broken |= (uint32_t)!formed(at, m, n, 51, PLAIN_UNSIGNED32) << 0;
    r.broken |= (uint32_t)!formed(at, m, n, 54, PLAIN_ADDRESS) << 1;
    r.broken |= (uint32_t)(at[50] != 0) << 2;
    r.broken |= (uint32_t)(at[55] != 0) << 3;
    r.broken |= (uint32_t)(at[57] != 0) << 4;
    r.broken |= (uint32_t)!formed(at, m, n, 1, PLAIN_ADDRESS) << 5;
    r.broken |= (uint32_t)!formed(at, m, n, 3, PLAIN_ADDRESSES) << 6;
    if (at[1] != 0 && at[3] != 0 && turn(at, m, n, 3) < turn(at, m, n, 1))
        r.broken |= 128;
    return r;
}
