#include "plain_kinds.h"

#include <stdbool.h>
#include <string.h>

/* What a walk is for: a code's pieces, the codes present, or what the records take. */
enum { FIND, CODES, RECORDS };

/* What one walk over a message keeps. */
typedef struct {
    size_t at;             /* FIND: where the wanted code's first piece stands, 0: not met */
    size_t pieces, whole;  /* FIND: how many pieces it has, and the bytes of all of them */
    size_t size;           /* RECORDS: what the options, but 52, take as records */
    uint32_t over;         /* the value of option 52, 0: not met */
    uint32_t refusal;
    size_t place;
} walk;

/* CODES, RECORDS: the codes met. RECORDS: those met more than once, if there are any. */
typedef struct {
    uint64_t met[4], again[4];
    bool split;
} codes;

static bool refuse(walk *w, uint32_t refusal, size_t place)
{
    w->refusal = refusal;
    w->place = place;
    return false;
}

/* Judges the option 52 at i. */
static bool overload(walk *w, const uint8_t *m, size_t i, bool options)
{
    if (!options || m[i + 1] != 1 || m[i + 2] < 1 || m[i + 2] > 3)
        return refuse(w, 6, i);
    if (w->over != 0)
        return refuse(w, 7, i);
    w->over = m[i + 2];
    return true;
}

/* Walks the field from i to end. */
static inline bool walk_field(walk *w, codes *k, const uint8_t *m, size_t i, size_t end, int aim, uint8_t want)
{
    bool options = i == OPTIONS;
    while (i < end) {
        uint8_t c = m[i];
        if (c == END)
            return true;
        if (c == PAD) {
            i++;
            continue;
        }
        if (end - i < 2 || end - i - 2 < m[i + 1])
            return refuse(w, 4, i);
        size_t n = m[i + 1];
        if (c == OVERLOAD && !overload(w, m, i, options))
            return false;
        uint64_t bit = (uint64_t)1 << (c % 64);
        if (aim == RECORDS && c != OVERLOAD) {
            w->size += n + 3;
            if (k->met[c / 64] & bit) {
                k->again[c / 64] |= bit;
                k->split = true;
                w->size -= 3;
            }
        }
        if (aim != FIND)
            k->met[c / 64] |= bit;
        if (aim == FIND && c == want) {
            if (w->pieces == 0)
                w->at = i;
            w->pieces++;
            w->whole += n;
        }
        i += 2 + n;
    }
    return refuse(w, 5, end);
}

/* Walks the message once. */
static inline bool walk_message(walk *w, codes *k, const uint8_t *m, size_t n, int aim, uint8_t want)
{
    memset(w, 0, sizeof *w);
    if (n < OPTIONS)
        return refuse(w, 1, n);
    if (n > LONGEST)
        return refuse(w, 2, n);
    if (m[COOKIE] != 99 || m[COOKIE + 1] != 130 || m[COOKIE + 2] != 83 || m[COOKIE + 3] != 99)
        return refuse(w, 3, COOKIE);
    if (!walk_field(w, k, m, OPTIONS, n, aim, want))
        return false;
    if ((w->over & 1) && !walk_field(w, k, m, FILE_FIELD, COOKIE, aim, want))
        return false;
    if ((w->over & 2) && !walk_field(w, k, m, SNAME, FILE_FIELD, aim, want))
        return false;
    return true;
}

/* Walks for the pieces of a code. */
static bool find(walk *w, const uint8_t *m, size_t n, uint8_t want)
{
    return walk_message(w, NULL, m, n, FIND, want);
}

/* The next field of a message that was walked, behind the END at p; NULL if there is none. */
static const uint8_t *next_field(const uint8_t *m, const uint8_t *p, uint32_t over)
{
    if (p >= m + OPTIONS && (over & 1))
        return m + FILE_FIELD;
    return p >= m + FILE_FIELD && (over & 2) ? m + SNAME : NULL;
}

/* Copies as many pieces of the code at p, the first, as are asked for and there; gives where the copy ends. */
static uint8_t *join(uint8_t *out, const uint8_t *m, const uint8_t *p, size_t pieces, uint32_t over)
{
    uint8_t code = *p;
    while (p != NULL) {
        if (*p == END) {
            p = next_field(m, p, over);
            continue;
        }
        if (*p == code) {
            memcpy(out, p + 2, p[1]);
            out += p[1];
            if (--pieces == 0)
                break;
        }
        p += *p == PAD ? 1 : 2 + p[1];
    }
    return out;
}

static uint32_t field_of(size_t at)
{
    return at >= OPTIONS ? PLAIN_OPTIONS : at >= FILE_FIELD ? PLAIN_FILE : PLAIN_SNAME;
}

static size_t offset_of(size_t at)
{
    return at - (at >= OPTIONS ? OPTIONS : at >= FILE_FIELD ? FILE_FIELD : SNAME);
}

plain_answer plain_lookup(const uint8_t *m, size_t n, const uint64_t known[4], uint8_t code)
{
    plain_answer a = {0};
    walk w;
    uint8_t joined[LONGEST];
    if (code == PAD || code == END) {
        a.status = PLAIN_REFUSED;
        a.refusal = 10;
        return a;
    }
    if (!find(&w, m, n, code)) {
        a.status = PLAIN_REFUSED;
        a.refusal = w.refusal;
        a.place = w.place;
        return a;
    }
    if (w.pieces == 0)
        return a;
    a.field = field_of(w.at);
    a.offset = offset_of(w.at);
    a.start = w.at + 2;
    if (w.pieces > 1) {
        a.several = 1;
        a.whole = w.whole;
    }
    uint32_t kind = known[code / 64] >> (code % 64) & 1 ? kind_of(code) : PLAIN_NO_ROW;
    if (kind == PLAIN_NO_ROW) {
        a.status = PLAIN_UNKNOWN;
        a.length = w.whole;
        return a;
    }
    if (!length_fits(kind, code, w.whole)) {
        a.status = PLAIN_BROKEN;
        a.refusal = 8;
        a.place = w.at;
        return a;
    }
    const uint8_t *d = m + w.at + 2;
    if (w.pieces > 1) {
        join(joined, m, m + w.at, w.pieces, w.over);
        d = joined;
    }
    if (!value_fits(kind, code, d, w.whole)) {
        a.status = PLAIN_BROKEN;
        a.refusal = VALUE_FAULT(kind, d, w.whole);
        a.place = w.at;
        return a;
    }
    a.kind = kind;
    a.status = PLAIN_NUMBER;
    switch (kind) {
    case PLAIN_ADDRESS: case PLAIN_UNSIGNED32:
        a.number = number32(d);
        return a;
    case PLAIN_SIGNED32:
        a.number = (int32_t)number32(d);
        return a;
    case PLAIN_FLAG: case PLAIN_OCTET:
        a.number = d[0];
        return a;
    case PLAIN_NUMBER16:
        a.number = number16(d);
        return a;
    default:
        a.status = PLAIN_PART;
        a.length = w.whole;
        if (kind == PLAIN_TEXT)
            while (a.length > 0 && d[a.length - 1] == 0)
                a.length--;
        return a;
    }
}

plain_extent plain_data(const uint8_t *m, size_t n, uint8_t code)
{
    plain_extent e = {0, 0};
    walk w;
    if (code == PAD || code == END || !find(&w, m, n, code) || w.pieces != 1 || w.whole == 0)
        return e;
    e.start = w.at + 2;
    e.length = w.whole;
    return e;
}

plain_filled plain_copy(const uint8_t *m, size_t n, uint8_t code, uint8_t *out, size_t room)
{
    plain_filled f = {0};
    walk w;
    if (code == PAD || code == END) {
        f.refusal = 10;
        return f;
    }
    if (!find(&w, m, n, code)) {
        f.refusal = w.refusal;
        f.place = w.place;
        return f;
    }
    if (w.pieces == 0 || w.whole > room) {
        f.refusal = 11;
        f.place = w.pieces == 0 ? 0 : room;
        return f;
    }
    join(out, m, m + w.at, w.pieces, w.over);
    f.size = w.whole;
    return f;
}

plain_codes plain_present(const uint8_t *m, size_t n)
{
    plain_codes p = {0};
    walk w;
    codes k = {0};
    if (!walk_message(&w, &k, m, n, CODES, PAD)) {
        p.refusal = w.refusal;
        p.place = w.place;
        return p;
    }
    for (int i = 3; i >= 0; i--) {
        p.words[i] = k.met[i];
        p.count += (uint32_t)__builtin_popcountll(k.met[i]);
        if (k.met[i] != 0)
            p.lowest = (uint32_t)(64 * i + __builtin_ctzll(k.met[i]));
    }
    return p;
}

/* Copies a record of the pieces of the code at p, unless that was done at the first. */
static uint8_t *copy_joined(uint8_t *out, const uint8_t *m, const uint8_t *p, uint32_t over, codes *k)
{
    uint64_t bit = (uint64_t)1 << (*p % 64);
    if (!(k->met[*p / 64] & bit))
        return out;
    k->met[*p / 64] &= ~bit;
    uint8_t *end = join(out + 3, m, p, SIZE_MAX, over);
    size_t length = (size_t)(end - out) - 3;
    out[0] = *p;
    out[1] = (uint8_t)(length >> 8);
    out[2] = (uint8_t)length;
    return end;
}

/* Copies the options of a field that was walked, but 52, as records. */
static uint8_t *copy_field(uint8_t *out, const uint8_t *p)
{
    for (; *p != END; p += *p == PAD ? 1 : 2 + p[1]) {
        if (*p == PAD || *p == OVERLOAD)
            continue;
        out[0] = p[0];
        out[1] = 0;
        memcpy(out + 2, p + 1, p[1] + 1);
        out += p[1] + 3;
    }
    return out;
}

/* The same of all fields, where a code is in pieces. */
static void copy_split(uint8_t *out, const uint8_t *m, uint32_t over, codes *k)
{
    for (const uint8_t *p = m + OPTIONS; p != NULL; p = next_field(m, p, over))
        for (; *p != END; p += *p == PAD ? 1 : 2 + p[1]) {
            if (*p == PAD || *p == OVERLOAD)
                continue;
            if (k->again[*p / 64] >> (*p % 64) & 1) {
                out = copy_joined(out, m, p, over, k);
                continue;
            }
            out[0] = p[0];
            out[1] = 0;
            memcpy(out + 2, p + 1, p[1] + 1);
            out += p[1] + 3;
        }
}

/* A refusal writes nothing, so the copying waits for the walk's end. */
plain_filled plain_records(const uint8_t *m, size_t n, uint8_t *out, size_t room)
{
    plain_filled f = {0};
    walk w;
    codes k = {0};
    if (!walk_message(&w, &k, m, n, RECORDS, PAD)) {
        f.refusal = w.refusal;
        f.place = w.place;
        return f;
    }
    if (room < w.size) {
        f.refusal = 11;
        f.place = room;
        return f;
    }
    f.size = w.size;
    if (k.split) {
        copy_split(out, m, w.over, &k);
        return f;
    }
    out = copy_field(out, m + OPTIONS);
    if (w.over & 1)
        out = copy_field(out, m + FILE_FIELD);
    if (w.over & 2)
        copy_field(out, m + SNAME);
    return f;
}

size_t plain_list(const uint8_t *m, size_t n, plain_piece *out)
{
    walk w;
    size_t count = 0;
    if (!find(&w, m, n, PAD))
        return 0;
    for (const uint8_t *p = m + OPTIONS; p != NULL;) {
        if (*p == END) {
            p = next_field(m, p, w.over);
            continue;
        }
        size_t at = (size_t)(p - m);
        if (*p != PAD)
            out[count++] = (plain_piece){*p, field_of(at), offset_of(at), at + 2, p[1]};
        p += *p == PAD ? 1 : 2 + p[1];
    }
    return count;
}
