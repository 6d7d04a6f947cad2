#include "plain_kinds.h"

#include <string.h>

enum { LONGEST_SHEET = 4096, LONGEST_RECORD = 1024, LONGEST_PIECE = 255, HEAD = 3, MASK = 1, ROUTER = 3 };
enum { OVERLOAD_SIZE = 3, FILE_ROOM = COOKIE - FILE_FIELD - 1, SNAME_ROOM = FILE_FIELD - SNAME - 1 }; /* but END */

static plain_wrote refused(uint32_t refusal, size_t place)
{
    return (plain_wrote){.refusal = refusal, .place = place};
}

/* Judges the records in one walk. *size becomes what they take as options. */
static plain_wrote judge(const uint8_t *s, size_t n, size_t *size)
{
    uint64_t seen[4] = {0};
    size_t taken = n, router = 0;
    bool late = false; /* tag 1 stands behind tag 3 */
    size_t relay = 0, relay_end = n; /* 82, and where it ends: not before the sheet does */
    for (size_t i = 0; i < n;) {
        if (n - i < HEAD)
            return refused(12, i);
        uint8_t c = s[i];
        size_t length = number16(s + i + 1);
        const uint8_t *d = s + i + HEAD;
        if (n - i - HEAD < length)
            return refused(12, i);
        if (c == PAD || c == OVERLOAD || c == END)
            return refused(10, i);
        if (length > LONGEST_RECORD)
            return refused(13, i);
        uint64_t bit = (uint64_t)1 << (c % 64);
        if (seen[c / 64] & bit)
            return refused(7, i);
        seen[c / 64] |= bit;
        uint32_t kind = kind_of(c);
        if (!length_fits(kind, c, length))
            return refused(8, i);
        if (!value_fits(kind, c, d, length))
            return refused(VALUE_FAULT(kind, d, length), i);
        if (c == ROUTER)
            router = i;
        if (c == MASK)
            late = seen[0] >> ROUTER & 1;
        if (kind == PLAIN_RELAY) {
            relay = i;
            relay_end = i + HEAD + length;
        }
        taken--; /* an option's length takes one byte, a record's two */
        if (length > LONGEST_PIECE)
            taken += (length - 1) / LONGEST_PIECE * 2; /* a head for each piece but the first */
        i += HEAD + length;
    }
    *size = taken;
    if (!late && relay_end < n)
        return refused(23, relay);
    return late ? refused(14, router) : refused(0, 0);
}

/* A place between two pieces: a record, and how many of its data bytes stand before. */
typedef struct {
    size_t i, done;
} cut;

/* The first piece from p on that does not fit into the room; the sheet's end if all do. */
static cut fitting(const uint8_t *s, cut p, size_t n, size_t room)
{
    while (p.i < n) {
        const uint8_t *record = s + p.i;
        if (record[1] == 0) { /* one piece */
            if (room < record[2] + 2u)
                break;
            room -= record[2] + 2u;
            p.i += HEAD + record[2];
            continue;
        }
        size_t left = number16(record + 1) - p.done;
        size_t piece = left > LONGEST_PIECE ? LONGEST_PIECE : left;
        if (room < piece + 2)
            break;
        room -= piece + 2;
        p.done += piece;
        if (piece == left)
            p = (cut){p.i + HEAD + p.done, 0};
    }
    return p;
}

/* How the pieces are shared out: options has those before `options`, file the next before `file`, sname the rest. */
typedef struct {
    uint32_t number;
    cut options, file;
} plan;

/* Finds the first plan that is tried and fits. */
static bool find_plan(plan *p, const uint8_t *s, size_t n, size_t size, size_t room, uint8_t permission)
{
    cut first = {0, 0}, last = {n, 0};
    if (size < room) {
        *p = (plan){0, last, last};
        return true;
    }
    if (permission == 0 || room < OVERLOAD_SIZE + 1)
        return false;
    cut options = fitting(s, first, n, room - OVERLOAD_SIZE - 1);
    cut file = permission & 1 ? fitting(s, options, n, FILE_ROOM) : options;
    if ((permission & 1) && file.i == n) {
        *p = (plan){1, options, last};
        return true;
    }
    /* Not under permission 3: what fits sname fits file, which was tried. */
    if (permission == 2) {
        *p = (plan){2, options, options};
        return fitting(s, options, n, SNAME_ROOM).i == n;
    }
    *p = (plan){3, options, file};
    return permission == 3 && fitting(s, file, n, SNAME_ROOM).i == n;
}

/* Writes the data of a record from one place to another as pieces. */
static uint8_t *put_pieces(uint8_t *out, const uint8_t *record, size_t from, size_t upto)
{
    while (from < upto) {
        size_t piece = upto - from > LONGEST_PIECE ? LONGEST_PIECE : upto - from;
        *out++ = record[0];
        *out++ = (uint8_t)piece;
        memcpy(out, record + HEAD + from, piece);
        out += piece;
        from += piece;
    }
    return out;
}

/* Writes the pieces from p up to stop as options, then END and zeros up to end. */
static void fill(uint8_t *out, uint8_t *end, const uint8_t *s, cut p, cut stop)
{
    const uint8_t *record = s + p.i, *last = s + stop.i;
    if (p.done > 0 && record < last) {
        size_t length = number16(record + 1);
        out = put_pieces(out, record, p.done, length);
        record += HEAD + length;
        p.done = 0;
    }
    while (record < last) {
        size_t length = number16(record + 1);
        if (length <= LONGEST_PIECE) {
            out[0] = record[0];
            memcpy(out + 1, record + 2, length + 1);
            out += length + 2;
        } else {
            out = put_pieces(out, record, 0, length);
        }
        record += HEAD + length;
    }
    if (p.done < stop.done)
        out = put_pieces(out, last, p.done, stop.done);
    *out++ = END;
    memset(out, 0, (size_t)(end - out));
}

plain_wrote plain_write(const uint8_t *sheet, size_t n, uint8_t *m, size_t room, uint8_t permission)
{
    static const uint8_t cookie[4] = {99, 130, 83, 99};
    if (room < OPTIONS)
        return refused(1, room);
    if (room > LONGEST)
        return refused(2, room);
    if (permission > 3)
        return refused(15, 0);
    if (n > LONGEST_SHEET)
        return refused(16, n);
    size_t size;
    plain_wrote w = judge(sheet, n, &size);
    if (w.refusal != 0)
        return w;
    plan p;
    if (!find_plan(&p, sheet, n, size, room - OPTIONS, permission))
        return refused(11, room);
    uint8_t *out = m + OPTIONS;
    memcpy(m + COOKIE, cookie, sizeof cookie);
    if (p.number != 0) {
        *out++ = OVERLOAD;
        *out++ = 1;
        *out++ = (uint8_t)p.number;
    }
    fill(out, m + room, sheet, (cut){0, 0}, p.options);
    if (p.number & 1)
        fill(m + FILE_FIELD, m + COOKIE, sheet, p.options, p.file);
    if (p.number & 2)
        fill(m + SNAME, m + FILE_FIELD, sheet, p.file, (cut){n, 0});
    w.plan = p.number;
    return w;
}
