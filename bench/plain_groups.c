/* Grouped sheets (request 08 of document 02) in plain C: the check, the choice for a class, an old sheet into a group and back. */
#include "plain.h"

#include <stdbool.h>
#include <string.h>

enum { LONGEST_FILE = 4100, LONGEST_SHEET = 4096, DEEPEST = 4, HEAD = 3, GROUP = 0, OVERLOAD = 52, END = 255 };

typedef struct {
    const uint8_t *class;
    size_t letters;
} asked;

static plain_checked fault(uint32_t refusal, size_t place)
{
    return (plain_checked){.refusal = refusal, .place = place};
}

static plain_filled refused(uint32_t refusal, size_t place)
{
    return (plain_filled){.refusal = refusal, .place = place};
}

static size_t length_at(const uint8_t *f, size_t at)
{
    return (size_t)f[at + 1] << 8 | f[at + 2];
}

static bool reached(const uint8_t *f, size_t data, asked c)
{
    size_t n = f[data];
    return n == 0 || (n == c.letters && memcmp(f + data + 1, c.class, n) == 0);
}

/* Checks the group with its tag at `at`, which ends at `end`, and adds up the bytes of the records that are chosen of it. */
static plain_checked check_group(const uint8_t *f, size_t at, size_t end, int depth, asked c, bool entered, size_t *size)
{
    size_t i = at + HEAD;
    if (i == end || end - i - 1 < f[i])
        return fault(20, at);
    if (depth > DEEPEST)
        return fault(21, at);
    entered = entered && reached(f, i, c);
    i += 1 + f[i];
    while (i < end) {
        if (end - i < HEAD || end - i - HEAD < length_at(f, i))
            return fault(20, i);
        size_t next = i + HEAD + length_at(f, i);
        if (f[i] == GROUP) {
            plain_checked inside = check_group(f, i, next, depth + 1, c, entered, size);
            if (inside.refusal)
                return inside;
        } else if (f[i] == OVERLOAD || f[i] == END) {
            return fault(10, i);
        } else if (entered) {
            *size += next - i;
        }
        i = next;
    }
    return fault(0, 0);
}

static plain_checked check(const uint8_t *f, size_t n, asked c, size_t *size)
{
    if (n > LONGEST_FILE)
        return fault(16, n);
    if (n < HEAD || f[0] != GROUP || n - HEAD < length_at(f, 0))
        return fault(20, 0);
    size_t end = HEAD + length_at(f, 0);
    plain_checked inside = check_group(f, 0, end, 1, c, true, size);
    if (inside.refusal == 0 && end < n)
        return fault(20, end);
    return inside;
}

/* Copies the records that are chosen of a group without a fault. Returns where they end. */
static uint8_t *copy_group(const uint8_t *f, size_t at, size_t end, asked c, uint8_t *out)
{
    size_t i = at + HEAD;
    if (!reached(f, i, c))
        return out;
    i += 1 + f[i];
    while (i < end) {
        size_t length = HEAD + length_at(f, i);
        if (f[i] == GROUP) {
            out = copy_group(f, i, i + length, c, out);
        } else {
            memcpy(out, f + i, length);
            out += length;
        }
        i += length;
    }
    return out;
}

plain_checked plain_check_grouped(const uint8_t *f, size_t n)
{
    size_t size = 0;
    return check(f, n, (asked){0}, &size);
}

plain_filled plain_choose(const uint8_t *f, size_t n, const uint8_t *class, size_t letters, uint8_t *out, size_t room)
{
    asked c = {class, letters};
    size_t size = 0;
    plain_checked told = check(f, n, c, &size);
    if (told.refusal)
        return refused(told.refusal, told.place);
    if (room < size)
        return refused(11, room);
    copy_group(f, 0, n, c, out);
    return (plain_filled){.size = size};
}

plain_filled plain_group(const uint8_t *sheet, size_t n, uint8_t *out, size_t room)
{
    if (n > LONGEST_SHEET)
        return refused(16, n);
    for (size_t i = 0; i < n; i += HEAD + length_at(sheet, i)) {
        if (n - i < HEAD || n - i - HEAD < length_at(sheet, i))
            return refused(12, i);
        if (sheet[i] == GROUP || sheet[i] == OVERLOAD || sheet[i] == END)
            return refused(10, i);
    }
    if (room < n + 4)
        return refused(11, room);
    out[0] = GROUP;
    out[1] = (n + 1) >> 8;
    out[2] = (n + 1) & 255;
    out[3] = 0;
    memcpy(out + 4, sheet, n);
    return (plain_filled){.size = n + 4};
}

plain_filled plain_ungroup(const uint8_t *f, size_t n, uint8_t *out, size_t room)
{
    plain_checked told = plain_check_grouped(f, n);
    if (told.refusal)
        return refused(told.refusal, told.place);
    if (f[3] != 0)
        return refused(22, 0);
    for (size_t i = 4; i < n; i += HEAD + length_at(f, i))
        if (f[i] == GROUP)
            return refused(22, 0);
    if (room < n - 4)
        return refused(11, room);
    memcpy(out, f + 4, n - 4);
    return (plain_filled){.size = n - 4};
}
