/* Vendor information, option 43 (RFC 2132, 8.4; request 05 of document 02). */
#include "plain.h"

#include <stdbool.h>
#include <string.h>

enum { PAD = 0, END = 255, HEAD = 3, LONGEST_SHEET = 4096, LONGEST_ITEM = 255, LONGEST_VENDOR = 255 };

static plain_filled refused(uint32_t refusal, size_t place)
{
    return (plain_filled){.refusal = refusal, .place = place};
}

/* A refusal writes nothing, so the copying waits for the end of a walk that judges and measures. */
plain_filled plain_vendor_records(const uint8_t *bytes, size_t n, uint8_t *out, size_t room)
{
    size_t size = 0, i = 0;
    while (i < n && bytes[i] != END) {
        if (bytes[i] == PAD) {
            i++;
            continue;
        }
        if (n - i < 2 || n - i - 2 < bytes[i + 1])
            return refused(17, i);
        size += bytes[i + 1] + HEAD;
        i += bytes[i + 1] + 2u;
    }
    if (room < size)
        return refused(11, room);
    const uint8_t *end = bytes + i;
    for (const uint8_t *p = bytes; p < end; p += *p == PAD ? 1 : 2 + p[1]) {
        if (*p == PAD)
            continue;
        out[0] = p[0];
        out[1] = 0;
        memcpy(out + 2, p + 1, p[1] + 1);
        out += p[1] + HEAD;
    }
    return (plain_filled){.size = size};
}

plain_filled plain_vendor_write(const uint8_t *sheet, size_t n, uint8_t *out, size_t room)
{
    if (n > LONGEST_SHEET)
        return refused(16, n);
    size_t size = n; /* an item's length takes one byte, a record's two */
    for (size_t i = 0; i < n;) {
        if (n - i < HEAD)
            return refused(12, i);
        size_t length = (size_t)sheet[i + 1] << 8 | sheet[i + 2];
        if (n - i - HEAD < length)
            return refused(12, i);
        if (sheet[i] == PAD || sheet[i] == END)
            return refused(10, i);
        if (length > LONGEST_ITEM)
            return refused(13, i);
        size--;
        i += HEAD + length;
    }
    if (size > LONGEST_VENDOR || size > room)
        return refused(11, room);
    for (const uint8_t *p = sheet; p < sheet + n; p += HEAD + p[2]) {
        out[0] = p[0];
        memcpy(out + 1, p + 2, p[2] + 1);
        out += p[2] + 2;
    }
    return (plain_filled){.size = size};
}
