/* Relay information, option 82 (RFC 3046; request 09 of document 02). */
#include "plain.h"

#include <string.h>

enum { CIRCUIT_ID = 1, REMOTE_ID = 2, HEAD = 3, LONGEST_SHEET = 4096, LONGEST_SUB_OPTION = 255, LONGEST_RELAY = 255 };

/* A refusal writes nothing, so the copying waits for the end of a walk that judges and measures. */
plain_relay plain_relay_records(const uint8_t *bytes, size_t n, uint8_t *out, size_t room)
{
    plain_relay r = {.size = n}; /* a record's length takes two bytes, a sub-option's one */
    if (n == 0)
        return (plain_relay){.refusal = 8, .place = 0};
    for (size_t i = 0; i < n; i += bytes[i + 1] + 2u) {
        if (n - i < 2 || n - i - 2 < bytes[i + 1])
            return (plain_relay){.refusal = 8, .place = i};
        if (bytes[i] == CIRCUIT_ID && !r.circuit_start) {
            r.circuit_start = i + 2;
            r.circuit_length = bytes[i + 1];
        }
        if (bytes[i] == REMOTE_ID && !r.remote_start) {
            r.remote_start = i + 2;
            r.remote_length = bytes[i + 1];
        }
        r.size++;
    }
    if (room < r.size)
        return (plain_relay){.refusal = 11, .place = room};
    for (const uint8_t *p = bytes; p < bytes + n; p += p[1] + 2) {
        out[0] = p[0];
        out[1] = 0;
        memcpy(out + 2, p + 1, p[1] + 1);
        out += p[1] + HEAD;
    }
    return r;
}

static plain_filled refused(uint32_t refusal, size_t place)
{
    return (plain_filled){.refusal = refusal, .place = place};
}

plain_filled plain_relay_write(const uint8_t *sheet, size_t n, uint8_t *out, size_t room)
{
    if (n > LONGEST_SHEET)
        return refused(16, n);
    size_t size = n;
    for (size_t i = 0; i < n;) {
        if (n - i < HEAD)
            return refused(12, i);
        size_t length = (size_t)sheet[i + 1] << 8 | sheet[i + 2];
        if (n - i - HEAD < length)
            return refused(12, i);
        if (length > LONGEST_SUB_OPTION)
            return refused(13, i);
        size--;
        i += HEAD + length;
    }
    if (size == 0)
        return refused(8, 0);
    if (size > LONGEST_RELAY || size > room)
        return refused(11, room);
    for (const uint8_t *p = sheet; p < sheet + n; p += HEAD + p[2]) {
        out[0] = p[0];
        memcpy(out + 1, p + 2, p[2] + 1);
        out += p[2] + 2;
    }
    return (plain_filled){.size = size};
}
