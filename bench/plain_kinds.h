/* What the plain reader and the plain writer share: the layout of a message, and the kinds of options. */
#ifndef PLAIN_KINDS_H
#define PLAIN_KINDS_H

#include "plain.h"

#include <stdbool.h>

enum { SNAME = 44, FILE_FIELD = 108, COOKIE = 236, OPTIONS = 240, LONGEST = 1472 };
enum { PAD = 0, OVERLOAD = 52, END = 255 };

/* Where value_fits says no. Request 09: "8 where sub-options don't fill the data exactly"; request 14: the first faulty route tells. */
#define VALUE_FAULT(kind, d, n) ((kind) == PLAIN_RELAY || ((kind) == PLAIN_ROUTES && routes_fault(d, n) == 8) ? 8u : 9u)

/* Request 14: a width, its whole and begun bytes of destination, four of router. */
enum { WIDEST = 32 };

static size_t route_length(uint8_t width)
{
    return 1 + (width + 7u) / 8 + 4;
}

/* Request 04: the kinds by ranges of codes, in rising order, those without a row too, 8, 10 and 34 among them (request 10). A range begins behind the
   one before; the last is there to fill the 64 rows. */
static const uint8_t RANGE_LAST[64] = {
    0, 1, 2, 7, 8, 9, 10, 11, 12, 13, 15, 16, 18, 20, 21, 22, 23, 24, 25, 26, 27, 28, 31, 32, 33, 34,
    35, 36, 37, 38, 39, 40, 42, 43, 45, 46, 47, 49, 50, 51, 53, 54, 55, 56, 57, 59, 61, 63, 64, 65,
    67, 76, 81, 82, 120, 121, 255, 255, 255, 255, 255, 255, 255, 255,
};
static const uint8_t RANGE_KIND[64] = {
    PLAIN_NO_ROW, PLAIN_ADDRESS, PLAIN_SIGNED32, PLAIN_ADDRESSES, PLAIN_NO_ROW, PLAIN_ADDRESSES,
    PLAIN_NO_ROW, PLAIN_ADDRESSES, PLAIN_TEXT, PLAIN_NUMBER16,
    PLAIN_TEXT, PLAIN_ADDRESS, PLAIN_TEXT, PLAIN_FLAG, PLAIN_PAIRS, PLAIN_NUMBER16, PLAIN_OCTET,
    PLAIN_UNSIGNED32, PLAIN_NUMBERS16, PLAIN_NUMBER16, PLAIN_FLAG, PLAIN_ADDRESS, PLAIN_FLAG,
    PLAIN_ADDRESS, PLAIN_PAIRS, PLAIN_NO_ROW, PLAIN_UNSIGNED32, PLAIN_FLAG, PLAIN_OCTET,
    PLAIN_UNSIGNED32, PLAIN_FLAG, PLAIN_TEXT, PLAIN_ADDRESSES, PLAIN_OPAQUE, PLAIN_ADDRESSES,
    PLAIN_OCTET, PLAIN_OPAQUE, PLAIN_ADDRESSES, PLAIN_ADDRESS, PLAIN_UNSIGNED32, PLAIN_OCTET,
    PLAIN_ADDRESS, PLAIN_OPAQUE, PLAIN_TEXT, PLAIN_NUMBER16, PLAIN_UNSIGNED32, PLAIN_OPAQUE,
    PLAIN_NO_ROW, PLAIN_TEXT, PLAIN_ADDRESSES, PLAIN_TEXT, PLAIN_ADDRESSES, PLAIN_NO_ROW,
    PLAIN_RELAY, PLAIN_NO_ROW, PLAIN_ROUTES, PLAIN_NO_ROW, PLAIN_NO_ROW, PLAIN_NO_ROW,
    PLAIN_NO_ROW, PLAIN_NO_ROW, PLAIN_NO_ROW, PLAIN_NO_ROW, PLAIN_NO_ROW,
};

/* The first range that doesn't end before the code: by halves, six times, without a branch. */
static uint32_t kind_of(uint8_t c)
{
    const uint8_t *r = RANGE_LAST;
    r += (r[31] < c) * 32;
    r += (r[15] < c) * 16;
    r += (r[7] < c) * 8;
    r += (r[3] < c) * 4;
    r += (r[1] < c) * 2;
    r += r[0] < c;
    return RANGE_KIND[r - RANGE_LAST];
}

static uint32_t number16(const uint8_t *d)
{
    return (uint32_t)d[0] << 8 | d[1];
}

static uint32_t number32(const uint8_t *d)
{
    return (uint32_t)d[0] << 24 | (uint32_t)d[1] << 16 | (uint32_t)d[2] << 8 | d[3];
}

static bool length_fits(uint32_t kind, uint8_t c, size_t n)
{
    switch (kind) {
    case PLAIN_NO_ROW:
        return true;
    case PLAIN_ADDRESS: case PLAIN_UNSIGNED32: case PLAIN_SIGNED32:
        return n == 4;
    case PLAIN_ADDRESSES:
        return n % 4 == 0 && (n > 0 || c == 68);
    case PLAIN_PAIRS:
        return n % 8 == 0 && n > 0;
    case PLAIN_FLAG: case PLAIN_OCTET:
        return n == 1;
    case PLAIN_NUMBER16:
        return n == 2;
    case PLAIN_NUMBERS16:
        return n % 2 == 0 && n > 0;
    case PLAIN_RELAY:
        return n >= 2;
    case PLAIN_ROUTES:
        return n >= 5;
    default:
        return n > (c == 61);
    }
}

/* The number of the first faulty route, 0 if there is none. */
static uint32_t routes_fault(const uint8_t *d, size_t n)
{
    for (size_t i = 0; i < n; i += route_length(d[i])) {
        if (d[i] > WIDEST)
            return 9;
        if (n - i < route_length(d[i]))
            return 8;
    }
    return 0;
}

static bool value_fits(uint32_t kind, uint8_t c, const uint8_t *d, size_t n)
{
    switch (kind) {
    case PLAIN_PAIRS:
        for (size_t i = 0; c == 33 && i < n; i += 8)
            if (number32(d + i) == 0)
                return false;
        return true;
    case PLAIN_FLAG:
        return d[0] <= 1;
    case PLAIN_OCTET:
        switch (c) {
        case 46:
            return d[0] == 1 || d[0] == 2 || d[0] == 4 || d[0] == 8;
        case 52:
            return d[0] >= 1 && d[0] <= 3;
        case 53:
            return d[0] >= 1 && d[0] <= 8;
        default:
            return d[0] >= 1;
        }
    case PLAIN_NUMBER16:
        return number16(d) >= (c == 13 ? 0 : c == 26 ? 68 : 576);
    case PLAIN_NUMBERS16: {
        uint32_t least = 68;
        for (size_t i = 0; i < n; i += 2) {
            uint32_t x = number16(d + i);
            if (x < least)
                return false;
            least = x;
        }
        return true;
    }
    case PLAIN_TEXT:
        while (n > 0 && d[n - 1] == 0)
            n--;
        for (size_t i = 0; i < n; i++)
            if (d[i] < 1 || d[i] > 127)
                return false;
        return true;
    case PLAIN_RELAY: {
        size_t i = 0;
        while (n - i >= 2 && n - i - 2 >= d[i + 1])
            i += d[i + 1] + 2u;
        return i == n; /* else the length is wrong: VALUE_FAULT */
    }
    case PLAIN_ROUTES:
        return routes_fault(d, n) == 0;
    default:
        return true;
    }
}

#endif
