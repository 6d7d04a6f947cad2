/* Classless routes, option 121 (RFC 3442; request 14 of document 02). */
#include "plain.h"

#include <string.h>

enum { CLASSLESS_ROUTES = 121, WIDEST = 32, GIVEN = 9 };

/* The width's whole and begun bytes of destination. */
static size_t kept_bytes(uint8_t width)
{
    return (width + 7u) / 8;
}

static uint32_t number32(const uint8_t *d)
{
    return (uint32_t)d[0] << 24 | (uint32_t)d[1] << 16 | (uint32_t)d[2] << 8 | d[3];
}

/* The bits past a width of at most 32; of 32 none. */
static uint32_t past(uint8_t width)
{
    return (uint32_t)(UINT32_MAX >> width % 32) * (width < WIDEST);
}

plain_route plain_route_step(const uint8_t *bytes, size_t n, size_t at)
{
    if (at >= n || bytes[at] > WIDEST)
        return (plain_route){.next = at};
    uint8_t width = bytes[at];
    size_t kept = kept_bytes(width);
    if (n - at < 1 + kept + 4)
        return (plain_route){.next = at};
    /* Four bytes are there in any case, those of a router if not of the destination, which the width leaves off. */
    const uint8_t *destination = bytes + at + 1;
    return (plain_route){
        .given = 1,
        .destination = number32(destination) & ~past(width),
        .width = width,
        .router = number32(destination + kept),
        .next = at + 1 + kept + 4,
    };
}

static plain_filled refused(uint32_t refusal, size_t place)
{
    return (plain_filled){.refusal = refusal, .place = place};
}

/* A refusal writes nothing, so the copying waits for the end of a walk that judges and measures. */
plain_filled plain_routes_write(const uint8_t *routes, size_t n, uint8_t *out, size_t room)
{
    size_t size = 0;
    if (n == 0)
        return refused(26, 0);
    for (size_t i = 0; i < n; i += GIVEN) {
        const uint8_t *route = routes + i;
        if (n - i < GIVEN || route[0] > WIDEST || (number32(route + 1) & past(route[0])) != 0)
            return refused(26, i / GIVEN);
        size += 1 + kept_bytes(route[0]) + 4;
    }
    if (size > room)
        return refused(11, room);
    for (const uint8_t *route = routes; route < routes + n; route += GIVEN) {
        size_t kept = kept_bytes(route[0]);
        /* The router goes over what is left off: both copies have a size that the compiler knows. */
        memcpy(out, route, 5);
        memcpy(out + 1 + kept, route + 5, 4);
        out += 1 + kept + 4;
    }
    return (plain_filled){.size = size};
}

/* A broken 121 has the number and the place of its refusal. */
plain_ignored plain_routes_ignored(const uint8_t *m, size_t n, const uint64_t known[4])
{
    plain_answer a = plain_lookup(m, n, known, CLASSLESS_ROUTES);
    return (plain_ignored){.refusal = a.refusal, .ignored = a.kind == PLAIN_ROUTES, .place = a.place};
}
